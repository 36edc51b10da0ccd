//! Whole small spaces: every set of positions of two terms in one to three short bars, and every order that up to seven counts can have.

use super::compare::{question, Ranked};
use crate::compare::opened;
use crate::given::{Given, Posting, Term};
use crate::sheet::written;

const NAMES: [&[u8]; 3] = [b"a", b"b", b"x"];

/// The one byte of each name of a phrase.
type Phrase = Vec<u8>;

/// Every choice of up to three of two terms and an absent one.
fn phrases() -> Vec<Phrase> {
    let mut all = Vec::new();
    for count in 0..=3u32 {
        for choice in 0..3usize.pow(count) {
            all.push((0..count).flat_map(|i| NAMES[choice / 3usize.pow(i) % 3]).copied().collect());
        }
    }
    all
}

/// A set of positions is a number's bits; an empty set is no posting, and a term without postings is none.
fn given(documents: &[(u32, u32)], sets: &[Vec<u32>]) -> Given {
    let mut terms = Vec::new();
    for (name, sets) in NAMES.iter().zip(sets) {
        let mut postings = Vec::new();
        for ((id, length), set) in documents.iter().zip(sets) {
            let positions: Vec<u32> = (0..*length).filter(|position| set >> position & 1 == 1).collect();
            if !positions.is_empty() {
                postings.push(Posting { id: *id, positions });
            }
        }
        if !postings.is_empty() {
            terms.push(Term { name: name.to_vec(), postings });
        }
    }
    Given { documents: documents.to_vec(), terms }
}

fn ask_all(ranked: &mut Ranked, given: &Given, phrases: &[Phrase]) {
    let segment = written(given);
    let opened = opened(&segment);
    for text in phrases {
        let ends: Vec<u32> = (1..=text.len() as u32).collect();
        ranked.ask_full(&question(&segment, text, &ends), &opened, given);
    }
}

/// So many bars of one length, with every set of positions of so many terms.
fn patterns(ranked: &mut Ranked, bars: u32, length: u32, terms: u32, phrases: &[Phrase]) {
    let documents: Vec<(u32, u32)> = (0..bars).map(|bar| (2 * bar + 3, length)).collect();
    for all in 0..1u64 << (bars * length * terms) {
        let set = |term: u32, bar: u32| (all >> ((term * bars + bar) * length)) as u32 & ((1 << length) - 1);
        let sets: Vec<Vec<u32>> = (0..terms).map(|term| (0..bars).map(|bar| set(term, bar)).collect()).collect();
        ask_all(ranked, &given(&documents, &sets), phrases);
    }
}

/// So many bars, each with every count up to a most: of one name, and of a phrase of it twice.
fn orders(ranked: &mut Ranked, bars: u32, most: u32) {
    let documents: Vec<(u32, u32)> = (0..bars).map(|bar| (bar, most + 1)).collect();
    let counts = u64::from(most) + 1;
    for all in 0..counts.pow(bars) {
        // the first c + 1 positions have two in a row on c starts; the middle one alone has none
        let set = |bar: u32| match all / counts.pow(bar) % counts {
            0 => 1 << (most / 2),
            count => (2 << count) - 1,
        };
        ask_all(ranked, &given(&documents, &[(0..bars).map(set).collect()]), &[b"a".to_vec(), b"aa".to_vec()]);
    }
}

/// One bar of up to 5 positions, two of 3, three of 2; with the whole space 6, 4 and 3.
pub fn all(ranked: &mut Ranked, whole: bool) {
    let more = u32::from(whole);
    let phrases = phrases();
    for length in 0..=5 + more {
        patterns(ranked, 1, length, 2, &phrases);
    }
    patterns(ranked, 2, 3 + more, 2, &phrases);
    patterns(ranked, 3, 2 + more, 2, &phrases);
    patterns(ranked, 4, 3, 1, &[b"a".to_vec(), b"aa".to_vec(), b"aaa".to_vec()]);
    for bars in 1..=5 + 2 * more {
        orders(ranked, bars, bars);
    }
}
