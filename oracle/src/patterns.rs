//! A whole small space: every set of positions of two terms in one or two short documents, with every question of up to three names.

use crate::case::{Call, Case, ENDS};
use crate::compare::{opened, Runner};
use crate::given::{Given, Posting, Term};
use crate::questions::put_full;
use crate::rust::Opened;

const NAMES: [&[u8]; 3] = [b"a", b"b", b"x"];

struct Question {
    text: Vec<u8>,
    ends: Vec<u32>,
}

/// Every choice of up to three of two terms and an absent one.
fn questions() -> Vec<Question> {
    let mut all = Vec::new();
    for count in 0..=3usize {
        for choice in 0..3usize.pow(count as u32) {
            let names = (0..count).map(|i| NAMES[choice / 3usize.pow(i as u32) % 3]);
            all.push(Question { text: names.flatten().copied().collect(), ends: (1..=count as u32).collect() });
        }
    }
    all
}

/// The documents have these ids; a set of positions is a number's bits; an empty set is no posting.
fn given(documents: &[(u32, u32)], sets: &[[u32; 2]]) -> Given {
    let mut terms = Vec::new();
    for term in 0..2 {
        let mut postings = Vec::new();
        for ((id, _), set) in documents.iter().zip(sets) {
            let positions: Vec<u32> = (0..4).filter(|p| set[term] >> p & 1 == 1).collect();
            if !positions.is_empty() {
                postings.push(Posting { id: *id, positions });
            }
        }
        if !postings.is_empty() {
            terms.push(Term { name: NAMES[term].to_vec(), postings });
        }
    }
    Given { documents: documents.to_vec(), terms }
}

fn ask_all(runner: &mut Runner, given: &Given, opened: &Opened, questions: &[Question]) {
    let bytes = opened.bytes;
    for question in questions {
        let mut case = Case::on(Call::Phrase, bytes).named(&question.text);
        case.lists[ENDS] = &question.ends;
        put_full(runner, &case, opened, given);
        for window in 1..=4 {
            for ordered in [false, true] {
                put_full(runner, &Case { call: Call::NearTerms, ordered, number: window, ..case }, opened, given);
            }
        }
    }
    for a in NAMES {
        for b in NAMES {
            for window in 0..=4 {
                put_full(runner, &Case { second: b, ..Case::on(Call::Near, bytes).named(a).numbered(window) }, opened, given);
            }
        }
        for call in [Call::Df, Call::DocsWithTerm, Call::TermPostings] {
            runner.ask_full(&Case::on(call, bytes).named(a), opened);
        }
        for (id, _) in &given.documents {
            runner.ask_full(&Case::on(Call::Positions, bytes).named(a).numbered(*id), opened);
        }
    }
}

fn one(runner: &mut Runner, documents: &[(u32, u32)], sets: &[[u32; 2]], questions: &[Question]) {
    let given = given(documents, sets);
    let flat = given.flat();
    let nothing = opened(&[]);
    let Some(answer) = runner.ask_full(&flat.case(), &nothing) else {
        return runner.stray(format!("lists that fit are refused: {given:?}"));
    };
    let segment = opened(&answer.bytes);
    ask_all(runner, &given, &segment, questions);
    runner.sheets.some_of(&segment, &given, 2);
}

/// Lengths up to 4 in one document; in two documents up to 4 if the whole space is asked for, else up to 3.
pub fn all(runner: &mut Runner, whole: bool) {
    let questions = questions();
    for length in 0..=4u32 {
        let sets = 1 << length;
        for a in 0..sets {
            for b in 0..sets {
                one(runner, &[(7, length)], &[[a, b]], &questions);
            }
        }
    }
    let length = if whole { 4 } else { 3 };
    let sets = 1 << length;
    for all in 0..1u32 << (4 * length) {
        let set = |i: u32| all >> (i * length) & (sets - 1);
        one(runner, &[(3, length), (7, length)], &[[set(0), set(1)], [set(2), set(3)]], &questions);
    }
}
