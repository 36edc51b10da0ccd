//! One round of random segments: written, in longer forms, with a shared list, with lists broken in a known way, and damaged.

use super::broken::{broken, lengthened};
use super::compare::Sheets;
use super::make;
use super::model::Paper;
use super::written;
use crate::compare::opened;
use crate::damage::damaged;
use crate::given::Given;
use crate::parts::Parts;
use crate::random::Random;
use crate::reply::Refusal;

/// A segment that has the same lists as these.
fn same(sheets: &mut Sheets, segment: &[u8], given: &Given, count: usize) {
    sheets.some_of(&opened(segment), given, count);
}

fn sharing(sheets: &mut Sheets, random: &mut Random, parts: &Parts, given: &Given) {
    let (mut parts, mut given) = (parts.clone(), given.clone());
    let (from, to) = (random.below(given.terms.len()), random.below(given.terms.len()));
    let list = parts.entries[from].clone();
    let entry = &mut parts.entries[to];
    (entry.list_at, entry.list_len, entry.df, entry.checksum) = (list.list_at, list.list_len, list.df, list.checksum);
    given.terms[to].postings = given.terms[from].postings.clone();
    same(sheets, &parts.bytes(), &given, 2);
}

/// One or two lists are broken: the first of them stands, for a bar that is there and fits the paper.
fn breaking(sheets: &mut Sheets, random: &mut Random, parts: &Parts, given: &Given) {
    let mut parts = parts.clone();
    let mut first: Option<(usize, Refusal)> = None;
    for term in [random.below(given.terms.len()), random.below(given.terms.len())] {
        if first.is_none_or(|(known, _)| term != known) {
            if let Some(refusal) = broken(random, &mut parts, given, term) {
                first = first.filter(|(known, _)| *known < term).or(Some((term, refusal)));
            }
        }
        if random.chance(50) {
            break;
        }
    }
    let Some((_, refusal)) = first else { return };
    let segment = parts.bytes();
    let opened = opened(&segment);
    let paper = Paper::new(&opened);
    for _ in 0..3 {
        let (id, length) = given.documents[random.below(given.documents.len())];
        let beside = random.chance(15) && given.documents.iter().all(|document| document.0 != id ^ 1);
        let (id, known) = match length {
            _ if beside => (id ^ 1, Refusal::of_kind(16)),
            65.. => (id, Refusal::of_kind(17)),
            _ => (id, refusal),
        };
        match sheets.ask(&paper, id) {
            Err((_, refusal)) if refusal == known => sheets.tally.broken += 1,
            other => sheets.stray(format!("bar {id} over {given:?}: {known:?} is known, the model says {other:?}")),
        }
    }
}

pub fn round(sheets: &mut Sheets, random: &mut Random) {
    let given = make::given(random);
    let segment = written(&given);
    same(sheets, &segment, &given, 4);
    let Some(parts) = Parts::of(&segment) else { return sheets.stray(format!("lists that fit are refused: {given:?}")) };
    if !given.terms.is_empty() {
        let mut long = parts.clone();
        for term in 0..given.terms.len() {
            if random.chance(60) {
                lengthened(random, &mut long, &given, term);
            }
        }
        same(sheets, &long.bytes(), &given, 2);
        sharing(sheets, random, &parts, &given);
        for _ in 0..2 {
            breaking(sheets, random, &parts, &given);
        }
    }
    for _ in 0..2 {
        sheets.some(&opened(&damaged(random, &segment)));
    }
}
