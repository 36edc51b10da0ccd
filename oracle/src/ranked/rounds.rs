//! One round of random questions: to a segment written, in longer forms, with a shared list, with lists broken in a known way, and damaged.

use super::compare::{question, Ranked};
use super::make;
use crate::compare::opened;
use crate::damage::damaged;
use crate::given::Given;
use crate::parts::Parts;
use crate::questions::{ends_of, text_of, Pool};
use crate::random::Random;
use crate::reply::Refusal;
use crate::rust::Opened;
use crate::sheet::{broken, lengthened, written};

/// A phrase: names that stand side by side somewhere, one name some times, or any.
fn phrase(random: &mut Random, pool: &Pool) -> Vec<Vec<u8>> {
    match random.below(10) {
        0..=3 => pool.planted(random),
        4 | 5 => vec![pool.name(random); random.below(4) + 1],
        _ => pool.several(random),
    }
}

/// Some phrases; where the lists are those handed in, the answers are held against them.
fn some(ranked: &mut Ranked, random: &mut Random, opened: &Opened, given: &Given, same: bool, count: usize) {
    let pool = Pool::of(given, true);
    for _ in 0..count {
        let names = phrase(random, &pool);
        let (text, ends) = text_of(random, &names);
        drop(ranked.ask(&question(opened.bytes, &text, &ends), opened, same.then_some(given)));
    }
}

fn longer(ranked: &mut Ranked, random: &mut Random, parts: &Parts, given: &Given) {
    let mut parts = parts.clone();
    for term in 0..given.terms.len() {
        if random.chance(60) {
            lengthened(random, &mut parts, given, term);
        }
    }
    some(ranked, random, &opened(&parts.bytes()), given, true, 3);
}

fn sharing(ranked: &mut Ranked, random: &mut Random, parts: &Parts, given: &Given) {
    let (mut parts, mut given) = (parts.clone(), given.clone());
    let (from, to) = (random.below(given.terms.len()), random.below(given.terms.len()));
    let list = parts.entries[from].clone();
    let entry = &mut parts.entries[to];
    (entry.list_at, entry.list_len, entry.df, entry.checksum) = (list.list_at, list.list_len, list.df, list.checksum);
    given.terms[to].postings = given.terms[from].postings.clone();
    some(ranked, random, &opened(&parts.bytes()), &given, true, 3);
}

/// Some lists are broken: the first of them that a phrase names stands, and a phrase that names none is answered as before.
fn breaking(ranked: &mut Ranked, random: &mut Random, parts: &Parts, given: &Given) {
    let mut parts = parts.clone();
    let mut known: Vec<Option<Refusal>> = vec![None; given.terms.len()];
    for _ in 0..random.below(3) + 1 {
        let term = random.below(given.terms.len());
        if known[term].is_none() {
            known[term] = broken(random, &mut parts, given, term);
        }
    }
    let segment = parts.bytes();
    let opened = opened(&segment);
    let pool = Pool::of(given, true);
    for _ in 0..3 {
        let names = phrase(random, &pool);
        if names.len() > 128 || names.iter().any(|name| std::str::from_utf8(name).is_err()) {
            continue;
        }
        let place = |name: &Vec<u8>| given.terms.iter().position(|term| term.name == *name);
        let first = names.iter().filter_map(place).find_map(|term| known[term]);
        let (text, ends) = (names.concat(), ends_of(&names));
        let found = ranked.ask(&question(&segment, &text, &ends), &opened, first.is_none().then_some(given));
        let told = found.as_ref().err().map(|(_, refusal)| *refusal);
        if told != first {
            ranked.stray(format!("{names:?} over {given:?}: {first:?} is known, the model says {found:?}"));
        }
        ranked.tally.broken += u64::from(told == first && first.is_some());
    }
}

pub fn round(ranked: &mut Ranked, random: &mut Random) {
    let given = if random.chance(25) { crate::make::given(random) } else { make::given(random) };
    let segment = written(&given);
    let Some(parts) = Parts::of(&segment) else { return ranked.stray(format!("lists that fit are refused: {given:?}")) };
    some(ranked, random, &opened(&segment), &given, true, 8);
    if !given.terms.is_empty() {
        longer(ranked, random, &parts, &given);
        sharing(ranked, random, &parts, &given);
        for _ in 0..2 {
            breaking(ranked, random, &parts, &given);
        }
    }
    for _ in 0..3 {
        let bytes = damaged(random, &segment);
        some(ranked, random, &opened(&bytes), &given, false, 2);
    }
}
