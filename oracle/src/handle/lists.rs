//! Lists in longer forms of their numbers, shared by two terms, and broken in a known way: of these the first in the directory's order is
//! what `check` has to refuse. Every call is put to each segment.

use super::call::Handle;
use super::expected;
use crate::compare::{found, opened, Runner};
use crate::given::Given;
use crate::make;
use crate::parts::Parts;
use crate::questions::{self, Pool};
use crate::random::Random;
use crate::reply::Refusal;
use crate::sheet::{broken, lengthened};

/// All calls, and where the lists are those handed in, their answers against the rules.
fn ask(runner: &mut Runner, random: &mut Random, parts: &Parts, given: &Given, same: bool) {
    let positions: usize = given.terms.iter().flat_map(|term| &term.postings).map(|posting| posting.positions.len()).sum();
    questions::all(runner, random, &opened(&parts.bytes()), &Pool::of(given, same && positions <= 1000));
}

fn longer(runner: &mut Runner, random: &mut Random, parts: &Parts, given: &Given) {
    let mut parts = parts.clone();
    for term in 0..given.terms.len() {
        if random.chance(60) {
            lengthened(random, &mut parts, given, term);
        }
    }
    ask(runner, random, &parts, given, true);
}

fn shared(runner: &mut Runner, random: &mut Random, parts: &Parts, given: &Given) {
    let (mut parts, mut given) = (parts.clone(), given.clone());
    let (from, to) = (random.below(given.terms.len()), random.below(given.terms.len()));
    let list = parts.entries[from].clone();
    let entry = &mut parts.entries[to];
    (entry.list_at, entry.list_len, entry.df, entry.checksum) = (list.list_at, list.list_len, list.df, list.checksum);
    given.terms[to].postings = given.terms[from].postings.clone();
    ask(runner, random, &parts, &given, true);
}

/// One to three lists are broken, and the others whole.
fn breaking(runner: &mut Runner, random: &mut Random, parts: &Parts, given: &Given) {
    let mut parts = parts.clone();
    let mut first: Option<(usize, Refusal)> = None;
    let mut tried = Vec::new();
    for _ in 0..random.below(3) + 1 {
        let term = random.below(given.terms.len());
        if tried.contains(&term) {
            continue;
        }
        tried.push(term);
        if let Some(refusal) = broken(random, &mut parts, given, term) {
            first = first.filter(|(known, _)| *known < term).or(Some((term, refusal)));
        }
    }
    let Some((term, refusal)) = first else { return };
    let ([checked, _], _) = expected::handles(&parts.bytes());
    if checked == Handle::from(refusal) {
        runner.handles.tally.broken += 1;
    } else {
        runner.stray(format!("{refusal:?} is known of list {term}, the Rust decodes as {checked:?}: {given:?}"));
    }
    ask(runner, random, &parts, given, false);
}

pub fn round(runner: &mut Runner, random: &mut Random) {
    let given = make::given(random);
    let Ok(written) = found(&given.flat().case(), &opened(&[])) else { return };
    let Some(parts) = Parts::of(&written.bytes).filter(|parts| !parts.entries.is_empty()) else { return };
    longer(runner, random, &parts, &given);
    shared(runner, random, &parts, &given);
    for _ in 0..3 {
        breaking(runner, random, &parts, &given);
    }
}
