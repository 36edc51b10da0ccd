//! One round of each sort of random input.

use crate::case::{Call, Case};
use crate::compare::{opened, Runner};
use crate::damage::damaged;
use crate::given::Given;
use crate::make;
use crate::questions::{self, Pool};
use crate::random::Random;
use crate::rust::Opened;
use crate::spoil::spoiled;

/// Whether the Rust gives back what was handed in.
fn given_back(given: &Given, opened: &Opened) -> bool {
    let Ok(segment) = &opened.segment else { return false };
    segment.document_lengths() == given.documents
        && given.terms.iter().all(|term| {
            let name = std::str::from_utf8(&term.name).expect("a made name is UTF-8");
            segment.term_postings(name).is_ok_and(|postings| {
                let back = postings.iter().map(|posting| (posting.doc_id, &posting.positions));
                back.eq(term.postings.iter().map(|posting| (posting.id, &posting.positions)))
            })
        })
}

/// Lists that fit, written by both and asked; then lists that do not, and the segment damaged, in the same way.
pub fn round(runner: &mut Runner, random: &mut Random) {
    let given = make::given(random);
    let flat = given.flat();
    let nothing = opened(&[]);
    let Some(answer) = runner.ask(random, &flat.case(), &nothing) else {
        return runner.stray(format!("lists that fit are refused: {given:?}"));
    };
    let positions: usize = given.terms.iter().flat_map(|term| &term.postings).map(|posting| posting.positions.len()).sum();
    let written = opened(&answer.bytes);
    if !given_back(&given, &written) {
        runner.stray(format!("what is given back differs: {given:?}"));
    }
    questions::all(runner, random, &written, &Pool::of(&given, positions <= 1000));
    runner.sheets.some_of(&written, &given, 3);
    for term in &given.terms {
        let case = Case::on(Call::TermPostings, &answer.bytes).named(&term.name);
        runner.ask(random, &case, &written);
    }
    for _ in 0..6 {
        let flat = spoiled(random, &given);
        runner.ask(random, &flat.case(), &nothing);
    }
    for _ in 0..3 {
        let bytes = damaged(random, &answer.bytes);
        let segment = opened(&bytes);
        questions::all(runner, random, &segment, &Pool::of(&given, false));
        runner.sheets.some(&segment);
    }
}
