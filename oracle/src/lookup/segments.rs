//! The lists that `pstp_document_lengths` fills of a segment: a lookup in them has to answer what `pstp_document_len` and the Rust answer.

use super::compare::Lookups;
use super::make::{asked, lengths, rising};
use super::model::{reply, Lists};
use super::shrink::shown;
use crate::case::{Call, Case, Room};
use crate::compare::opened;
use crate::damage::damaged;
use crate::given::Given;
use crate::lent::Buffers;
use crate::library;
use crate::random::Random;
use crate::reply::Reply;
use crate::sheet::written;

fn ask(lookups: &mut Lookups, random: &mut Random, segment: &[u8]) {
    let opened = opened(segment);
    let Ok(rust) = &opened.segment else { return };
    let n = rust.document_lengths().len();
    let mut lent = Buffers::new();
    lent.lend(Room { places: [n, n, 0], bytes: 0 });
    let filled = library::ask(&Case::on(Call::DocumentLengths, segment), &mut lent);
    if filled != Reply::accepted(n as u64, 0) {
        return lookups.stray(format!("document_lengths of {n} documents answers {filled:?}"));
    }
    let lists = Lists { ids: lent.places[0].now().to_vec(), lengths: lent.places[1].now().to_vec() };
    for id in asked(random, &lists) {
        let told = lookups.run(&lists, id);
        let of_rust = rust.document_len(id);
        let own = library::ask(&Case::on(Call::DocumentLen, segment).numbered(id), &mut lent);
        if told.as_ref() == Ok(&of_rust) && reply(&told) == own {
            lookups.tally.of_segments += 1;
        } else {
            let case = shown(&lists, id);
            lookups.stray(format!("{case}: of the segment the Rust says {of_rust:?}, document_len {own:?}, the model {told:?}"));
        }
    }
}

/// A segment of bars with sounds, of many bars without, and these damaged, where they still open.
pub fn round(lookups: &mut Lookups, random: &mut Random) {
    let given = if random.chance(50) {
        crate::make::given(random)
    } else {
        let ids = rising(random);
        let lengths = lengths(random, &ids);
        Given { documents: ids.into_iter().zip(lengths).collect(), terms: Vec::new() }
    };
    let segment = written(&given);
    ask(lookups, random, &segment);
    for _ in 0..2 {
        let bytes = damaged(random, &segment);
        ask(lookups, random, &bytes);
    }
}
