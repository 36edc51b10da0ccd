//! `pstp_length_of` beside a model of wish 8, which the Rust does not have over a caller's lists. Read in this order:
//!   model                   the answer from document 02's words, by passing over the lists
//!   call, compare           the library through the C interface, between pages that cannot be touched; one lookup by both
//!   tally, seen             what was reached, clause by clause
//!   worked, small, limits   answers worked out by hand, whole small spaces, lists of 16,777,216 and of one more
//!   make, rounds            random lists of which the maker knows the answer
//!   segments                the lists of a segment, beside what `pstp_document_len` and the Rust say of it
//!   shrink                  a case as text and made smaller

mod call;
mod compare;
mod limits;
mod make;
mod model;
mod rounds;
mod seen;
mod segments;
mod shrink;
mod small;
mod tally;
mod worked;

pub use compare::Lookups;
pub use shrink::one_case;

use crate::random::Random;
use std::time::Instant;

/// Says what a part of the run took.
fn part(lookups: &mut Lookups, name: &str, run: impl FnOnce(&mut Lookups)) {
    let (start, calls) = (Instant::now(), lookups.tally.calls);
    run(lookups);
    let (calls, took) = (lookups.tally.calls - calls, start.elapsed().as_secs_f64());
    println!("lookups, {name}: {calls} calls in {took:.1} s, differences so far {}", lookups.differences);
}

pub fn all(lookups: &mut Lookups, seed: u64, calls: u64, whole: bool) {
    call::report_faults();
    part(lookups, "worked", worked::all);
    part(lookups, "small spaces", |lookups| small::all(lookups, whole));
    part(lookups, "limits of 16,777,216", limits::all);
    let mut random = Random::new(seed);
    part(lookups, &format!("random, seed {seed}"), |lookups| {
        let until = lookups.tally.calls + calls;
        while lookups.tally.calls < until {
            rounds::round(lookups, &mut random);
        }
    });
    part(lookups, &format!("lists of segments, seed {seed}"), |lookups| {
        let until = lookups.tally.calls + calls / 4;
        while lookups.tally.calls < until {
            segments::round(lookups, &mut random);
        }
    });
}

/// Prints the differences, the smallest one made smaller.
pub fn conclude(lookups: &mut Lookups) {
    println!("differences of length_of: {}", lookups.differences);
    for said in &lookups.astray {
        println!("the model itself: {said}");
    }
    if let Some(kept) = lookups.smallest.take() {
        let kept = shrink::shrunk(lookups, kept);
        println!("smallest: {}", shrink::shown(&kept.lists, kept.id));
        print!("{}", shrink::differs(lookups, &kept).unwrap_or_default());
    }
}
