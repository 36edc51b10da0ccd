//! `pstp_phrase_match_ranked` beside a model of wish 5, which the Rust does not have. Read in this order:
//!   model, by_steps              the answer from document 02's words; the same from the lists handed in
//!   call, compare, tally         the library through the C interface; one question by both; what was reached
//!   worked, corners, small       answers worked out by hand, tests that meet, whole small spaces
//!   large                        answers of 100,000 bars in hostile orders, bars with very many starts
//!   make, rounds                 random bars with many ties; written, in longer forms, broken and damaged
//!   shrink                       a case tried from its text, and made smaller

mod by_steps;
mod call;
mod compare;
mod corners;
mod large;
mod make;
mod model;
mod rounds;
mod shrink;
mod small;
mod tally;
mod worked;

pub use compare::Ranked;
pub use shrink::one_case;

use crate::random::Random;
use std::time::Instant;

/// Says what a part of the run took.
fn part(ranked: &mut Ranked, name: &str, run: impl FnOnce(&mut Ranked)) {
    let (start, calls) = (Instant::now(), ranked.tally.calls);
    run(ranked);
    let (calls, took) = (ranked.tally.calls - calls, start.elapsed().as_secs_f64());
    println!("ranked, {name}: {calls} calls in {took:.1} s, differences so far {}", ranked.differences);
}

pub fn all(ranked: &mut Ranked, seed: u64, calls: u64, whole: bool) {
    part(ranked, "worked", worked::all);
    part(ranked, "corners", corners::all);
    part(ranked, "small spaces", |ranked| small::all(ranked, whole));
    part(ranked, "large answers", large::all);
    let mut random = Random::new(seed);
    part(ranked, &format!("random, seed {seed}"), |ranked| {
        let until = ranked.tally.calls + calls;
        while ranked.tally.calls < until {
            rounds::round(ranked, &mut random);
        }
    });
}

/// Prints the differences, the smallest one made smaller.
pub fn conclude(ranked: &mut Ranked) {
    println!("differences of phrase_match_ranked: {}", ranked.differences);
    for said in &ranked.astray {
        println!("the model itself: {said}");
    }
    if let Some(kept) = ranked.smallest.take() {
        let kept = shrink::shrunk(ranked, kept);
        println!("smallest: {}", shrink::shown(&kept));
        print!("{}", shrink::differs(ranked, &kept, compare::lengths(&kept)).unwrap_or_default());
    }
}
