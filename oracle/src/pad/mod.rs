//! The calls on a pad beside a model of wishes 6, 7 and 9, a plain map, which the Rust does not have. Read in this order:
//!   model, words                   the map from document 02's words; the words that hold it, from the layout in include/pstp.h
//!   call, compare                  the library through the C interface, between pages that cannot be touched; one call by both
//!   velocities                     pads that differ in velocities alone, written out
//!   tally, seen, seen_names, seen_hits, seen_velocities  what was reached, clause by clause
//!   worked, corners, names, small  examples worked out by hand, tests that meet, whole small spaces
//!   make, damage, fill, rounds     random sequences: few ids, pads filled and torn, words that were damaged
//!   phrases                        phrases put to what was written, against the map's own hits
//!   shrink                         a case as text and made smaller

mod call;
mod compare;
mod corners;
mod damage;
mod fill;
mod make;
mod model;
mod names;
mod phrases;
mod rounds;
mod seen;
mod seen_hits;
mod seen_names;
mod seen_velocities;
mod shrink;
mod small;
mod tally;
mod velocities;
mod words;
mod worked;

pub use compare::Pads;
pub use shrink::one_case;

use crate::compare::Runner;
use crate::random::Random;
use std::time::Instant;

/// Says what a part of the run took.
fn part(pads: &mut Pads, name: &str, run: impl FnOnce(&mut Pads)) {
    let (start, calls) = (Instant::now(), pads.tally.total());
    run(pads);
    let (calls, took) = (pads.tally.total() - calls, start.elapsed().as_secs_f64());
    println!("pads, {name}: {calls} calls in {took:.1} s, differences so far {}", pads.differences);
}

pub fn all(pads: &mut Pads, runner: &mut Runner, seed: u64, calls: u64, whole: bool) {
    call::report_faults();
    part(pads, "worked", |pads| worked::all(pads, runner));
    part(pads, "corners", corners::all);
    part(pads, "names", names::all);
    part(pads, "small spaces", |pads| small::all(pads, whole));
    let mut random = Random::new(seed);
    part(pads, &format!("random, seed {seed}"), |pads| {
        let until = pads.tally.total() + calls;
        while pads.tally.total() < until {
            rounds::round(pads, runner, &mut random);
        }
    });
}

/// Prints the differences, the smallest one made smaller.
pub fn conclude(pads: &mut Pads) {
    println!("differences of the calls on pads: {}", pads.differences);
    for said in &pads.astray {
        println!("the model itself: {said}");
    }
    if let Some(said) = &pads.unlike {
        println!("{said}");
    }
    if let Some(kept) = pads.smallest.take() {
        let kept = shrink::shrunk(pads, kept);
        println!("smallest: {}", shrink::shown(&kept.words, &kept.call));
        print!("{}", shrink::differs(pads, &kept).unwrap_or_default());
    }
}
