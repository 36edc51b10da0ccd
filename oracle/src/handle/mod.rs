//! A segment checked once and asked often, which the Rust does not have: the calls with a handle. Read in this order:
//!   call                     handles, and the calls that make and take them, through the C interface
//!   expected                 the handles of a segment, from what the Rust opens and decodes
//!   beside                   each call of the other parts once more with each of the segment's handles
//!   lists                    segments whose lists are in longer forms, shared, or broken in a known way
//!   pages, inside, any       any handle with any bytes, in pages that end or begin where the slices do
//!   tally                    what was asked and reached

mod any;
mod beside;
mod call;
mod expected;
mod inside;
mod lists;
mod pages;
mod tally;

pub use any::{conclude, one_case, Any};
pub use beside::Handles;
pub use call::{ask, takes};
pub use lists::round;
pub use pages::Pages;

use crate::random::Random;
use std::time::Instant;

/// Any handle with any bytes, so many calls.
pub fn all(any: &mut Any, seed: u64, calls: u64) {
    let start = Instant::now();
    let mut random = Random::new(seed);
    inside::report_faults();
    while any.calls < calls {
        any.round(&mut random);
    }
    let took = start.elapsed().as_secs_f64();
    println!("any handle, seed {seed}: {} calls in {took:.1} s, differences so far {}", any.calls, any.differences);
}
