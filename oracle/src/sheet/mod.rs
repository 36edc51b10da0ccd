//! `pstp_bar_sheet` beside a model of wish 3, which the Rust does not have. Read in this order:
//!   model, read_back             the sheet from document 02's words; a sheet read by its columns against the lists handed in
//!   call, compare, tally         the library through the C interface; one sheet by both; what was reached
//!   worked, corners, small       sheets worked out by hand, tests that meet, whole small spaces
//!   make, broken, rounds         random bars, and lists broken in a known way
//!   shrink                       a case as text and made smaller

mod broken;
mod call;
mod compare;
mod corners;
mod make;
mod model;
mod read_back;
mod rounds;
mod shrink;
mod small;
mod tally;
mod worked;

pub use broken::{broken, lengthened};
pub use compare::Sheets;
pub use model::Paper;
pub use shrink::{given_of, one_case};

use crate::given::Given;
use crate::random::Random;
use crate::rust;
use std::time::Instant;

/// What the Rust writes for lists that fit; nothing for others.
pub fn written(given: &Given) -> Vec<u8> {
    let nothing = crate::compare::opened(&[]);
    crate::compare::found(&given.flat().case(), &nothing).map_or(Vec::new(), |rust::Answer { bytes, .. }| bytes)
}

/// Says what a part of the run took.
fn part(sheets: &mut Sheets, name: &str, run: impl FnOnce(&mut Sheets)) {
    let (start, calls) = (Instant::now(), sheets.tally.calls);
    run(sheets);
    let (calls, took) = (sheets.tally.calls - calls, start.elapsed().as_secs_f64());
    println!("sheets, {name}: {calls} calls in {took:.1} s, differences so far {}", sheets.differences);
}

pub fn all(sheets: &mut Sheets, seed: u64, calls: u64, whole: bool) {
    part(sheets, "worked", worked::all);
    part(sheets, "corners", corners::all);
    part(sheets, "small spaces", |sheets| small::all(sheets, whole));
    let mut random = Random::new(seed);
    part(sheets, &format!("random, seed {seed}"), |sheets| {
        let until = sheets.tally.calls + calls;
        while sheets.tally.calls < until {
            rounds::round(sheets, &mut random);
        }
    });
}

/// Prints the differences, the smallest one made smaller.
pub fn conclude(sheets: &mut Sheets) {
    println!("differences of bar_sheet: {}", sheets.differences);
    for said in &sheets.astray {
        println!("the model itself: {said}");
    }
    if let Some(kept) = sheets.smallest.take() {
        let kept = shrink::shrunk(sheets, kept);
        println!("smallest: {}", shrink::shown(&kept));
        let opened = crate::compare::opened(&kept.segment);
        let found = model::found(&Paper::new(&opened), kept.id);
        print!("{}", sheets.differs(&kept.segment, kept.id, &found, kept.room).unwrap_or_default());
    }
}
