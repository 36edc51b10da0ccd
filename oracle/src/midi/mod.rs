//! `pstp_midi_bars` beside a model of wishes 2 and 9, which the Rust does not have. Read in this order:
//!   clause, model, answer        the rules from document 02's words: the clauses, a file's hits, what the call answers
//!   call, compare, tally         the library through the C interface; one file by both; what was reached
//!   expected, worked, real       files with their answers as text: worked out by hand, and written by other programs
//!   bytes, small, limits         whole small spaces, and the ends of what is allowed
//!   made, make, loud, spoil, bad_event, phrases, rounds      random files
//!   shrink, sample               a file as text and made smaller, and as a record of the replay list

mod answer;
mod bad_event;
mod bytes;
mod call;
mod clause;
mod compare;
mod expected;
mod limits;
mod loud;
mod made;
mod make;
mod model;
mod phrases;
mod real;
mod rounds;
mod sample;
mod shrink;
mod small;
mod spoil;
mod tally;
mod worked;

pub use compare::Midi;
pub use sample::Sample;
pub use shrink::one_case;

use crate::compare::Runner;
use crate::random::Random;
use std::path::Path;
use std::time::Instant;

/// Says what a part of the run took.
fn part(midi: &mut Midi, name: &str, quota: u32, run: impl FnOnce(&mut Midi)) {
    let (start, files, calls) = (Instant::now(), midi.tally.files, midi.tally.calls);
    if let Some(sample) = &mut midi.sample {
        sample.begin(quota);
    }
    run(midi);
    let (files, calls) = (midi.tally.files - files, midi.tally.calls - calls);
    let took = start.elapsed().as_secs_f64();
    println!("MIDI, {name}: {files} files, {calls} calls in {took:.1} s, differences so far {}", midi.differences);
}

/// Each part takes so many cases of every sort into the replay list, counting those of the parts before it.
pub fn all(midi: &mut Midi, runner: &mut Runner, home: &Path, seed: u64, files: u64, whole: bool) {
    part(midi, "worked files", 1, |midi| worked::all(midi, runner));
    part(midi, "files of other programs", 1, |midi| real::all(midi, runner, home));
    part(midi, "limits", 0, limits::all);
    let mut random = Random::new(seed);
    part(midi, &format!("random, seed {seed}"), 3, |midi| {
        let until = midi.tally.files + files;
        while midi.tally.files < until {
            rounds::round(midi, runner, &mut random);
        }
    });
    part(midi, "small spaces", 3, |midi| small::all(midi, whole));
}

/// Prints the differences, the smallest one made smaller.
pub fn conclude(midi: &mut Midi) {
    println!("differences of midi_bars: {}", midi.differences);
    for said in &midi.astray {
        println!("the model itself: {said}");
    }
    if let Some(kept) = midi.smallest.take() {
        let kept = shrink::shrunk(midi, kept);
        let found = answer::found(&kept.file);
        println!("smallest: {}", shrink::shown(&kept));
        print!("{}", midi.differs(&kept.file, &found, kept.room).unwrap_or_default());
    }
}
