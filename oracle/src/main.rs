//! Runs the library beside the Rust. README.md says what is compared; read in this order:
//!   options                  what the program is asked to do
//!   case, reply, numbers     a call, its reply, document 01's numbers for the Rust's errors
//!   library, lent            the library through the C interface, with buffers whose every place is watched
//!   rust, words              the oracle's answer: the Rust's, and what document 01 adds to it
//!   given, rules             the writer's lists, and demand 3's rules tried over them
//!   compare, tally           one call by both; what was asked and reached
//!   make, spoil, parts, damage, questions, rounds      random inputs
//!   bars, worked, corners, patterns, strings, large    document 01's cases, whole small spaces, limits
//!   show, shrink, reshape, sample                      a case as text, made smaller, and as a record of the replay list
//!   handle                   a segment checked once and asked often: every call above with handles, and any handle with any bytes
//!   midi, sheet, ranked, pad, lookup   bars from MIDI files, a bar on paper, the best bars first, a pad to record on and the length
//!                            lookup for the menu, which the Rust does not have, beside models from document 02's words

mod bars;
mod case;
mod compare;
mod corners;
mod damage;
mod given;
mod handle;
mod large;
mod lent;
mod library;
mod lookup;
mod make;
mod midi;
mod numbers;
mod options;
mod pad;
mod parts;
mod patterns;
mod questions;
mod random;
mod ranked;
mod reply;
mod reshape;
mod rounds;
mod rules;
mod rust;
mod sample;
mod sheet;
mod show;
mod shrink;
mod spoil;
mod strings;
mod tally;
mod words;
mod worked;

use compare::{found, opened, Runner};
use handle::Any;
use lookup::Lookups;
use midi::Midi;
use options::{options, Options};
use pad::Pads;
use random::Random;
use sample::Sample;
use std::process::ExitCode;
use std::time::Instant;

/// Tries one pasted case.
fn one_case(line: &str) -> ExitCode {
    let Some(kept) = show::parsed(line) else {
        eprintln!("not a case: {line}");
        return ExitCode::from(2);
    };
    let case = kept.case();
    let found = found(&case, &opened(case.segment));
    println!("the oracle: {:x?}", rust::in_room(&case, &found, kept.room));
    match Runner::new(None, 1).differs(&case, &found, kept.room) {
        None => {
            println!("no difference");
            ExitCode::SUCCESS
        }
        Some(said) => {
            print!("{said}");
            ExitCode::FAILURE
        }
    }
}

/// Says what a part of the run took.
fn part(runner: &mut Runner, name: &str, quota: u32, run: impl FnOnce(&mut Runner)) {
    let (start, before) = (Instant::now(), runner.tally.total());
    if let Some(sample) = &mut runner.sample {
        sample.begin(quota);
    }
    run(runner);
    let calls = runner.tally.total() - before;
    println!("{name}: {calls} calls in {:.1} s, differences so far {}", start.elapsed().as_secs_f64(), runner.differences);
}

/// Document 01's calls, beside the Rust.
fn beside_the_rust(runner: &mut Runner, options: &Options) {
    part(runner, "document 01's bars", 12, bars::all);
    worked::all(runner, &options.home);
    part(runner, "corners", 12, corners::all);
    part(runner, "limits of 16,777,216", 0, large::all);
    part(runner, "all small patterns", 3, |runner| patterns::all(runner, options.whole));
    part(runner, "all short strings", 3, |runner| strings::all(runner, options.whole));
    let mut random = Random::new(options.seed);
    part(runner, &format!("random, seed {}", options.seed), 5, |runner| {
        let until = runner.tally.total() + options.calls;
        while runner.tally.total() < until {
            rounds::round(runner, &mut random);
        }
    });
}

/// The calls with a handle where lists are not as the writer makes them; those of the other parts have theirs there.
fn with_handles(runner: &mut Runner, options: &Options) {
    let mut random = Random::new(options.seed);
    part(runner, &format!("longer, shared and broken lists, seed {}", options.seed), 0, |runner| {
        let until = runner.tally.total() + options.handles / 4;
        while runner.tally.total() < until {
            handle::round(runner, &mut random);
        }
    });
}

fn conclude(runner: &mut Runner) {
    println!("differences: {}", runner.differences);
    for said in &runner.astray {
        println!("the Rust itself: {said}");
    }
    if let Some(kept) = runner.smallest.take() {
        let kept = shrink::shrunk(runner, kept);
        let case = kept.case();
        let found = found(&case, &opened(case.segment));
        println!("smallest: --case '{}'", show::shown(&kept));
        print!("{}", runner.differs(&case, &found, kept.room).unwrap_or_default());
    }
}

fn compared(options: &Options) -> std::io::Result<ExitCode> {
    let mut runner = Runner::new(options.sample.is_some().then(Sample::new), options.seed);
    let only = [
        options.only_midi,
        options.only_sheets,
        options.only_ranked,
        options.only_pads,
        options.only_lookups,
        options.only_handles,
    ];
    let all = !only.contains(&true);
    if all {
        beside_the_rust(&mut runner, options);
    }
    if let (Some(file), Some(sample)) = (&options.sample, runner.sample.take()) {
        sample.write(file)?;
    }
    let mut midi = Midi::new(options.midi_sample.is_some().then(midi::Sample::new));
    if all || options.only_midi {
        midi::all(&mut midi, &mut runner, &options.home, options.seed, options.midi_files, options.whole);
    }
    if all || options.only_sheets {
        sheet::all(&mut runner.sheets, options.seed, options.sheets, options.whole);
    }
    if all || options.only_ranked {
        ranked::all(&mut runner.ranked, options.seed, options.ranked, options.whole);
    }
    let mut pads = Pads::new();
    if all || options.only_pads {
        pad::all(&mut pads, &mut runner, options.seed, options.pads, options.whole);
    }
    let mut lookups = Lookups::new();
    if all || options.only_lookups {
        lookup::all(&mut lookups, options.seed, options.lookups, options.whole);
    }
    let mut any = Any::new();
    if all || options.only_handles {
        with_handles(&mut runner, options);
        handle::all(&mut any, options.seed, options.handles);
    }
    if let (Some(file), Some(sample)) = (&options.midi_sample, midi.sample.take()) {
        sample.write(file)?;
    }
    if all {
        runner.tally.print();
        println!("answers held against demand 3's rules over the lists handed in: {}", runner.ruled);
    }
    if all || options.only_handles {
        runner.handles.tally.print();
        any.print();
    }
    let mut missed = if all || options.only_midi { midi.tally.print() } else { 0 };
    if all || options.only_sheets {
        runner.sheets.tally.print();
    }
    if all || options.only_ranked {
        runner.ranked.tally.print();
    }
    if all || options.only_pads {
        missed += pads.tally.print();
    }
    if all || options.only_lookups {
        missed += lookups.tally.print();
    }
    conclude(&mut runner);
    midi::conclude(&mut midi);
    sheet::conclude(&mut runner.sheets);
    ranked::conclude(&mut runner.ranked);
    pad::conclude(&mut pads);
    lookup::conclude(&mut lookups);
    handle::conclude(&mut any);
    let beside_models = midi.differences + runner.sheets.differences + runner.ranked.differences;
    let beyond = beside_models + pads.differences + lookups.differences + any.differences;
    Ok(if runner.differences + beyond == 0 && missed == 0 { ExitCode::SUCCESS } else { ExitCode::FAILURE })
}

fn main() -> ExitCode {
    let options = match options() {
        Ok(options) => options,
        Err(said) => {
            eprintln!("{said}");
            return ExitCode::from(2);
        }
    };
    if options.uneven {
        worked::print_uneven();
        return ExitCode::SUCCESS;
    }
    if let Some(line) = &options.case {
        return one_case(line);
    }
    if let Some(line) = &options.midi_case {
        return midi::one_case(line);
    }
    if let Some(line) = &options.sheet_case {
        return sheet::one_case(line);
    }
    if let Some(line) = &options.ranked_case {
        return ranked::one_case(line);
    }
    if let Some(line) = &options.pad_case {
        return pad::one_case(line);
    }
    if let Some(line) = &options.lookup_case {
        return lookup::one_case(line);
    }
    if let Some(line) = &options.handle_case {
        return handle::one_case(line);
    }
    compared(&options).unwrap_or_else(|error| {
        eprintln!("a replay list could not be written: {error}");
        ExitCode::from(2)
    })
}
