//! Times the library against the original Rust, in one process on the same inputs, and prints docs/PERFORMANCE.md but for its notes.
//!   bench CODE CONSTANTS [--quick]     bytes of machine code and of constants in the library
//!   bench again CALL DOCUMENTS TIMES   one call of the library over and over, for a profiler
//!   bench one CALL DOCUMENTS ROUNDS    one call on both sides
//!   bench checked QUESTION BARS TIMES  one question to a segment that was checked once, over and over
//!   bench often [--quick]              questions to a segment that is opened each time, opened once or checked once
//!   bench limits                       the lists at their limits
//!   bench midi                         bars from MIDI files
//!   bench sheet                        a bar on paper
//!   bench ranked [--quick]             the best bars first
//!   bench pad                          a pad to record on
//!   bench lookup [--quick]             the length lookup for the menu
//!   bench checksum                     bytes a second
//!   bench stack                        the stack of every call
//! Read in this order: data, calls, library, drawn, counted, originals, measure, compare, checksum, limits, plain, midi, sheet, stack,
//! report, text; then words, handles, fts5, often, growth, report_often; then ranked, orders, report_ranked; then plain_pad, pad,
//! report_pad; then lookup, report_lookup.
mod again;
mod calls;
mod checksum;
mod compare;
mod counted;
mod data;
mod drawn;
#[cfg(sqlite)]
mod fts5;
#[cfg(not(sqlite))]
#[path = "no_fts5.rs"]
mod fts5;
mod growth;
mod handles;
mod library;
mod limits;
mod lookup;
mod measure;
mod midi;
mod often;
mod orders;
mod originals;
mod pad;
mod plain;
mod plain_pad;
mod ranked;
mod report;
mod report_lookup;
mod report_often;
mod report_pad;
mod report_ranked;
mod sheet;
mod stack;
mod text;
mod words;

use std::hint::black_box;

/// The stack of every call, over 1,000 documents: opened each time and, where there is a call with a handle, opened once and checked once.
fn depths() -> Vec<(String, Vec<usize>)> {
    let lists = data::bars(1000);
    let mut bytes = vec![0; lists.room()];
    let written = stack::depth(&mut || {
        black_box(library::write(&lists, &mut bytes));
    });
    let length = library::write(&lists, &mut bytes).first as usize;
    bytes.truncate(length);
    let mut buffers = library::Buffers::new(1000, lists.positions.len());
    let handles = [handles::open_once(&bytes), handles::check(&bytes)];
    let mut all = Vec::new();
    for call in calls::all(lists.ids[lists.ids.len() / 2]) {
        let mut depths = vec![stack::depth(&mut || {
            black_box(library::ask(&call, &bytes, &mut buffers));
        })];
        for handle in handles.iter().filter(|_| handles::has(&call)) {
            depths.push(stack::depth(&mut || {
                black_box(handles::ask(&call, &bytes, *handle, &mut buffers));
            }));
        }
        all.push((call.name(), depths));
    }
    all.extend(ranked::depths(&bytes).map(|(name, depth)| (name, vec![depth])));
    let once = stack::depth(&mut || {
        black_box(handles::open_once(&bytes));
    });
    let check = stack::depth(&mut || {
        black_box(handles::check(&bytes));
    });
    let looked_up = lookup::depth(&lists.ids, &lists.lengths);
    let (_, file) = midi::files(1 << 16).remove(2);
    let (mut lists, mut velocities) = midi::enough(file.len());
    let imported = stack::depth(&mut || {
        black_box(library::midi_bars(&file, &mut lists, &mut velocities));
    });
    let others = [("open_once", once), ("check", check), ("write", written), ("midi_bars", imported)];
    let others = others.into_iter().chain(pad::depths()).chain([("length_of", looked_up)]);
    all.extend(others.map(|(name, depth)| (name.to_string(), vec![depth])));
    all
}

/// Whether the machine has memory for the lists at their limits.
fn roomy() -> bool {
    let text = std::fs::read_to_string("/proc/meminfo").unwrap_or_default();
    let free = text.lines().find_map(|l| l.strip_prefix("MemAvailable:")?.trim().strip_suffix(" kB")?.parse::<usize>().ok());
    free.is_some_and(|kilobytes| kilobytes > 4_000_000)
}

fn at_limits() {
    limits::refuses_more();
    let many = limits::limit("as many names as fill the text", limits::many_terms());
    let one = limits::limit("one name that is the text", limits::one_term());
    report::limits(&[many, one]);
}

fn main() {
    let words: Vec<String> = std::env::args().skip(1).collect();
    if let [what, call, documents, times] = &words[..] {
        let (documents, times) = (documents.parse().expect("a number"), times.parse().expect("a number"));
        if what == "again" {
            return again::again(call, documents, times);
        }
        if what == "checked" {
            return again::checked(call, documents, times);
        }
        let size = compare::size(documents, times, Some(call));
        report::whole(std::slice::from_ref(&size));
        return report::apart(std::slice::from_ref(&size));
    }
    match &words[..] {
        [only] if only == "limits" => return at_limits(),
        [only] if only == "midi" => return report::midi(&midi::all(1 << 24, 11)),
        [only] if only == "sheet" => {
            report::sheets(&sheet::all(&[1000, 10_000, 100_000], 15));
            return report::sheets(&sheet::scattered(100_000, &[50, 500, 5000], 3));
        }
        [only, how @ ..] if only == "ranked" => {
            let quick = !how.is_empty();
            return report_ranked::section(&ranked::all(&ranked::sizes(quick)), &orders::all(&orders::sizes(quick)));
        }
        [only] if only == "pad" => return report_pad::section(&pad::all(15)),
        [only, how @ ..] if only == "lookup" => return report_lookup::section(&lookup::all(!how.is_empty())),
        [only, how @ ..] if only == "often" => {
            let sizes = often::all(!how.is_empty());
            return report_often::section(&sizes, &growth::all(&sizes, !how.is_empty()));
        }
        [only] if only == "checksum" => return report::checksum(&checksum::all(&[4096, 1 << 24], 15)),
        [only] if only == "stack" => return report::stack(&depths()),
        _ => {}
    }
    let number = |i: usize| -> usize { words.get(i).and_then(|word| word.parse().ok()).expect("a number of bytes") };
    let (code, constants) = (number(0), number(1));
    let quick = words.iter().any(|word| word == "--quick");

    let sizes: Vec<compare::Size> = if quick {
        vec![compare::size(1000, 5, None), compare::size(100_000, 5, None)]
    } else {
        vec![compare::size(1000, 15, None), compare::size(100_000, 11, None), compare::size(1_000_000, 3, None)]
    };
    let often = often::all(quick);
    let grown = growth::all(&often, quick);
    let hostile = limits::hostile(if quick { 1 << 21 } else { 1 << 24 });
    let midi = if quick { midi::all(1 << 20, 5) } else { midi::all(1 << 24, 11) };

    let sheets = sheet::all(&[1000, 10_000, 100_000], if quick { 5 } else { 15 });
    let scattered = sheet::scattered(100_000, &[50, 500, 5000], if quick { 1 } else { 3 });

    let ranked = ranked::all(&ranked::sizes(quick));
    let orders = orders::all(&orders::sizes(quick));

    let pads = pad::all(if quick { 5 } else { 15 });

    let lookups = lookup::all(quick);

    let checksums = checksum::all(&[4096, if quick { 1 << 20 } else { 1 << 24 }], if quick { 5 } else { 15 });

    println!("## The data\n\n{}", text::DATA);
    report::data(&sizes);
    println!("\n## Every call, opened each time\n\n{}", text::WHOLE);
    report::whole(&sizes);
    println!("\n## The search apart from opening\n\n{}", text::APART);
    report::apart(&sizes);
    println!("\n## What was aimed at\n");
    report::aims(&sizes[1]);
    println!("\n## Growth with size\n\n{}", text::GROWTH);
    report::growth(&sizes);
    println!("\n## Check once, ask often\n");
    report_often::section(&often, &grown);
    println!("\n## The checksum\n\n{}", text::CHECKSUM);
    report::checksum(&checksums);
    println!("\n## A hostile list\n\n{}", text::HOSTILE);
    report::hostile(&hostile);
    println!("\n## At the limits\n\n{}", text::LIMITS);
    if quick || !roomy() {
        println!("(Not run this time.)");
    } else {
        at_limits();
    }
    println!("\n## Bars from MIDI files\n\n{}", text::MIDI);
    report::midi(&midi);
    println!("\n## A bar on paper\n\n{}", text::SHEETS);
    report::sheets(&sheets);
    println!("\n{}", text::SCATTERED);
    report::sheets(&scattered);
    println!("\n## Best bars first\n");
    report_ranked::section(&ranked, &orders);
    println!("\n## A pad to record on\n");
    report_pad::section(&pads);
    println!("\n## Length lookup for the menu\n");
    report_lookup::section(&lookups);
    println!("\n## Stack and code\n\n{}", text::STACK);
    report::stack(&depths());
    println!("\nThe library's machine code has {} bytes, its constants {}.", report::grouped(code), report::grouped(constants));
}
