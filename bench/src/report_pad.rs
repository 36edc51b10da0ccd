//! The tables of pads.
use crate::measure::Timed;
use crate::pad::{Size, FROM_WORDS, KEPT, LIBRARY, NOTHING, SUM, TABLE};
use crate::report::{grouped, head, line};
use crate::text;

fn micros(time: f64) -> String {
    format!("{:.2}", time / 1e3)
}

fn ratio(times: &Timed, to: usize) -> String {
    format!("{:.2}", times.ratio(LIBRARY, to).expect("both ran"))
}

/// Microseconds of each, and the ratios.
fn calls(all: &[Size]) {
    let names = ["bars", "hits", "µs", "a map: µs", "of the map", "read from the words: µs", "of that"];
    head("Call", names.map(String::from));
    for size in all {
        for row in &size.calls {
            let counts = [row.name.into(), grouped(size.bars), grouped(size.hits)];
            let times = [LIBRARY, KEPT, FROM_WORDS].map(|who| micros(row.times.of(who)));
            let [ours, kept, from_words] = times;
            line(counts.into_iter().chain([ours, kept, ratio(&row.times, KEPT), from_words, ratio(&row.times, FROM_WORDS)]));
        }
    }
}

/// Nanoseconds of each, and how far the library's grow.
fn counter(all: &[Size]) {
    let names =
        ["hits", "`pad_hits`: ns", "a map, its total: ns", "its bars added up: ns", "read from the words: ns", "nothing: ns"];
    head("Bars", names.map(String::from));
    for size in all {
        let times = [LIBRARY, KEPT, SUM, FROM_WORDS, NOTHING].map(|who| format!("{:.1}", size.counter.of(who)));
        line([size.bars, size.hits].map(grouped).into_iter().chain(times));
    }
    let times = || all.iter().map(|size| size.counter.of(LIBRARY));
    let (most, least) = (times().fold(0.0, f64::max), times().fold(f64::MAX, f64::min));
    println!("\nThe longest of these times of `pad_hits` is {:.2} of the shortest.", most / least);
}

fn written(all: &[Size]) {
    head("Bars", ["hits", "bytes of segment", "µs", "a map and the Rust: µs", "of the Rust", "with a table"].map(String::from));
    for size in all {
        let counts = [size.bars, size.hits, size.bytes].map(grouped);
        let times = [LIBRARY, KEPT].map(|who| micros(size.write.of(who)));
        line(counts.into_iter().chain(times).chain([ratio(&size.write, KEPT), ratio(&size.write, TABLE)]));
    }
}

/// A save or a reading back takes at most so many microseconds, whatever the pad holds.
const MOST: f64 = 200.0;

/// The slowest of all sizes; erasing and saving are two calls.
fn aims(all: &[Size]) {
    head("Aim, at any size", ["at most, µs", "seen", ""].map(String::from));
    let aim = |what: &str, begins: &str, calls: f64| {
        let rows = all.iter().flat_map(|size| &size.calls).filter(|row| row.name.starts_with(begins));
        let seen = rows.map(|row| row.times.of(LIBRARY) / 1e3 / calls).fold(0.0, f64::max);
        let met = if seen <= MOST { "met" } else { "missed" };
        line([what.into(), format!("{MOST:.0}"), format!("{seen:.2}"), met.into()]);
    };
    aim("reading back", "read", 1.0);
    aim("erasing and saving, the mean of the two", "erase and save", 2.0);
}

/// All of them, with what is said above each.
pub fn section(all: &[Size]) {
    println!("{}", text::PAD);
    calls(all);
    println!("\n{}", text::PAD_COUNTER);
    counter(all);
    println!("\n{}", text::PAD_WRITTEN);
    written(all);
    println!("\n{}", text::PAD_AIM);
    aims(all);
}
