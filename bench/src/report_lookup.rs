//! The tables of the length lookup.
use crate::lookup::{Size, LIBRARY, NOTHING, SEARCHED, TESTED};
use crate::report::{grouped, head, line};
use crate::text;

/// Nanoseconds of a call, or of an id.
fn nanos(time: f64) -> String {
    if time < 10.0 {
        format!("{time:.2}")
    } else {
        grouped(time.round() as usize)
    }
}

/// Nanoseconds of an id, the loop around the call aside.
fn each(size: &Size, who: usize) -> f64 {
    size.times.more(who, NOTHING) / size.ids as f64
}

fn times(all: &[Size]) {
    let calls = ["`length_of`: ns", "plain Rust: ns", "of the Rust", "ns an id", "plain Rust: ns an id"];
    head("Ids", calls.into_iter().chain(["the search alone: ns", "nothing: ns"]).map(String::from));
    for size in all {
        let ratio = format!("{:.2}", size.times.ratio(LIBRARY, TESTED).expect("both ran"));
        let [ours, theirs, search, nothing] = [LIBRARY, TESTED, SEARCHED, NOTHING].map(|who| nanos(size.times.of(who)));
        let ids = [LIBRARY, TESTED].map(|who| nanos(each(size, who)));
        line([grouped(size.ids), ours, theirs, ratio].into_iter().chain(ids).chain([search, nothing]));
    }
}

/// From one number of ids to sixteen times as many, nanoseconds an id may grow so much: where the list leaves a cache, not n squared.
const GROWTH: f64 = 2.0;

/// The largest factor of any step.
fn aims(all: &[Size]) {
    head("Aim", ["at most", "seen", "ids", ""].map(String::from));
    let factors = all.windows(2).map(|pair| (each(&pair[1], LIBRARY) / each(&pair[0], LIBRARY), pair));
    let (seen, pair) = factors.max_by(|a, b| a.0.total_cmp(&b.0)).expect("two numbers of ids");
    let met = if seen <= GROWTH { "met" } else { "missed" };
    let ids = format!("{} to {}", grouped(pair[0].ids), grouped(pair[1].ids));
    line(["the call".into(), format!("{GROWTH:.2}"), format!("{seen:.2}"), ids, met.into()]);
}

/// All of them, with what is said above each.
pub fn section(all: &[Size]) {
    println!("{}", text::LOOKUP);
    times(all);
    println!("\n{}", text::LOOKUP_AIM);
    aims(all);
}
