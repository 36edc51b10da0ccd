//! The tables of ranked phrases.
use crate::orders::{Order, Sorted, Who as Ran};
use crate::ranked::{Ranked, Who};
use crate::report::{grouped, head, line};
use crate::text;

fn micros(time: f64) -> String {
    if time >= 1e5 {
        grouped((time / 1e3).round() as usize)
    } else {
        format!("{:.1}", time / 1e3)
    }
}

fn two(ratio: f64) -> String {
    format!("{ratio:.2}")
}

/// With room that saves a walk: microseconds, and ratios to the Rust and to the library's plain search.
fn phrases(all: &[Ranked]) {
    use Who::*;
    let names = ["names", "found", "µs", "of the Rust", "with a table", "decoded once: of the Rust", "with a table"];
    head("Documents", names.into_iter().chain(["plain search, µs", "**of the plain search**"]).map(String::from));
    for row in all {
        let counts = [row.documents, row.names, row.found].map(grouped);
        let ratios = [Rust, RustTable, RustAtOnce, RustTableAtOnce].map(|of| two(row.ratio(Roomy, of)));
        let plain = [micros(row.time(Plain)), two(row.ratio(Roomy, Plain))];
        line(counts.into_iter().chain([micros(row.time(Roomy))]).chain(ratios).chain(plain));
    }
}

/// Both ways of the call, and 13: ratios to the first way and, of 13, to the plain search.
fn ways(all: &[Ranked]) {
    use Who::*;
    let names = ["names", "found", "postings of the rarest list", "one walk, µs", "two walks, µs", "two, of one"];
    let last = ["13 for ids, µs", "13 for counts, µs", "13 for ids, of the plain search", "13 for counts, of it"];
    head("Documents", names.into_iter().chain(last).map(String::from));
    for row in all {
        let counts = [row.documents, row.names, row.found, row.rarest].map(grouped);
        let one = [micros(row.time(Roomy))];
        let exact = [micros(row.time(Exact)), two(row.ratio(Exact, Roomy))];
        let both = if row.two_ways() { exact } else { Default::default() };
        let short = [ShortIds, ShortCounts];
        let refused = short.map(|who| micros(row.time(who))).into_iter().chain(short.map(|who| two(row.ratio(who, Plain))));
        line(counts.into_iter().chain(one).chain(both).chain(refused));
    }
}

/// Nanoseconds a bar at each number of bars, and the factor from each to the next.
fn grown(what: &str, all: &[Order], each: impl Fn(&Sorted) -> f64) {
    println!("{what}:\n");
    let bars: Vec<String> = all[0].sizes.iter().map(|size| grouped(size.bars)).collect();
    let steps = bars.windows(2).map(|pair| format!("{} to {}", pair[0], pair[1]));
    head("Counts", bars.iter().cloned().chain(steps));
    for order in all {
        let times: Vec<f64> = order.sizes.iter().map(&each).collect();
        let cells = times.iter().map(|time| format!("{time:.1}"));
        let factors = times.windows(2).map(|pair| two(pair[1] / pair[0]));
        line([order.name.to_string()].into_iter().chain(cells).chain(factors));
    }
    println!();
}

/// The call's time over the Rust's, at each number of bars.
fn ratios(all: &[Order]) {
    let names = |size: &Sorted| ["of the Rust", "decoded once"].map(|of| format!("{}: {of}", grouped(size.bars)));
    head("Counts", all[0].sizes.iter().flat_map(names));
    for order in all {
        let of = |size: &Sorted| [Ran::Rust, Ran::RustAtOnce].map(|who| two(size.ratio(Ran::Ranked, who)));
        line([order.name.to_string()].into_iter().chain(order.sizes.iter().flat_map(of)));
    }
}

/// From one number of bars to ten times as many, nanoseconds a bar may grow so much: n log n and a cache that they leave, not n squared.
const GROWTH: f64 = 2.0;

/// The largest factor of any order and any step.
fn aims(all: &[Order]) {
    head("Aim", ["at most", "seen", "counts", ""].map(String::from));
    let aim = |what: &str, each: &dyn Fn(&Sorted) -> f64| {
        let steps = all.iter().flat_map(|order| order.sizes.windows(2).map(|pair| (order.name, pair)));
        let factors = steps.map(|(name, pair)| (name, each(&pair[1]) / each(&pair[0])));
        let (order, seen) = factors.max_by(|a, b| a.1.total_cmp(&b.1)).expect("an order");
        let met = if seen <= GROWTH { "met" } else { "missed" };
        line([what, &two(GROWTH), &two(seen), order, met].map(String::from));
    };
    aim("the call", &|size| size.each(Ran::Ranked));
    aim("the counting and the sort", &|size| size.more(Ran::Ranked, Ran::Plain));
}

/// All of them, with what is said above each.
pub fn section(ranked: &[Ranked], orders: &[Order]) {
    println!("{}", text::RANKED);
    phrases(ranked);
    println!("\n### Room, and no room\n\n{}", text::WAYS);
    ways(ranked);
    println!("\n### Hostile orders\n\n{}", text::ORDERS);
    grown("The call", orders, |size| size.each(Ran::Ranked));
    let more = "The counting and the sort: what the call takes more than the plain search of the same round";
    grown(more, orders, |size| size.more(Ran::Ranked, Ran::Plain));
    grown("The Rust, its search and then each list decoded once more", orders, |size| size.each(Ran::Rust));
    grown("The Rust, each list decoded once", orders, |size| size.each(Ran::RustAtOnce));
    grown("The Rust's sort alone, of a copy of ids and counts", orders, |size| size.each(Ran::Sort));
    println!("The call's time over that of the Rust:\n");
    ratios(orders);
    println!("\n{}", text::ORDERS_AIM);
    aims(orders);
}
