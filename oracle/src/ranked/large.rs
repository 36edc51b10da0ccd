//! Answers of 100,000 bars in orders that are hard to sort, and bars with very many starts. The model sorts with the Rust's own sort.

use super::compare::{question, Ranked};
use crate::compare::opened;
use crate::given::{Given, Posting, Term};
use crate::random::Random;
use crate::sheet::written;

const BARS: u32 = 100_000;

/// Bars 0, 3, 6 ..; each has so many steps, all with a hit.
fn bars(counts: impl Iterator<Item = u32>) -> Given {
    let postings: Vec<Posting> = counts.zip(0..).map(|(c, i)| Posting { id: 3 * i, positions: (0..c).collect() }).collect();
    Given {
        documents: postings.iter().map(|posting| (posting.id, posting.positions.len() as u32)).collect(),
        terms: vec![Term { name: b"a".to_vec(), postings }],
    }
}

fn ask(ranked: &mut Ranked, given: &Given, names: usize) {
    let segment = written(given);
    let (text, ends): (Vec<u8>, Vec<u32>) = (vec![b'a'; names], (1..=names as u32).collect());
    let case = question(&segment, &text, &ends);
    let opened = opened(&segment);
    ranked.ask_full(&case, &opened, given);
    drop(ranked.ask(&case, &opened, None));
}

/// Counts by place: so many bars, and the highest count, which the places come to slowly or fast.
fn orders(ranked: &mut Ranked, n: u32, most: u32) {
    let scaled = move |i: u32| 1 + (u64::from(i) * u64::from(most) / u64::from(n)) as u32;
    let mut random = Random::new(u64::from(n));
    let shuffled: Vec<u32> = (0..n).map(|_| random.small(1, most)).collect();
    let orders: [(&str, Box<dyn Fn(u32) -> u32>); 8] = [
        ("equal", Box::new(|_| 2)),
        ("rising", Box::new(scaled)),
        ("falling", Box::new(move |i| scaled(n - 1 - i))),
        ("organ pipe", Box::new(move |i| scaled(i.min(n - 1 - i)))),
        ("valley", Box::new(move |i| scaled(i.max(n - 1 - i)))),
        ("saw", Box::new(move |i| 1 + i % most)),
        ("two counts", Box::new(|i| 1 + i % 2)),
        ("random", Box::new(move |i| shuffled[i as usize])),
    ];
    for (name, count) in orders {
        let before = ranked.differences;
        ask(ranked, &bars((0..n).map(count)), 1);
        if ranked.differences > before {
            println!("{n} bars, {name}: differs");
        }
    }
}

/// A bar with so many steps in a row, one with a step less and one with a single step; a phrase of one name so many times.
fn many_starts(ranked: &mut Ranked, steps: u32, names: usize) {
    ask(ranked, &bars([steps - 1, steps, 1].into_iter()), names);
}

pub fn all(ranked: &mut Ranked) {
    orders(ranked, BARS, 60);
    // every bar with its own count
    orders(ranked, 3000, 3000);
    for n in [127, 128, 129, 1023, 1024, 1025] {
        orders(ranked, n, n);
    }
    for (steps, names) in [(256, 1), (257, 1), (65_536, 1), (65_537, 1), (65_538, 2), (1 << 20, 1), (1 << 20, 2), (100_000, 128)]
    {
        many_starts(ranked, steps, names);
    }
}
