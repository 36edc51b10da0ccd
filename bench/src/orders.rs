//! Bars to rank in every order that a sort may dislike: one sound, found in all of them.
use crate::calls::{Call, Names};
use crate::counted;
use crate::data::{Lists, Random};
use crate::library::{self, Buffers};
use crate::measure::{rounds, Timed};
use crate::originals::fast;
use crate::ranked::{compare, lent};
use std::hint::black_box;

/// A bar has 1 to so many hits: 16 on average, as 1,000,000 bars can have without passing 16,777,216 positions.
const MOST: usize = 31;

const SOUND: &str = "snare";

/// What runs, in this order.
#[derive(Clone, Copy)]
pub enum Who {
    Ranked,
    Plain,
    Rust,
    RustAtOnce,
    /// The Rust's sort alone, of ids and counts that are there.
    Sort,
}

/// An order of the counts, at each number of bars.
pub struct Order {
    pub name: &'static str,
    pub sizes: Vec<Sorted>,
}

/// The times at one number of bars.
pub struct Sorted {
    pub bars: usize,
    times: Timed,
}

impl Sorted {
    /// Nanoseconds a bar.
    pub fn each(&self, who: Who) -> f64 {
        self.times.of(who as usize) / self.bars as f64
    }

    /// Nanoseconds a bar that the first takes more than the second.
    pub fn more(&self, who: Who, than: Who) -> f64 {
        self.times.more(who as usize, than as usize) / self.bars as f64
    }

    pub fn ratio(&self, who: Who, of: Who) -> f64 {
        self.times.ratio(who as usize, of as usize).expect("both ran")
    }
}

/// The count of bar i of n.
type Count = fn(usize, usize, &mut Random) -> usize;

const ORDERS: [(&str, Count); 6] = [
    ("all equal", |_, _, _| MOST.div_ceil(2)),
    ("rising with the id", |i, n, _| 1 + i * MOST / n),
    ("falling with the id", |i, n, _| MOST - i * MOST / n),
    ("rising, then falling", |i, n, _| 1 + i.min(n - 1 - i) * 2 * MOST / n),
    ("random", |_, _, random| 1 + random.below(MOST as u32) as usize),
    ("random, 1 to 3", |_, _, random| 1 + random.below(3) as usize),
];

/// So many bars of 32 steps; bar i has the sound on its first steps, as often as the count says.
fn bars(n: usize, count: Count) -> Lists {
    let mut random = Random(n as u64);
    let mut lists = Lists { ids: (1..=n as u32).collect(), lengths: vec![32; n], text: SOUND.into(), ..Lists::default() };
    lists.ends = vec![SOUND.len() as u32];
    lists.posting_counts = vec![n as u32];
    lists.posting_ids = lists.ids.clone();
    lists.position_counts = (0..n).map(|i| count(i, n, &mut random) as u32).collect();
    lists.positions = lists.position_counts.iter().flat_map(|count| 0..*count).collect();
    lists
}

/// The answers compared, then the times.
fn time_order(name: &str, n: usize, count: Count, many: usize) -> Sorted {
    eprintln!("{n} bars to rank: {name}");
    let lists = bars(n, count);
    let bytes = fast::write(&fast::given(&lists));
    let found: Vec<(u32, u32)> = lists.ids.iter().copied().zip(lists.position_counts).collect();
    drop((lists.positions, lists.posting_ids));
    let (ranked, plain) = (Call::Ranked(Names::new(&[SOUND])), Call::Phrase(Names::new(&[SOUND])));
    let segment = fast::open(&bytes);
    let mut right = found.clone();
    right.sort_by_key(|&(id, count)| (std::cmp::Reverse(count), id));
    assert!(right == fast::ranked(&segment, &[SOUND]) && right == fast::ranked_at_once(&segment, &[SOUND]), "{name}");
    drop(segment);
    let (mut best, mut own) = (lent(n, n), lent(n, 0));
    compare(&ranked, &bytes, &right, &mut best);
    let ask = |call: &Call, b: &mut Buffers| {
        black_box(library::ask(call, black_box(&bytes), b));
    };
    let times = Timed(rounds(
        many,
        &mut [
            &mut || ask(&ranked, &mut best),
            &mut || ask(&plain, &mut own),
            &mut || drop(black_box(fast::ranked(&black_box(fast::open(black_box(&bytes))), &[SOUND]))),
            &mut || drop(black_box(fast::ranked_at_once(&black_box(fast::open(black_box(&bytes))), &[SOUND]))),
            &mut || {
                let mut pairs = black_box(&found).clone();
                counted::sort(&mut pairs);
                drop(black_box(pairs));
            },
        ],
    ));
    Sorted { bars: n, times }
}

/// Every order, at each number of bars with its rounds.
pub fn all(sizes: &[(usize, usize)]) -> Vec<Order> {
    let timed = |(name, count): (&'static str, Count)| {
        let sizes = sizes.iter().map(|&(n, many)| time_order(name, n, count, many)).collect();
        Order { name, sizes }
    };
    ORDERS.map(timed).into_iter().collect()
}

/// The numbers of bars, each ten times the one before, with their rounds.
pub fn sizes(quick: bool) -> Vec<(usize, usize)> {
    if quick {
        vec![(1000, 5), (10_000, 5), (100_000, 3)]
    } else {
        vec![(10_000, 15), (100_000, 7), (1_000_000, 3)]
    }
}
