//! Best bars first: a ranked phrase, with as much room as saves a walk and with less, beside the plain search and the Rust.
use crate::calls::{self, Call, Names};
use crate::data;
use crate::library::{self, Buffers, Reply};
use crate::measure::{rounds, Timed};
use crate::originals::{fast, table};
use crate::stack;
use std::hint::black_box;

/// What runs, in this order.
#[derive(Clone, Copy)]
pub enum Who {
    /// With a place for each posting of the rarest list: one walk.
    Roomy,
    /// With a place for each bar found: a walk that counts them, then one that fills.
    Exact,
    /// With a place less, for ids and then for counts: refused with 13.
    ShortIds,
    ShortCounts,
    /// The library's plain search, which says no counts.
    Plain,
    Rust,
    RustTable,
    /// Both with each list decoded once.
    RustAtOnce,
    RustTableAtOnce,
}

/// A phrase, and the times of each.
pub struct Ranked {
    pub documents: usize,
    pub names: usize,
    pub found: usize,
    /// How many postings the rarest list has.
    pub rarest: usize,
    times: Timed,
}

impl Ranked {
    pub fn time(&self, who: Who) -> f64 {
        self.times.of(who as usize)
    }

    pub fn ratio(&self, who: Who, of: Who) -> f64 {
        self.times.ratio(who as usize, of as usize).expect("both ran")
    }

    /// Whether room for what is found is less than saves a walk.
    pub fn two_ways(&self) -> bool {
        self.found < self.rarest
    }
}

/// Buffers of so many ids and counts.
pub fn lent(ids: usize, counts: usize) -> Buffers {
    let mut lent = Buffers { ids: vec![0; ids], seconds: vec![0; counts], positions: Vec::new(), sheet: Vec::new() };
    lent.wipe();
    lent
}

/// The library's answer is this one, and nothing behind it in the buffers was touched.
pub fn compare(call: &Call, bytes: &[u8], right: &[(u32, u32)], b: &mut Buffers) {
    b.wipe();
    let (ids, counts): (Vec<u32>, Vec<u32>) = right.iter().copied().unzip();
    assert!(calls::answer(call, bytes, b).lists == [ids, counts], "{}: the answers differ", call.name());
    let behind = b.ids[right.len()..].iter().chain(&b.seconds[right.len()..]);
    assert!(behind.copied().all(|n| n == u32::MAX), "{}: touched behind the answer", call.name());
}

/// Refused with 13 for this buffer, and both are as they were.
fn refused(call: &Call, bytes: &[u8], which: u32, found: usize, b: &mut Buffers) {
    b.wipe();
    let right = Reply { kind: 13, which, index: found as u64, first: 0, second: 0, third: 0, fourth: 0 };
    assert_eq!(library::ask(call, bytes, b), right, "{}", call.name());
    assert!(b.ids.iter().chain(&b.seconds).all(|n| *n == u32::MAX), "{}: touched, and refused", call.name());
}

/// What the library is lent, in the order of `Who`.
fn lend(rarest: usize, found: usize) -> [Buffers; 5] {
    [lent(rarest, rarest), lent(found, found), lent(found - 1, found), lent(found, found - 1), lent(rarest, 0)]
}

/// Every way of the call has this answer or is refused, and the plain search has the same ids.
fn compare_ways(call: &Call, plain: &Call, bytes: &[u8], right: &[(u32, u32)], buffers: &mut [Buffers; 5]) {
    let [roomy, exact, short_ids, short_counts, own] = buffers;
    compare(call, bytes, right, roomy);
    compare(call, bytes, right, exact);
    refused(call, bytes, 1, right.len(), short_ids);
    refused(call, bytes, 1, right.len(), &mut lent(0, 0));
    refused(call, bytes, 2, right.len(), short_counts);
    let mut ids: Vec<u32> = right.iter().map(|of| of.0).collect();
    ids.sort_unstable();
    assert!(calls::answer(plain, bytes, own).lists == [ids], "{}: not the plain answer's", call.name());
}

/// The answers compared, then the times.
fn time_phrase(documents: usize, strs: &[&'static str], bytes: &[u8], count: usize) -> Ranked {
    let (call, plain) = (Call::Ranked(Names::new(strs)), Call::Phrase(Names::new(strs)));
    eprintln!("{documents} documents: {}, each way", call.name());
    let (segment, slow) = (fast::open(bytes), table::open(bytes));
    let right = fast::ranked(&segment, strs);
    let others = [fast::ranked_at_once(&segment, strs), table::ranked(&slow, strs), table::ranked_at_once(&slow, strs)];
    assert!(others.iter().all(|other| *other == right), "{}: the Rust's differ", call.name());
    let (found, rarest) = (right.len(), strs.iter().map(|name| segment.df(name) as usize).min().expect("a name"));
    assert!(found > 0, "{} finds none", call.name());
    drop((segment, slow, others));
    let mut buffers = lend(rarest, found);
    compare_ways(&call, &plain, bytes, &right, &mut buffers);

    let [roomy, exact, short_ids, short_counts, own] = &mut buffers;
    let ask = |call: &Call, b: &mut Buffers| {
        black_box(library::ask(call, black_box(bytes), b));
    };
    let times = Timed(rounds(
        count,
        &mut [
            &mut || ask(&call, roomy),
            &mut || ask(&call, exact),
            &mut || ask(&call, short_ids),
            &mut || ask(&call, short_counts),
            &mut || ask(&plain, own),
            &mut || drop(black_box(fast::ranked(&black_box(fast::open(black_box(bytes))), strs))),
            &mut || drop(black_box(table::ranked(&black_box(table::open(black_box(bytes))), strs))),
            &mut || drop(black_box(fast::ranked_at_once(&black_box(fast::open(black_box(bytes))), strs))),
            &mut || drop(black_box(table::ranked_at_once(&black_box(table::open(black_box(bytes))), strs))),
        ],
    ));
    Ranked { documents, names: strs.len(), found, rarest, times }
}

/// Phrases of the fill's first one, two and four sounds, at each number of documents with its rounds.
pub fn all(sizes: &[(usize, usize)]) -> Vec<Ranked> {
    let timed = |&(documents, count): &(usize, usize)| {
        let bytes = fast::write(&fast::given(&data::bars(documents)));
        [1, 2, 4].map(|many| time_phrase(documents, &data::FILL[..many], &bytes, count))
    };
    sizes.iter().flat_map(timed).collect()
}

/// The stack of a phrase of four where a walk counts first, and where that ends in 13.
pub fn depths(bytes: &[u8]) -> [(String, usize); 2] {
    let names = &data::FILL[..4];
    let call = Call::Ranked(Names::new(names));
    let found = fast::ranked(&fast::open(bytes), names).len();
    [("two walks", found), ("13", found - 1)].map(|(how, room)| {
        let mut buffers = lent(room, room);
        let depth = stack::depth(&mut || {
            black_box(library::ask(&call, bytes, &mut buffers));
        });
        (format!("{}, {how}", call.name()), depth)
    })
}

/// The numbers of documents, each with its rounds.
pub fn sizes(quick: bool) -> Vec<(usize, usize)> {
    if quick {
        vec![(1000, 5), (10_000, 5), (100_000, 5)]
    } else {
        vec![(1000, 15), (10_000, 15), (100_000, 11), (1_000_000, 3)]
    }
}
