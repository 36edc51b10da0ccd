//! The length lookup for the menu, over lists of several lengths, beside plain Rust that tests the same and one that tests nothing.
use crate::data::Random;
use crate::library::{Numbers, Reply};
use crate::measure::{rounds, Timed};
use crate::stack;
use std::hint::black_box;

extern "C" {
    fn pstp_length_of(ids: Numbers, n: usize, lengths: Numbers, m: usize, id: u32) -> Reply;
}

fn length_of(ids: &[u32], lengths: &[u32], id: u32) -> Reply {
    unsafe { pstp_length_of(ids.as_ptr(), ids.len(), lengths.as_ptr(), lengths.len(), id) }
}

/// As many elements as a list may have.
const LIMIT: usize = 1 << 24;

/// Kind and index of a refusal.
type Refused = (u32, u64);

/// A binary search that trusts the ids. Not put into its callers, which call the library too.
#[inline(never)]
fn searched(ids: &[u32], lengths: &[u32], id: u32) -> Option<u32> {
    ids.binary_search(&id).ok().map(|at| lengths[at])
}

/// The same as the library, as it is ordinarily written in Rust.
#[inline(never)]
fn tested(ids: &[u32], lengths: &[u32], id: u32) -> Result<Option<u32>, Refused> {
    if ids.len() > LIMIT || lengths.len() > LIMIT {
        return Err((12, 0));
    }
    if ids.len() != lengths.len() {
        return Err((11, 0));
    }
    match ids.windows(2).position(|pair| pair[0] >= pair[1]) {
        Some(before) => Err((21, before as u64 + 1)),
        None => Ok(ids.binary_search(&id).ok().map(|at| lengths[at])),
    }
}

/// A menu's lists, and the ids that are asked for in turn: many, so that the processor does not learn a search by heart.
struct Menu {
    ids: Vec<u32>,
    lengths: Vec<u32>,
    asked: Vec<u32>,
}

const ASKED: usize = 8192;

impl Menu {
    /// So many ids that rise by 1 to 3, and lengths of 16, 32, 48 or 64. About half of those that are asked for are there.
    fn new(count: usize) -> Menu {
        let mut random = Random(count as u64);
        let mut last = 0;
        let mut next = || {
            last += 1 + random.below(3);
            last
        };
        let ids = (0..count).map(|_| next()).collect();
        let lengths = (0..count).map(|_| 16 * (1 + random.below(4))).collect();
        let asked = (0..ASKED).map(|_| random.below(last + 2)).collect();
        Menu { ids, lengths, asked }
    }

    /// The answers are the same, refusals included: with the ids as they are, and where one is not above the one before it.
    fn compare(&mut self) {
        let n = self.ids.len();
        for id in self.asked.iter().take(if n > 1 << 16 { 16 } else { ASKED }) {
            self.compare_one(*id);
        }
        for place in [n - 1, n / 2, 1] {
            let kept = std::mem::replace(&mut self.ids[place], 0);
            self.compare_one(self.asked[0]);
            self.ids[place] = kept;
        }
        self.lengths.push(0);
        self.compare_one(self.asked[0]);
        self.lengths.pop();
    }

    fn compare_one(&self, id: u32) {
        let Menu { ids, lengths, .. } = self;
        let reply = length_of(ids, lengths, id);
        match tested(ids, lengths, id) {
            Ok(length) => {
                assert_eq!(length, searched(ids, lengths, id));
                let right = (0, length.is_some() as u64, length.unwrap_or(0) as u64);
                assert_eq!((reply.kind, reply.first, reply.second), right, "{id}");
            }
            Err(refused) => assert_eq!((reply.kind, reply.index), refused, "{id}"),
        }
    }
}

/// Who runs, in this order; last the loop around each, with nothing called.
pub const LIBRARY: usize = 0;
pub const TESTED: usize = 1;
pub const SEARCHED: usize = 2;
pub const NOTHING: usize = 3;

/// The times of one call at one number of ids.
pub struct Size {
    pub ids: usize,
    pub times: Timed,
}

/// The answers compared, then the times. Each has the same ids to ask for, in the same order.
fn time_size(count: usize, runs: usize) -> Size {
    eprintln!("a lookup in {count} ids");
    let mut menu = Menu::new(count);
    menu.compare();
    let Menu { ids, lengths, asked } = &menu;
    let mut turns = [0; 4];
    let [first, second, third, fourth] = &mut turns;
    let next = |turn: &mut usize| {
        *turn = (*turn + 1) % ASKED;
        asked[*turn]
    };
    let times = Timed(rounds(
        runs,
        &mut [
            &mut || assert_eq!(black_box(length_of(black_box(ids), lengths, next(first))).kind, 0),
            &mut || assert!(black_box(tested(black_box(ids), lengths, next(second))).is_ok()),
            &mut || {
                black_box(searched(black_box(ids), lengths, next(third)));
            },
            &mut || {
                black_box(next(fourth));
            },
        ],
    ));
    Size { ids: count, times }
}

/// Each number of ids sixteen times the one before, up to as many as there may be.
pub fn all(quick: bool) -> Vec<Size> {
    let sizes: &[usize] = &[16, 256, 4096, 1 << 16, 1 << 20, 1 << 24];
    let (sizes, runs) = if quick { (&sizes[..5], 5) } else { (sizes, 15) };
    sizes.iter().map(|count| time_size(*count, runs)).collect()
}

/// The stack of the call over these lists.
pub fn depth(ids: &[u32], lengths: &[u32]) -> usize {
    stack::depth(&mut || assert_eq!(black_box(length_of(ids, lengths, ids[0])).kind, 0))
}
