//! The writer's lists as long as document 01 lets them be, and a list made to be slow.
use crate::calls::{self, Call, Names};
use crate::data::Lists;
use crate::library::{self, Buffers};
use crate::measure::{median, once, rounds};
use crate::originals::{fast, table};
use std::hint::black_box;

/// No list and no text has more elements.
const LIMIT: usize = 16_777_216;

/// Documents with ids 255 apart and lengths of 2^32 - 1: two bytes and five, each.
fn documents() -> Lists {
    Lists {
        ids: (1..=LIMIT as u32).map(|i| i * 255).collect(),
        lengths: vec![u32::MAX; LIMIT],
        position_counts: vec![1; LIMIT],
        positions: (0..LIMIT as u32).map(|i| u32::MAX - 1 - i * 16).collect(),
        ..Lists::default()
    }
}

/// As many terms as a full text has room for: all names of one to three ASCII characters, and of four until the text is full.
pub fn many_terms() -> Lists {
    let mut lists = documents();
    let mut fours = (LIMIT - 128 - 2 * 128 * 128 - 3 * 128 * 128 * 128) / 4;
    let mut name = |bytes: &[u8]| {
        lists.text.extend_from_slice(bytes);
        lists.ends.push(lists.text.len() as u32);
    };
    for a in 0..128 {
        name(&[a]);
        for b in 0..128 {
            name(&[a, b]);
            for c in 0..128 {
                name(&[a, b, c]);
                for d in 0..fours.min(2) {
                    name(&[a, b, c, d as u8]);
                }
                fours -= fours.min(2);
            }
        }
    }
    let terms = lists.ends.len();
    let more = LIMIT % terms;
    for term in 0..terms {
        let count = LIMIT / terms + (term < more) as usize;
        lists.posting_counts.push(count as u32);
        for i in 0..count {
            let document = (term * 3 + i * (LIMIT / 4 - 7)) % (LIMIT / 4) + i * (LIMIT / 4);
            lists.posting_ids.push(lists.ids[document]);
        }
    }
    lists
}

/// One term, whose name is the whole text, in every document.
pub fn one_term() -> Lists {
    let mut lists = documents();
    lists.text = vec![b'a'; LIMIT];
    lists.ends = vec![LIMIT as u32];
    lists.posting_counts = vec![LIMIT as u32];
    lists.posting_ids = lists.ids.clone();
    lists
}

pub struct Limit {
    pub name: &'static str,
    pub terms: usize,
    pub bytes: usize,
    /// Write and open: the library, the Rust, the Rust with a table.
    pub write: [f64; 3],
    pub open: [f64; 3],
}

/// Written, compared with what the Rust writes, opened, and a sample read back: every value is timed once.
pub fn limit(name: &'static str, lists: Lists) -> Limit {
    eprintln!("at the limits: {name}");
    let mut out = vec![0; lists.room()];
    let (ours, reply) = once(|| library::write(&lists, &mut out));
    assert_eq!(reply.kind, 0, "{reply:?}");
    out.truncate(reply.first as usize);
    let quick = {
        let given = fast::given(&lists);
        let (time, bytes) = once(|| fast::write(&given));
        assert!(bytes == out, "the written bytes differ");
        time
    };
    let slow = {
        let given = table::given(&lists);
        once(|| table::write(&given)).0
    };
    let mut spare = Buffers::new(0, 0);
    let (opened, reply) = once(|| library::ask(&Call::Open, &out, &mut spare));
    assert_eq!((reply.kind, reply.first, reply.second), (0, LIMIT as u64, lists.ends.len() as u64));
    let (quickly, segment) = once(|| fast::open(&out));
    let (slowly, _) = once(|| table::open(&out));

    let mut buffers = Buffers::new(LIMIT, LIMIT);
    for term in [0, lists.ends.len() / 2, lists.ends.len() - 1] {
        let from = if term == 0 { 0 } else { lists.ends[term - 1] as usize };
        let text = std::str::from_utf8(&lists.text[from..lists.ends[term] as usize]).expect("UTF-8");
        let call = Call::TermPostings(text.to_owned().leak());
        assert!(calls::answer(&call, &out, &mut buffers) == fast::answer(&call, &segment));
    }
    Limit { name, terms: lists.ends.len(), bytes: out.len(), write: [ours, quick, slow], open: [opened, quickly, slowly] }
}

/// One element more than the limit is refused with kind 12, in a list and in a text.
pub fn refuses_more() {
    let mut lists = Lists { ids: vec![0; LIMIT + 1], lengths: vec![0; LIMIT + 1], ..Lists::default() };
    assert_eq!(library::write(&lists, &mut []).kind, 12);
    lists = Lists { text: vec![b'a'; LIMIT + 1], ..Lists::default() };
    assert_eq!(library::write(&lists, &mut []).kind, 12);
}

/// One document in which two sounds alternate, two steps apart: no question finds them, and each has to look at every step.
fn alternating(positions: usize) -> Lists {
    let half = positions / 2;
    let of = |first: u32| (0..half as u32).map(move |i| first + 4 * i);
    Lists {
        ids: vec![1],
        lengths: vec![u32::MAX],
        text: b"ab".to_vec(),
        ends: vec![1, 2],
        posting_counts: vec![1, 1],
        posting_ids: vec![1, 1],
        position_counts: vec![half as u32; 2],
        positions: of(0).chain(of(2)).collect(),
    }
}

/// One document in which one sound fills runs of 127 steps: a phrase that names it 128 times fails after each run.
fn runs(positions: usize) -> Lists {
    Lists {
        ids: vec![1],
        lengths: vec![u32::MAX],
        text: b"a".to_vec(),
        ends: vec![1],
        posting_counts: vec![1],
        posting_ids: vec![1],
        position_counts: vec![positions as u32],
        positions: (0..positions as u32).map(|i| i + i / 127).collect(),
    }
}

/// The library's times at rising numbers of positions, and the Rust's at the last.
pub struct Hostile {
    pub name: String,
    pub positions: Vec<usize>,
    pub times: Vec<f64>,
    pub original: f64,
}

fn grow(call: &Call, positions: &[usize], make: impl Fn(usize) -> Lists, name: String) -> Hostile {
    let mut times = Vec::new();
    let mut original = 0.0;
    for &n in positions {
        eprintln!("hostile: {name}, {n} positions");
        let lists = make(n);
        let bytes = fast::write(&fast::given(&lists));
        drop(lists);
        let mut buffers = Buffers::new(1, 0);
        assert!(calls::answer(call, &bytes, &mut buffers).lists[0].is_empty());
        let taken = rounds(
            3,
            &mut [&mut || {
                black_box(library::ask(call, black_box(&bytes), &mut buffers));
            }],
        );
        times.push(median(taken[0].iter().copied()));
        if n == positions[positions.len() - 1] {
            original = once(|| fast::ask(call, &fast::open(&bytes))).0;
        }
    }
    Hostile { name, positions: positions.to_vec(), times, original }
}

pub fn hostile(most: usize) -> Vec<Hostile> {
    let sizes = [most / 4, most / 2, most];
    let two = || Names::new(&["a", "b"]);
    let mut all: Vec<Hostile> = [Call::Phrase(two()), Call::Near(two(), 1, true), Call::Near(two(), 1, false)]
        .iter()
        .map(|call| grow(call, &sizes, alternating, call.name()))
        .collect();
    let many = Call::Phrase(Names::new(&["a"; 128]));
    let fewer = sizes.map(|n| n / 16);
    all.push(grow(&many, &fewer, runs, "phrase of one name 128 times".into()));
    all
}
