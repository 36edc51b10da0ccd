//! A pad to record on: its calls on pads of several sizes, beside a plain map that is kept, and one that is read from the words each time.
use crate::data::Random;
use crate::library::{Bytes, Lent, Numbers, Reply};
use crate::measure::{rounds, Timed};
use crate::originals::{fast, table};
use crate::plain_pad::{Hits, Map, Room, WORDS};
use crate::stack;
use std::collections::BTreeSet;
use std::hint::black_box;

extern "C" {
    fn pstp_pad_save(
        p: Lent,
        n: usize,
        id: u32,
        length: u32,
        sounds: Bytes,
        a: usize,
        steps: Numbers,
        b: usize,
        velocities: Bytes,
        c: usize,
    ) -> Reply;
    fn pstp_pad_erase(p: Lent, n: usize, id: u32) -> Reply;
    fn pstp_pad_read(
        p: Numbers,
        n: usize,
        id: u32,
        sounds: *mut u8,
        a: usize,
        steps: Lent,
        b: usize,
        velocities: *mut u8,
        c: usize,
    ) -> Reply;
    fn pstp_pad_write(p: Numbers, n: usize, text: Bytes, a: usize, ends: Numbers, b: usize, out: *mut u8, l: usize) -> Reply;
    fn pstp_pad_hits(p: Numbers, n: usize) -> Reply;
}

fn save(pad: &mut [u32], bar: &Given) -> Reply {
    let (p, n, (sounds, steps, velocities)) = (pad.as_mut_ptr(), pad.len(), bar.hits());
    let ((a, b, c), k) = ((sounds.as_ptr(), steps.as_ptr(), velocities.as_ptr()), sounds.len());
    unsafe { pstp_pad_save(p, n, bar.id, bar.length, a, k, b, steps.len(), c, velocities.len()) }
}

fn erase(pad: &mut [u32], id: u32) -> Reply {
    unsafe { pstp_pad_erase(pad.as_mut_ptr(), pad.len(), id) }
}

fn read(pad: &[u32], id: u32, (sounds, steps, velocities): &mut Room) -> Reply {
    let (p, n, a, b, c) = (pad.as_ptr(), pad.len(), sounds.len(), steps.len(), velocities.len());
    unsafe { pstp_pad_read(p, n, id, sounds.as_mut_ptr(), a, steps.as_mut_ptr(), b, velocities.as_mut_ptr(), c) }
}

fn write(pad: &[u32], names: &Names, out: &mut [u8]) -> Reply {
    let (p, n, l) = (pad.as_ptr(), pad.len(), out.len());
    let (text, ends) = (&names.text, &names.ends);
    unsafe { pstp_pad_write(p, n, text.as_ptr(), text.len(), ends.as_ptr(), ends.len(), out.as_mut_ptr(), l) }
}

fn hits(pad: &[u32]) -> Reply {
    unsafe { pstp_pad_hits(pad.as_ptr(), pad.len()) }
}

/// A bar as it is handed in.
struct Given {
    id: u32,
    length: u32,
    sounds: Vec<u8>,
    steps: Vec<u32>,
    velocities: Vec<u8>,
}

impl Given {
    fn hits(&self) -> Hits<'_> {
        (&self.sounds, &self.steps, &self.velocities)
    }
}

/// The names of all 128 sounds.
struct Names {
    each: Vec<String>,
    text: Vec<u8>,
    ends: Vec<u32>,
}

fn names() -> Names {
    let each: Vec<String> = (0..128).map(|sound| format!("sound {sound:03}")).collect();
    let ends = (1..=128).map(|i| 9 * i).collect();
    Names { text: each.concat().into_bytes(), each, ends }
}

/// Bars of 64 steps, ids three apart, each with so many hits of any sounds and velocities.
fn bars(count: usize, hits: usize) -> Vec<Given> {
    let mut random = Random((count * hits) as u64);
    let bar = |i: usize| {
        let mut all = BTreeSet::new();
        while all.len() < hits {
            all.insert((random.below(128) as u8, random.below(64)));
        }
        let (sounds, steps) = all.into_iter().unzip();
        let velocities = (0..hits).map(|_| 1 + random.below(127) as u8).collect();
        Given { id: 3 * i as u32 + 2, length: 64, sounds, steps, velocities }
    };
    (0..count).map(bar).collect()
}

/// Saved by the library and by the map; the replies and the words were compared.
fn recorded(bars: &[Given]) -> (Vec<u32>, Map) {
    let (mut pad, mut map) = (vec![0; WORDS], Map::default());
    // the last first, so that each moves those before it
    for bar in bars.iter().rev() {
        let reply = save(&mut pad, bar);
        assert_eq!((reply.kind, Ok(reply.first as usize)), (0, map.save(bar.id, bar.length, bar.hits())));
    }
    let mut words = vec![0; WORDS];
    map.to_words(&mut words);
    assert!(pad == words, "the words differ");
    assert!(Map::from_words(&pad).is_some_and(|read| read == map), "the words hold another map");
    (pad, map)
}

/// The bytes of both are the same; gives their length.
fn compare_written(pad: &[u32], map: &Map, names: &Names, out: &mut [u8]) -> usize {
    let reply = write(pad, names, out);
    let right = fast::write(&fast::given(&map.lists(&names.each)));
    assert_eq!((reply.kind, reply.first), (0, right.len() as u64), "written");
    assert!(out[..right.len()] == right, "the written bytes differ");
    right.len()
}

/// Places for so many hits.
fn room(hits: usize) -> Room {
    (vec![0; hits], vec![0; hits], vec![0; hits])
}

/// What reading back fills is what the map has.
fn compare_read(pad: &[u32], map: &Map, bar: &Given, lent: &mut Room) {
    let n = bar.sounds.len();
    let reply = read(pad, bar.id, lent);
    assert_eq!((reply.kind, reply.first, reply.second), (0, n as u64, bar.length as u64), "read");
    assert!((&lent.0[..n], &lent.1[..n], &lent.2[..n]) == bar.hits(), "what was read differs");
    let mut own = room(n);
    assert_eq!(map.read(bar.id, &mut own), Ok((n, bar.length)));
    assert!((&own.0[..], &own.1[..], &own.2[..]) == bar.hits(), "what the map has differs");
}

/// Who runs: in calls the library, the map that is kept and the one that is read from the words; in writing out the library, and the
/// Rust's writer from the map, with its own checksum and with a table; of the counter as in calls, then the sum over the bars of the map
/// that is kept, and nothing at all.
pub const LIBRARY: usize = 0;
pub const KEPT: usize = 1;
pub const FROM_WORDS: usize = 2;
pub const TABLE: usize = 2;
pub const SUM: usize = 3;
pub const NOTHING: usize = 4;

/// One call at one size.
pub struct Row {
    pub name: &'static str,
    pub times: Timed,
}

pub struct Size {
    pub bars: usize,
    pub hits: usize,
    pub calls: Vec<Row>,
    pub counter: Timed,
    pub write: Timed,
    /// Of the segment that is written.
    pub bytes: usize,
}

/// The map behind the words, for one call.
fn held(words: &[u32]) -> Map {
    Map::from_words(black_box(words)).expect("a pad")
}

fn time_read(pad: &[u32], map: &Map, bar: &Given, count: usize) -> Timed {
    let (mut lent, mut own, mut other) = (room(8192), room(8192), room(8192));
    compare_read(pad, map, bar, &mut lent);
    Timed(rounds(
        count,
        &mut [
            &mut || assert_eq!(black_box(read(black_box(pad), bar.id, &mut lent)).kind, 0),
            &mut || assert!(black_box(map.read(black_box(bar.id), &mut own)).is_ok()),
            &mut || assert!(black_box(held(pad).read(bar.id, &mut other)).is_ok()),
        ],
    ))
}

/// The bar erased and saved again: two calls.
fn time_again(pad: &mut [u32], map: &mut Map, bar: &Given, count: usize) -> Timed {
    let mut words = pad.to_vec();
    let save_in = |map: &mut Map| map.save(bar.id, bar.length, black_box(bar.hits()));
    Timed(rounds(
        count,
        &mut [
            &mut || {
                assert_eq!(erase(black_box(pad), bar.id).kind, 0);
                assert_eq!(save(black_box(pad), bar).kind, 0);
            },
            &mut || {
                assert!(black_box(map.erase(black_box(bar.id))).is_ok());
                assert!(black_box(save_in(map)).is_ok());
            },
            &mut || {
                let mut map = held(&words);
                assert!(map.erase(bar.id).is_ok());
                map.to_words(&mut words);
                let mut map = held(&words);
                assert!(save_in(&mut map).is_ok());
                map.to_words(&mut words);
            },
        ],
    ))
}

/// A save that is refused, since its id is held: what every call does first, and no more.
fn time_held(pad: &mut [u32], map: &mut Map, bar: &Given, count: usize) -> Timed {
    let words = pad.to_vec();
    let save_in = |map: &mut Map| assert_eq!(map.save(black_box(bar.id), bar.length, bar.hits()), Err(18));
    Timed(rounds(
        count,
        &mut [&mut || assert_eq!(save(black_box(pad), bar).kind, 18), &mut || save_in(map), &mut || save_in(&mut held(&words))],
    ))
}

/// The number of all hits: the library reads a word; the map has kept it, or adds it up, or is read from the words for it.
fn time_counter(pad: &[u32], map: &Map, count: usize) -> Timed {
    let right = map.hits();
    assert_eq!((hits(pad).kind, hits(pad).first, map.sum()), (0, right as u64, right), "the hits");
    Timed(rounds(
        count,
        &mut [
            &mut || assert_eq!(black_box(hits(black_box(pad))).first, right as u64),
            &mut || assert_eq!(black_box(black_box(map).hits()), right),
            &mut || assert_eq!(black_box(held(pad).hits()), right),
            &mut || assert_eq!(black_box(black_box(map).sum()), right),
            &mut || assert_eq!(black_box(right), right),
        ],
    ))
}

/// The answers compared, then the times.
fn time_size(count: usize, hits: usize, runs: usize) -> Size {
    eprintln!("a pad of {count} bars with {hits} hits each");
    let bars = bars(count, hits);
    let (mut pad, mut map) = recorded(&bars);
    let names = names();
    let mut out = vec![0; 1 << 18];
    let bytes = compare_written(&pad, &map, &names, &mut out);
    let (first, last) = (&bars[0], &bars[count - 1]);
    let mut calls = vec![
        Row { name: "read, the first bar", times: time_read(&pad, &map, first, runs) },
        Row { name: "erase and save, the first bar", times: time_again(&mut pad, &mut map, first, runs) },
        Row { name: "save, refused with 18", times: time_held(&mut pad, &mut map, last, runs) },
    ];
    if count > 1 {
        calls.insert(1, Row { name: "read, the last bar", times: time_read(&pad, &map, last, runs) });
        calls.insert(3, Row { name: "erase and save, the last bar", times: time_again(&mut pad, &mut map, last, runs) });
    }
    let counter = time_counter(&pad, &map, runs);
    let write = Timed(rounds(
        runs,
        &mut [
            &mut || assert_eq!(black_box(write(black_box(&pad), &names, &mut out)).kind, 0),
            &mut || drop(black_box(fast::write(&fast::given(&black_box(&map).lists(&names.each))))),
            &mut || drop(black_box(table::write(&table::given(&black_box(&map).lists(&names.each))))),
        ],
    ));
    compare_written(&pad, &map, &names, &mut out);
    Size { bars: count, hits: count * hits, calls, counter, write, bytes }
}

/// From a small pad to a full one.
pub fn all(runs: usize) -> Vec<Size> {
    [(8, 8), (64, 16), (256, 32), (1, 8192)].map(|(count, hits)| time_size(count, hits, runs)).into()
}

/// The stack of each call on a full pad.
pub fn depths() -> [(&'static str, usize); 5] {
    let bars = bars(256, 32);
    let (mut pad, _) = recorded(&bars);
    let (names, bar) = (names(), &bars[0]);
    let mut lent = room(32);
    let mut out = vec![0; 1 << 18];
    let hits = stack::depth(&mut || assert_eq!(black_box(hits(&pad)).kind, 0));
    let read = stack::depth(&mut || assert_eq!(black_box(read(&pad, bar.id, &mut lent)).kind, 0));
    let write = stack::depth(&mut || assert_eq!(black_box(write(&pad, &names, &mut out)).kind, 0));
    let erase = stack::depth(&mut || assert_eq!(black_box(erase(&mut pad, bar.id)).kind, 0));
    let save = stack::depth(&mut || assert_eq!(black_box(save(&mut pad, bar)).kind, 0));
    [("pad_save", save), ("pad_erase", erase), ("pad_read", read), ("pad_write", write), ("pad_hits", hits)]
}
