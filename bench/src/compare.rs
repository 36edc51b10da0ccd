//! Every call timed on both sides, at one number of documents.
use crate::calls::{self, Call};
use crate::data;
use crate::library::{self, Buffers};
use crate::measure::{median, rounds, Timed};
use crate::originals::{fast, table};
use std::hint::black_box;

/// Medians for one call, in nanoseconds.
pub struct Row {
    pub name: String,
    /// Opened each time: the library, the Rust, the Rust with a table.
    pub whole: [f64; 3],
    /// Apart from opening.
    pub apart: [f64; 3],
}

/// All rows at one size.
pub struct Size {
    pub documents: usize,
    pub postings: usize,
    pub positions: usize,
    pub bytes: usize,
    pub rows: Vec<Row>,
}

/// The times of one call. The library opens in every call: its search apart is the call less an open of the same round.
pub fn time_call(call: &Call, bytes: &[u8], buffers: &mut Buffers, count: usize) -> Row {
    let quick = fast::open(bytes);
    let slow = table::open(bytes);
    let right = calls::answer(call, bytes, buffers);
    assert_eq!(right, fast::answer(call, &quick), "{}", call.name());
    assert_eq!(right, table::answer(call, &slow), "{}", call.name());
    let mut spare = Buffers::new(0, 0);
    let times = rounds(
        count,
        &mut [
            &mut || {
                black_box(library::ask(call, black_box(bytes), buffers));
            },
            &mut || {
                black_box(library::ask(&Call::Open, black_box(bytes), &mut spare));
            },
            &mut || fast::ask(call, &black_box(fast::open(black_box(bytes)))),
            &mut || table::ask(call, &black_box(table::open(black_box(bytes)))),
            &mut || fast::ask(call, black_box(&quick)),
            &mut || table::ask(call, black_box(&slow)),
        ],
    );
    let of = |i: usize| median(times[i].iter().copied());
    let less = median(times[0].iter().zip(&times[1]).map(|(all, open)| all - open));
    Row { name: call.name(), whole: [of(0), of(2), of(3)], apart: [less, of(4), of(5)] }
}

/// The writer, from lists in the form of each side: the library, the Rust, the Rust with a table.
pub fn time_write(lists: &data::Lists, out: &mut [u8], count: usize) -> Timed {
    let quick = fast::given(lists);
    let slow = table::given(lists);
    Timed(rounds(
        count,
        &mut [
            &mut || {
                black_box(library::write(black_box(lists), out));
            },
            &mut || drop(black_box(fast::write(black_box(&quick)))),
            &mut || drop(black_box(table::write(black_box(&slow)))),
        ],
    ))
}

/// Everything at one size, or one call. The answers are compared first.
pub fn size(documents: usize, count: usize, only: Option<&str>) -> Size {
    let wanted = |name: &str| only.is_none_or(|one| one == name);
    let lists = data::bars(documents);
    let bytes = fast::write(&fast::given(&lists));
    let mut out = vec![0; lists.room()];
    let written = library::write(&lists, &mut out);
    assert_eq!((written.kind, written.first), (0, bytes.len() as u64));
    assert!(out[..bytes.len()] == bytes[..] && table::write(&table::given(&lists)) == bytes);

    let mut buffers = Buffers::new(documents, lists.positions.len());
    let snares = fast::open(&bytes).docs_with_term("snare").expect("decodes");
    let mut rows = Vec::new();
    for call in calls::all(snares[snares.len() / 2]).iter().filter(|call| wanted(&call.name())) {
        eprintln!("{documents} documents: {}", call.name());
        rows.push(time_call(call, &bytes, &mut buffers, count));
    }
    if wanted("write") {
        eprintln!("{documents} documents: write");
        let times = time_write(&lists, &mut out, count);
        let whole = [times.of(0), times.of(1), times.of(2)];
        rows.push(Row { name: "write".into(), whole, apart: whole });
    }
    Size { documents, postings: lists.posting_ids.len(), positions: lists.positions.len(), bytes: bytes.len(), rows }
}
