//! Questions to a segment that is opened in every call, opened once, or checked once; beside them the Rust and SQLite's FTS5.
use crate::calls::{self, Call};
use crate::checksum;
use crate::compare;
use crate::data::Lists;
use crate::fts5::{self, Fts5};
use crate::handles::{self, Handle};
use crate::library::{self, Buffers};
use crate::measure::{rounds, Timed};
use crate::originals::{fast, table};
use crate::words::{self, Question};
use std::cell::RefCell;
use std::hint::black_box;

/// Who is asked, in this order; FTS5 not always.
#[derive(Clone, Copy)]
pub enum Who {
    RustOnce,
    RustEach,
    Each,
    Opened,
    Checked,
    Fts5,
}

/// A question, and the times of each who is asked.
pub struct Asked {
    pub name: String,
    /// How many bars were found.
    pub found: usize,
    /// The bytes of the lists that are questioned.
    pub lists: usize,
    times: Timed,
}

impl Asked {
    pub fn time(&self, who: Who) -> f64 {
        self.times.of(who as usize)
    }

    pub fn ratio(&self, who: Who, of: Who) -> Option<f64> {
        self.times.ratio(who as usize, of as usize)
    }

    pub fn more(&self, who: Who, than: Who) -> f64 {
        self.times.more(who as usize, than as usize)
    }
}

/// What opens, in this order. The last is a segment of one list that is as long: the checksum of so many bytes.
pub enum Opens {
    Open,
    OpenOnce,
    Check,
    Rust,
    RustTable,
    /// The Rust's open, and every list decoded.
    RustLists,
    Checksum,
}

/// Everything at one number of bars.
pub struct Often {
    pub documents: usize,
    pub postings: usize,
    pub positions: usize,
    pub bytes: usize,
    pub questions: Vec<Asked>,
    pub reads: Vec<Asked>,
    /// By `Opens`.
    pub opening: Timed,
    /// The library, the Rust, the Rust with a table.
    pub write: Timed,
}

/// A segment with its handles, what is lent, and the texts.
struct Asking<'a> {
    bytes: &'a [u8],
    opened: Handle,
    checked: Handle,
    buffers: RefCell<Buffers>,
    fts5: Option<&'a Fts5>,
    rounds: usize,
}

/// The names whose lists a question needs.
fn named(call: &Call) -> Vec<&'static str> {
    match call {
        Call::Phrase(names) | Call::Near(names, ..) => names.strs.clone(),
        Call::NearMatch(a, b, _) => vec![a, b],
        Call::DocsWithTerm(name) | Call::TermPostings(name) | Call::Positions(name, _) => vec![name],
        _ => vec![],
    }
}

/// How many bytes the lists of these names have, as the directory says.
fn list_bytes(bytes: &[u8], lists: &Lists, names: &[&str]) -> usize {
    let length = |entry: usize| u64::from_le_bytes(bytes[72 + 32 * entry + 16..][..8].try_into().expect("eight bytes"));
    lists.names().iter().enumerate().filter(|(_, name)| names.contains(name)).map(|(entry, _)| length(entry) as usize).sum()
}

/// The answers compared, then the times.
fn time_question(q: &Question, lists: &Lists, with: &Asking) -> Asked {
    eprintln!("{} bars of 16 steps: {}", lists.ids.len(), q.name);
    let Asking { bytes, opened, checked, buffers, .. } = with;
    let call = &q.call;
    let segment = fast::open(bytes);
    let right = fast::answer(call, &segment);
    let lend = || buffers.borrow_mut();
    assert_eq!(calls::answer(call, bytes, &mut lend()), right, "{}", q.name);
    for (handle, how) in [(opened, "opened once"), (checked, "checked once")] {
        lend().wipe();
        assert_eq!(handles::answer(call, bytes, *handle, &mut lend()), right, "{}, {how}", q.name);
    }
    let found = right.lists.first().map_or(0, Vec::len);
    assert_eq!(found > 0 || right.lists.is_empty(), q.found, "{}", q.name);
    let text = with.fts5.and_then(|fts5| Some((fts5, fts5::question(call)?)));
    let mut ids = Vec::new();
    if let Some((fts5, question)) = &text {
        fts5.ask(question, &mut ids);
        assert_eq!([&ids[..]], right.lists[..], "{}, FTS5", q.name);
    }

    let mut rust_once = || fast::ask(call, black_box(&segment));
    let mut rust_each = || fast::ask(call, &black_box(fast::open(black_box(bytes))));
    let mut each = || {
        black_box(library::ask(call, black_box(bytes), &mut lend()));
    };
    let mut once = || {
        black_box(handles::ask(call, black_box(bytes), black_box(*opened), &mut lend()));
    };
    let mut sure = || {
        black_box(handles::ask(call, black_box(bytes), black_box(*checked), &mut lend()));
    };
    let mut texts = || {
        if let Some((fts5, question)) = &text {
            fts5.ask(black_box(question), &mut ids);
            black_box(&ids);
        }
    };
    let mut runs: Vec<&mut dyn FnMut()> = vec![&mut rust_once, &mut rust_each, &mut each, &mut once, &mut sure];
    if text.is_some() {
        runs.push(&mut texts);
    }
    let times = Timed(rounds(with.rounds, &mut runs));
    Asked { name: q.name.clone(), found, lists: list_bytes(bytes, lists, &named(call)), times }
}

fn time_opening(bytes: &[u8], lists: &Lists, count: usize) -> Timed {
    let mut spare = Buffers::new(0, 0);
    let long = fast::write(&fast::given(&checksum::one_list(bytes.len() - 110)));
    let mut unlent = Buffers::new(0, 0);
    let names = lists.names();
    Timed(rounds(
        count,
        &mut [
            &mut || {
                black_box(library::ask(&Call::Open, black_box(bytes), &mut spare));
            },
            &mut || {
                black_box(handles::open_once(black_box(bytes)));
            },
            &mut || {
                black_box(handles::check(black_box(bytes)));
            },
            &mut || drop(black_box(fast::open(black_box(bytes)))),
            &mut || drop(black_box(table::open(black_box(bytes)))),
            &mut || {
                let segment = fast::open(black_box(bytes));
                names.iter().for_each(|name| drop(black_box(segment.term_postings(name))));
            },
            &mut || {
                black_box(library::ask(&Call::Open, black_box(&long), &mut unlent));
            },
        ],
    ))
}

/// Everything at one number of bars, in so many rounds.
pub fn size(documents: usize, count: usize) -> Often {
    let bars = words::bars(documents, documents as u64);
    let lists = bars.lists();
    let bytes = fast::write(&fast::given(&lists));
    let mut out = vec![0; lists.room()];
    let written = library::write(&lists, &mut out);
    assert!((written.kind, written.first as usize) == (0, bytes.len()) && out[..bytes.len()] == bytes[..]);
    eprintln!("{documents} bars of 16 steps: write, open, check");
    let write = compare::time_write(&lists, &mut out, count);
    let opening = time_opening(&bytes, &lists, count);

    let (opened, checked) = (handles::open_once(&bytes), handles::check(&bytes));
    assert_eq!((opened.kind, opened.level, checked.kind, checked.level), (0, 1, 0, 2));
    let fts5 = Fts5::new(&bars);
    let buffers = RefCell::new(Buffers::new(documents, lists.positions.len()));
    let with = Asking { bytes: &bytes, opened, checked, buffers, fts5: fts5.as_ref(), rounds: count };
    let timed = |q: &Question| time_question(q, &lists, &with);
    let questions = words::questions().iter().map(timed).collect();
    let with_sound = fast::open(&bytes).docs_with_term(words::SOUND).expect("decodes");
    let reads = words::reads(with_sound[with_sound.len() / 2]).iter().map(timed).collect();
    let (postings, positions) = (lists.posting_ids.len(), lists.positions.len());
    Often { documents, postings, positions, bytes: bytes.len(), questions, reads, opening, write }
}

/// Each number of bars, the smallest first.
pub fn all(quick: bool) -> Vec<Often> {
    if quick {
        vec![size(1000, 5), size(100_000, 5)]
    } else {
        vec![size(1000, 41), size(100_000, 15), size(1_000_000, 5)]
    }
}
