//! Where one test meets another: lengths around 64, ids of every width, a list that cannot be decoded in every place, shared bytes.

use super::compare::Sheets;
use super::model::Paper;
use super::written;
use crate::bars::term;
use crate::compare::opened;
use crate::given::{Given, Posting, Term};
use crate::parts::Parts;

type Numbers = (u32, u32, u64);

/// A list whose first number has no end.
const NO_LIST: &[u8] = &[0x80];

fn expect(sheets: &mut Sheets, segment: &[u8], id: u32, numbers: Option<Numbers>, what: &str) {
    let opened = opened(segment);
    let found = sheets.every_room(&Paper::new(&opened), id);
    let told = found.err().map(|(_, refusal)| (refusal.kind, refusal.which, refusal.index));
    if told != numbers {
        sheets.stray(format!("{what}, bar {id}: {told:?} instead of {numbers:?}"));
    }
}

/// A written segment taken apart; lists that do not fit are a fault of this file.
fn parts(given: &Given) -> Parts {
    Parts::of(&written(given)).unwrap_or(Parts::empty())
}

fn break_list(parts: &mut Parts, place: usize) {
    parts.put_list(place, NO_LIST);
    parts.sign_lists();
}

/// Every length that matters, with ids of one to ten digits, hits on the first step and on the last.
fn lengths(sheets: &mut Sheets) {
    for id in [0, 9, 10, 99_999, 999_999_999, 1_000_000_000, u32::MAX - 1, u32::MAX] {
        for length in [0, 1, 2, 9, 10, 15, 16, 17, 62, 63, 64, 65, 66, 100, 127, 128, 255, 256, 320, 65_600, u32::MAX] {
            let mut terms = Vec::new();
            if length > 0 {
                terms = vec![term("first", &[(id, &[0])]), term("last", &[(id, &[length - 1])])];
            }
            let given = Given { documents: vec![(id, length)], terms };
            let refused = if length > 64 { Some((17, 0, 0)) } else { None };
            let segment = written(&given);
            expect(sheets, &segment, id, refused, "lengths");
            expect(sheets, &segment, id ^ 1, Some((16, 0, 0)), "another id");
            expect(sheets, &segment, id ^ 1 << 31, Some((16, 0, 0)), "another id");
        }
    }
    expect(sheets, &Parts::empty().bytes(), 0, Some((16, 0, 0)), "no bars");
}

/// Four sounds, of which the bar has every choice, and one list in every place that cannot be decoded, or none.
fn places(sheets: &mut Sheets) {
    for choice in 0..16u32 {
        let sound = |i: u32| {
            let id = if choice >> i & 1 == 1 { 5 } else { 6 };
            term(["a", "b", "c", "d"][i as usize], &[(id, &[i, 7])])
        };
        let whole =
            parts(&Given { documents: vec![(3, 65), (5, 8), (6, 8), (7, 0), (9, u32::MAX)], terms: (0..4).map(sound).collect() });
        for place in 0..=4 {
            let mut parts = whole.clone();
            let refused = (place < 4).then_some((7, 5, 0));
            if place < 4 {
                break_list(&mut parts, place);
            }
            let segment = parts.bytes();
            for id in [5, 6, 7] {
                expect(sheets, &segment, id, refused, "a list in every place");
            }
            for id in [0, 4, 8, 10, u32::MAX] {
                expect(sheets, &segment, id, Some((16, 0, 0)), "an unknown bar and a list");
            }
            for id in [3, 9] {
                expect(sheets, &segment, id, Some((17, 0, 0)), "a long bar and a list");
            }
        }
    }
}

/// Two lists that cannot be decoded, for different reasons: the first in the directory stands.
fn two_lists(sheets: &mut Sheets) {
    let whole = parts(&Given {
        documents: vec![(1, 4), (2, 4)],
        terms: vec![term("a", &[(1, &[0])]), term("b", &[(1, &[1])]), term("c", &[(2, &[2])])],
    });
    for (first, second) in [(0, 1), (0, 2), (1, 2)] {
        for swapped in [false, true] {
            let (cut, forged) = if swapped { (second, first) } else { (first, second) };
            let mut parts = whole.clone();
            break_list(&mut parts, cut);
            parts.entries[forged].checksum ^= 1;
            let refused = if swapped { (5, 6, 0) } else { (7, 5, 0) };
            for id in [1, 2] {
                expect(sheets, &parts.bytes(), id, Some(refused), "two lists");
            }
        }
    }
}

/// Sounds with one list, and with lists that lie within another's bytes, are sounds of their own.
fn shared(sheets: &mut Sheets) {
    let names = ["a", "b", "c"];
    let given = Given {
        documents: vec![(1, 64), (2, 3)],
        terms: names.iter().map(|name| term(name, &[(1, &[0, 63]), (2, &[1])])).collect(),
    };
    let mut parts = parts(&given);
    let list = parts.list(&parts.entries[1]).unwrap_or(&[]).to_vec();
    parts.postings = list;
    for entry in &mut parts.entries {
        entry.list_at = 0;
    }
    hold(sheets, &parts, &given);

    // the list of bar 1 and bar 2, whose end is also a list of bar 1 alone
    let mut within = given.clone();
    within.terms.iter_mut().for_each(|term| term.postings = vec![Posting { id: 1, positions: vec![1] }]);
    within.terms[0].postings = vec![Posting { id: 1, positions: vec![2] }, Posting { id: 2, positions: vec![1] }];
    parts.postings = vec![1, 1, 2, 1, 1, 1];
    for (place, (at, length, df)) in [(0, 6, 2), (3, 3, 1), (3, 3, 1)].into_iter().enumerate() {
        (parts.entries[place].list_at, parts.entries[place].list_len, parts.entries[place].df) = (at, length, df);
    }
    parts.sign_lists();
    hold(sheets, &parts, &within);
}

fn hold(sheets: &mut Sheets, parts: &Parts, given: &Given) {
    let segment = parts.bytes();
    let opened = opened(&segment);
    let paper = Paper::new(&opened);
    for (id, _) in &given.documents {
        let found = sheets.every_room(&paper, *id);
        sheets.hold(given, *id, &found);
    }
}

/// More sounds than a question can name, and more bytes than a list handed in may have.
fn many(sheets: &mut Sheets) {
    for count in [128, 129, 1000, 250_000] {
        let name = |i: u32| format!("{i:06}{}", if i % 3 == 0 { "-thirteen" } else { "" });
        let sound =
            |i: u32| Term { name: name(i).into_bytes(), postings: vec![Posting { id: 1 + i % 2, positions: vec![i % 64] }] };
        let one = |i: u32| Term { postings: vec![Posting { id: 1, positions: vec![i % 64] }], ..sound(i) };
        let documents = vec![(1, 64), (2, 64)];
        let all = Given { documents: documents.clone(), terms: (0..count).map(one).collect() };
        let half = Given { documents, terms: (0..count).map(sound).collect() };
        for given in [all, half] {
            let segment = written(&given);
            let opened = opened(&segment);
            let paper = Paper::new(&opened);
            for id in [1, 2] {
                let found = sheets.ask_full(&paper, id);
                sheets.run(&paper, id, &found, super::compare::full_room(&found) - 1);
                if count <= 1000 {
                    sheets.hold(&given, id, &found);
                }
            }
        }
    }
}

pub fn all(sheets: &mut Sheets) {
    lengths(sheets);
    places(sheets);
    two_lists(sheets);
    shared(sheets);
    many(sheets);
}
