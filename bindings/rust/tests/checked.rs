//! A segment checked once, and one opened once, beside the plain one: every method returns the same, errors included, on segments as
//! written, damaged, and damaged with the checksums made right again.

mod common;

use common::{repaired, two_bars, write, Random};
use pstp::{CheckedSegment, Error, OpenedSegment, RawPositionalSegment};

const NAMES: [&str; 8] = ["kick", "snare", "a", "ab", "h\u{e4}t", "tom", "", "kic"];
const QUESTIONS: [&[&str]; 12] = [
    &[],
    &["kick"],
    &["a"],
    &["kick", "snare"],
    &["snare", "kick"],
    &["tom", "kick"],
    &["snare", "kick", "snare"],
    &["a", "ab"],
    &["ab", "a"],
    &["a", "a"],
    &["h\u{e4}t", "ab", "a"],
    &["ab"; 129],
];

/// Every method of a segment with a handle beside the plain one's.
macro_rules! assert_same {
    ($handled:expr, $plain:expr, $ids:expr) => {{
        let (handled, plain) = ($handled, $plain);
        assert_eq!(handled.doc_count(), plain.doc_count());
        assert_eq!(handled.term_count(), plain.term_count());
        let again = handled.segment();
        assert_eq!(again.document_lengths(), plain.document_lengths());
        for &id in $ids {
            assert_eq!(handled.document_len(id), plain.document_len(id));
            assert_eq!(again.bar_sheet(id), plain.bar_sheet(id));
        }
        for name in NAMES {
            assert_eq!(handled.df(name), plain.df(name));
            assert_eq!(handled.docs_with_term(name), plain.docs_with_term(name));
            assert_eq!(handled.term_postings(name), plain.term_postings(name));
            for &id in $ids {
                assert_eq!(handled.positions(name, id), plain.positions(name, id));
            }
            for other in ["snare", "a", "tom"] {
                for window in [0, 1, 6, u32::MAX] {
                    assert_eq!(
                        handled.near_match(name, other, window),
                        plain.near_match(name, other, window)
                    );
                }
            }
        }
        for question in QUESTIONS {
            assert_eq!(
                handled.phrase_match_strs(question),
                plain.phrase_match_strs(question)
            );
            for window in [0, 1, 4, 200] {
                for ordered in [false, true] {
                    assert_eq!(
                        handled.near_match_terms_strs(question, window, ordered),
                        plain.near_match_terms_strs(question, window, ordered)
                    );
                }
            }
        }
    }};
}

/// The names of an open segment, in the order of its directory.
fn names_of(bytes: &[u8]) -> Vec<&str> {
    let number = |at: usize| u32::from_le_bytes(bytes[at..at + 4].try_into().unwrap()) as usize;
    let terms = number(20);
    (0..terms)
        .map(|i| {
            let name = 72 + 32 * terms + number(72 + 32 * i);
            std::str::from_utf8(&bytes[name..name + number(76 + 32 * i)]).unwrap()
        })
        .collect()
}

/// What became of some bytes.
#[derive(Clone, Copy, Debug, PartialEq, Eq)]
enum Fate {
    NotOpened,
    NotChecked,
    Checked,
}

/// Opens and checks the bytes in every way, and compares.
fn compare(bytes: &[u8], ids: &[u32]) -> Fate {
    let plain = match RawPositionalSegment::open(bytes) {
        Ok(plain) => plain,
        Err(refusal) => {
            assert_eq!(OpenedSegment::open(bytes).unwrap_err(), refusal);
            assert_eq!(CheckedSegment::open(bytes).unwrap_err(), refusal);
            return Fate::NotOpened;
        }
    };
    assert_same!(plain.open_once().unwrap(), plain, ids);
    assert_same!(OpenedSegment::open(bytes).unwrap(), plain, ids);
    let first = names_of(bytes)
        .into_iter()
        .find_map(|name| plain.docs_with_term(name).err());
    if let Some(refusal) = first {
        assert_eq!(plain.check().unwrap_err(), refusal);
        assert_eq!(CheckedSegment::open(bytes).unwrap_err(), refusal);
        return Fate::NotChecked;
    }
    assert_same!(plain.check().unwrap(), plain, ids);
    assert_same!(CheckedSegment::open(bytes).unwrap(), plain, ids);
    Fate::Checked
}

fn several() -> Vec<Vec<u8>> {
    vec![
        two_bars(),
        write(&[], &[]).unwrap(),
        write(&[(0, 0), (3, 5)], &[]).unwrap(),
        write(
            &[(1, 200), (3, 300), (70_000, 9), (u32::MAX, u32::MAX)],
            &[
                ("a", &[(1, &[0, 1, 130]), (70_000, &[8])]),
                ("ab", &[(3, &[128, 299]), (u32::MAX, &[7, u32::MAX - 1])]),
                ("h\u{e4}t", &[(1, &[2]), (3, &[129])]),
            ],
        )
        .unwrap(),
    ]
}

const IDS: [u32; 7] = [0, 1, 3, 7, 8, 70_000, u32::MAX];

#[test]
fn as_written() {
    for bytes in several() {
        assert_eq!(compare(&bytes, &IDS), Fate::Checked);
    }
}

#[test]
fn cut() {
    for bytes in several() {
        for len in 0..bytes.len() {
            assert_eq!(compare(&bytes[..len], &IDS), Fate::NotOpened);
        }
    }
}

/// One bit at a time: the checksums notice, or, in the header, what they do not cover is refused.
#[test]
fn damaged() {
    let bytes = two_bars();
    for bit in 0..8 * bytes.len() {
        let mut damaged = bytes.clone();
        damaged[bit / 8] ^= 1 << (bit % 8);
        assert_eq!(compare(&damaged, &IDS), Fate::NotOpened);
    }
}

#[test]
fn damaged_and_made_right() {
    let mut random = Random(0x9E37_79B9_7F4A_7C15);
    let all = several();
    let mut fates = [0; 3];
    for _ in 0..3000 {
        let mut bytes = all[random.below(all.len() as u32) as usize].clone();
        for _ in 0..=random.below(2) {
            // Behind the header and not in an entry's range of its list, so that the checksums can be made right.
            let directory = 72..72 + 32 * usize::from(bytes[20]);
            let places: Vec<_> = (72..bytes.len())
                .filter(|at| !directory.contains(at) || !(8..24).contains(&((at - 72) % 32)))
                .collect();
            if places.is_empty() {
                continue;
            }
            let at = places[random.below(places.len() as u32) as usize];
            let with = match random.below(3) {
                0 => random.below(256) as u8,
                1 => random.below(4) as u8,
                _ => bytes[at].wrapping_add(1),
            };
            bytes = repaired(bytes, at, &[with]);
        }
        fates[compare(&bytes, &IDS) as usize] += 1;
    }
    println!("not opened, not checked, checked: {fates:?}");
    assert!(fates.iter().all(|&times| times > 100), "{fates:?}");
}

#[test]
fn the_first_list_that_does_not_decode() {
    // The lists stand from 149 on: kick's is 03 03 00 04 0B 04 01 02, snare's 03 02 08 06 04 02 03 01.
    let too_far = Error::InvalidLayout("token position exceeds document length");
    let none = Error::InvalidLayout("empty position list");
    let kick = repaired(two_bars(), 151, &[16]);
    let snare = repaired(two_bars(), 158, &[0]);
    let both = repaired(kick.clone(), 158, &[0]);
    for (bytes, want) in [(&kick, &too_far), (&snare, &none), (&both, &too_far)] {
        let segment = RawPositionalSegment::open(bytes).unwrap();
        assert_eq!(segment.check().unwrap_err(), *want);
        assert_eq!(compare(bytes, &IDS), Fate::NotChecked);
    }
    let opened = OpenedSegment::open(&kick).unwrap();
    assert_eq!(opened.docs_with_term("kick").unwrap_err(), too_far);
    assert_eq!(opened.docs_with_term("snare").unwrap(), [3, 7]);
}

#[test]
fn answers_larger_than_the_first_room() {
    let positions: Vec<u32> = (0..1_100_000).collect();
    let bytes = write(&[(9, 1_100_000)], &[("a", &[(9, &positions)])]).unwrap();
    let checked = CheckedSegment::open(&bytes).unwrap();
    assert_eq!(checked.positions("a", 9).unwrap(), positions);
    assert_eq!(checked.term_postings("a").unwrap()[0].positions, positions);
}

/// The handle is numbers: a segment that was checked is copied and asked from several threads.
#[test]
fn copied_and_sent() {
    let bytes = two_bars();
    let checked = CheckedSegment::open(&bytes).unwrap();
    std::thread::scope(|threads| {
        for _ in 0..4 {
            threads.spawn(move || {
                for _ in 0..100 {
                    assert_eq!(checked.phrase_match_strs(&["kick", "snare"]).unwrap(), [7]);
                }
            });
        }
    });
}
