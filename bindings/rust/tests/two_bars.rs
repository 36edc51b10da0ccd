//! The two bars of docs/FORMAT.md, by every call.

mod common;

use common::{two_bars, write};
use pstp::{RawPositionalPosting, RawPositionalSegment};

#[test]
fn written() {
    let bytes = two_bars();
    assert_eq!(bytes.len(), 165);
    assert_eq!(bytes[145..149], [0x03, 0x10, 0x04, 0x10]);
    assert_eq!(bytes[149..157], [3, 3, 0, 4, 11, 4, 1, 2]);
}

#[test]
fn nothing_written() {
    let mut want = vec![0; 72];
    want[..9].copy_from_slice(b"PSTP0001\x02");
    let bytes = write(&[], &[]).unwrap();
    assert_eq!(bytes, want);
    let segment = RawPositionalSegment::open(&bytes).unwrap();
    assert_eq!((segment.doc_count(), segment.term_count()), (0, 0));
    assert_eq!(segment.document_lengths().unwrap(), []);
    assert_eq!(segment.phrase_match_strs(&["kick"]).unwrap(), []);
    assert_eq!(segment.phrase_match_ranked(&["kick"]).unwrap(), []);
}

#[test]
fn the_longest_numbers() {
    let bytes = write(&[(u32::MAX, u32::MAX)], &[]).unwrap();
    assert_eq!(bytes.len(), 72 + 5 + 5);
    let segment = RawPositionalSegment::open(&bytes).unwrap();
    assert_eq!(segment.document_len(u32::MAX).unwrap(), Some(u32::MAX));
}

#[test]
fn read() {
    let bytes = two_bars();
    let segment = RawPositionalSegment::open(&bytes).unwrap();
    assert_eq!((segment.doc_count(), segment.term_count()), (2, 2));
    assert_eq!(segment.document_lengths().unwrap(), [(3, 16), (7, 16)]);
    assert_eq!(segment.document_len(7).unwrap(), Some(16));
    assert_eq!(segment.document_len(4).unwrap(), None);
    assert_eq!(segment.df("kick").unwrap(), 2);
    assert_eq!(segment.df("tom").unwrap(), 0);
    assert_eq!(segment.docs_with_term("snare").unwrap(), [3, 7]);
    assert_eq!(segment.docs_with_term("tom").unwrap(), []);
    assert_eq!(
        segment.term_postings("kick").unwrap(),
        [
            RawPositionalPosting {
                doc_id: 3,
                positions: vec![0, 4, 15]
            },
            RawPositionalPosting {
                doc_id: 7,
                positions: vec![2]
            },
        ]
    );
    assert_eq!(segment.term_postings("").unwrap(), []);
    assert_eq!(segment.positions("snare", 3).unwrap(), [8, 14]);
    assert_eq!(segment.positions("snare", 5).unwrap(), []);
    assert_eq!(segment.positions("tom", 3).unwrap(), []);
}

#[test]
fn unlike_numbers() {
    let bytes = write(
        &[(2, 5), (9, 300), (70000, 4096)],
        &[("hat", &[(9, &[0, 128, 299])])],
    )
    .unwrap();
    let segment = RawPositionalSegment::open(&bytes).unwrap();
    assert_eq!((segment.doc_count(), segment.term_count()), (3, 1));
    assert_eq!(
        segment.document_lengths().unwrap(),
        [(2, 5), (9, 300), (70000, 4096)]
    );
    assert_eq!(segment.document_len(70000).unwrap(), Some(4096));
    assert_eq!(segment.df("hat").unwrap(), 1);
    assert_eq!(segment.positions("hat", 9).unwrap(), [0, 128, 299]);
    assert_eq!(segment.near_match("hat", "hat", 128).unwrap(), [9]);
    assert_eq!(segment.near_match("hat", "hat", 127).unwrap(), []);
}

#[test]
fn phrases() {
    let bytes = two_bars();
    let segment = RawPositionalSegment::open(&bytes).unwrap();
    let cases: [(&[&str], &[u32]); 7] = [
        (&["kick", "snare"], &[7]),
        (&["kick", "snare", "snare"], &[7]),
        (&["snare", "kick"], &[3]),
        (&["snare"], &[3, 7]),
        (&["kick", "tom"], &[]),
        (&[""], &[]),
        (&[], &[]),
    ];
    for (phrase, want) in cases {
        assert_eq!(
            segment.phrase_match_strs(phrase).unwrap(),
            want,
            "{phrase:?}"
        );
    }
}

#[test]
fn ranked() {
    let bytes = two_bars();
    let segment = RawPositionalSegment::open(&bytes).unwrap();
    let cases: [(&[&str], &[(u32, u32)]); 7] = [
        (&["kick"], &[(3, 3), (7, 1)]),
        (&["snare"], &[(3, 2), (7, 2)]),
        (&["kick", "snare"], &[(7, 1)]),
        (&["snare", "snare"], &[(7, 1)]),
        (&["kick", "tom"], &[]),
        (&[""], &[]),
        (&[], &[]),
    ];
    for (phrase, want) in cases {
        assert_eq!(
            segment.phrase_match_ranked(phrase).unwrap(),
            want,
            "{phrase:?}"
        );
    }
}

#[test]
fn near() {
    let bytes = two_bars();
    let segment = RawPositionalSegment::open(&bytes).unwrap();
    let cases: [(&[&str], u32, bool, &[u32]); 9] = [
        (&["kick", "snare"], 3, true, &[7]),
        (&["kick", "snare"], 4, true, &[3, 7]),
        (&["snare", "kick"], 1, true, &[3]),
        (&["kick", "snare"], 1, false, &[3, 7]),
        (&["snare", "snare"], 5, false, &[7]),
        (&["snare", "snare"], 6, false, &[3, 7]),
        (&["kick", "snare"], 0, true, &[]),
        (&["kick"], 9, false, &[]),
        (&["kick", "kick", "kick"], u32::MAX, false, &[3]),
    ];
    for (terms, window, ordered, want) in cases {
        let got = segment.near_match_terms_strs(terms, window, ordered);
        assert_eq!(got.unwrap(), want, "{terms:?} {window} {ordered}");
        if let ([a, b], false) = (terms, ordered) {
            assert_eq!(segment.near_match(a, b, window).unwrap(), want);
        }
    }
}
