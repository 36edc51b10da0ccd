//! Refusals of the library under the original's names.

mod common;

use common::{repaired, two_bars, write, Documents, Terms};
use pstp::{Error, RawPositionalSegment};

fn varint(section: &'static str, index: usize) -> Error {
    Error::InvalidVarint { section, index }
}

/// What opening says of the two bars with some bytes overwritten.
fn opened(at: usize, over: &[u8]) -> Error {
    let mut bytes = two_bars();
    bytes[at..at + over.len()].copy_from_slice(over);
    RawPositionalSegment::open(&bytes).unwrap_err()
}

/// The same, with the checksums made right.
fn opened_repaired(at: usize, over: &[u8]) -> Error {
    RawPositionalSegment::open(&repaired(two_bars(), at, over)).unwrap_err()
}

#[test]
fn opening() {
    let bytes = two_bars();
    let cut = |len| RawPositionalSegment::open(&bytes[..len]).unwrap_err();
    assert_eq!(cut(0), Error::Truncated("header"));
    assert_eq!(cut(71), Error::Truncated("header"));
    assert_eq!(cut(72), Error::Truncated("term directory"));
    assert_eq!(cut(136), Error::Truncated("term bytes"));
    assert_eq!(cut(145), Error::Truncated("document metadata"));
    assert_eq!(cut(164), Error::Truncated("postings"));
    let longer = [bytes.as_slice(), &[0]].concat();
    assert_eq!(
        RawPositionalSegment::open(&longer).unwrap_err(),
        Error::InvalidLayout("trailing bytes")
    );

    assert_eq!(opened(0, b"Q"), Error::InvalidMagic);
    assert_eq!(opened(8, &[3]), Error::UnsupportedVersion(3));
    assert_eq!(
        opened(12, &[0, 0, 0, 128]),
        Error::UnsupportedFlags(1 << 31)
    );
    assert_eq!(
        opened(24, &[0xFF; 8]),
        Error::InvalidLayout("section range overflow")
    );
    assert_eq!(opened(100, &[0]), Error::ChecksumMismatch("term directory"));
    assert_eq!(opened(136, b"K"), Error::ChecksumMismatch("term bytes"));
    assert_eq!(
        opened(145, &[4]),
        Error::ChecksumMismatch("document metadata")
    );
    assert_eq!(opened(164, &[2]), Error::ChecksumMismatch("postings"));
    assert_eq!(opened(16, &[3]), varint("document metadata", 2));
    assert_eq!(
        opened(16, &[1]),
        Error::InvalidLayout("trailing document metadata bytes")
    );
    assert_eq!(
        opened(20, &[1]),
        Error::InvalidLayout("term directory length mismatch")
    );

    assert_eq!(
        opened_repaired(147, &[0]),
        Error::InvalidLayout("non-increasing document id")
    );
    assert_eq!(
        opened_repaired(72, &[9, 0, 0, 0, 1]),
        Error::Truncated("term bytes")
    );
    assert_eq!(opened_repaired(136, &[0xFF]), Error::InvalidUtf8);
    assert_eq!(
        opened_repaired(76, &[0]),
        Error::InvalidLayout("empty term")
    );
    assert_eq!(
        opened_repaired(136, b"z"),
        Error::InvalidLayout("non-increasing term")
    );
    assert_eq!(
        opened_repaired(96, &[0]),
        Error::InvalidLayout("empty term posting list")
    );
}

#[test]
fn document_ids_overflow() {
    let bytes = write(&[(1, 1), (u32::MAX, 1)], &[]).unwrap();
    let bytes = repaired(bytes, 72, &[2]);
    assert_eq!(
        RawPositionalSegment::open(&bytes).unwrap_err(),
        Error::DocIdOverflow(1)
    );
}

#[test]
fn decoding() {
    // The lists stand from 149 on: kick's is 03 03 00 04 0B 04 01 02.
    let cases: [(usize, &[u8], Error); 9] = [
        (149, &[0x80; 8], varint("postings", 0)),
        (
            149,
            &[4],
            Error::InvalidLayout("posting references unknown document"),
        ),
        (150, &[0], Error::InvalidLayout("empty position list")),
        (
            152,
            &[0],
            Error::InvalidLayout("non-increasing token position"),
        ),
        (
            151,
            &[16],
            Error::InvalidLayout("token position exceeds document length"),
        ),
        (
            154,
            &[0],
            Error::InvalidLayout("non-increasing posting doc id"),
        ),
        (96, &[1], Error::InvalidLayout("trailing posting bytes")),
        (96, &[255, 255, 255, 255], varint("postings", 2)),
        (
            151,
            &[0x01, 0xFF, 0xFF, 0xFF, 0xFF, 0x0F],
            Error::PositionOverflow(1),
        ),
    ];
    for (at, over, want) in cases {
        let bytes = repaired(two_bars(), at, over);
        let segment = RawPositionalSegment::open(&bytes).unwrap();
        assert_eq!(segment.docs_with_term("kick").unwrap_err(), want);
        assert_eq!(segment.term_postings("kick").unwrap_err(), want);
        assert_eq!(segment.positions("kick", 3).unwrap_err(), want);
        assert_eq!(
            segment.phrase_match_strs(&["tom", "kick"]).unwrap_err(),
            want
        );
        assert_eq!(
            segment.phrase_match_ranked(&["tom", "kick"]).unwrap_err(),
            want
        );
        assert_eq!(segment.near_match("kick", "snare", 1).unwrap_err(), want);
        assert_eq!(
            segment
                .near_match_terms_strs(&["snare", "kick"], 1, true)
                .unwrap_err(),
            want
        );
        assert_eq!(segment.phrase_match_strs(&["snare"]).unwrap(), [3, 7]);
        assert_eq!(segment.near_match("kick", "kick", 0).unwrap(), []);
    }
    let bytes = repaired(two_bars(), 96, &[255, 255, 255, 255]);
    assert_eq!(
        RawPositionalSegment::open(&bytes)
            .unwrap()
            .df("kick")
            .unwrap(),
        u32::MAX
    );

    let mut bytes = two_bars();
    bytes[100] ^= 1;
    let directory = common::crc32(&bytes[72..136]).to_le_bytes();
    bytes[56..60].copy_from_slice(&directory);
    let segment = RawPositionalSegment::open(&bytes).unwrap();
    assert_eq!(
        segment.term_postings("kick").unwrap_err(),
        Error::ChecksumMismatch("term postings")
    );
}

#[test]
fn writing() {
    let cases: [(&Documents, &Terms<'_>, &str); 11] = [
        (
            &[(3, 1), (3, 1)],
            &[],
            "document lengths must be strictly increasing",
        ),
        (&[(3, 1)], &[("", &[(3, &[0])])], "empty term"),
        (
            &[(3, 1)],
            &[("b", &[(3, &[0])]), ("a", &[(3, &[0])])],
            "terms must be strictly increasing",
        ),
        (&[(3, 1)], &[("a", &[])], "empty term posting list"),
        (
            &[(3, 1)],
            &[("a", &[(4, &[0])])],
            "posting references unknown document",
        ),
        (
            &[(3, 1), (4, 1)],
            &[("a", &[(4, &[0]), (3, &[0])])],
            "posting doc id gap underflow",
        ),
        (
            &[(3, 1)],
            &[("a", &[(3, &[0]), (3, &[0])])],
            "posting doc ids must be increasing",
        ),
        (&[(3, 1)], &[("a", &[(3, &[])])], "empty position list"),
        (
            &[(3, 9)],
            &[("a", &[(3, &[4, 3])])],
            "position gap underflow",
        ),
        (
            &[(3, 9)],
            &[("a", &[(3, &[4, 4])])],
            "positions must be increasing",
        ),
        (
            &[(3, 9)],
            &[("a", &[(3, &[9])])],
            "position exceeds document length",
        ),
    ];
    for (documents, terms, want) in cases {
        assert_eq!(
            write(documents, terms).unwrap_err(),
            Error::InvalidLayout(want)
        );
    }
}

#[test]
fn limits() {
    let bytes = two_bars();
    let segment = RawPositionalSegment::open(&bytes).unwrap();
    assert_eq!(segment.phrase_match_strs(&["kick"; 128]).unwrap(), []);
    assert_eq!(segment.phrase_match_ranked(&["kick"; 128]).unwrap(), []);
    assert_eq!(
        segment.phrase_match_strs(&["kick"; 129]).unwrap_err(),
        Error::TooLarge
    );
    assert_eq!(
        segment
            .near_match_terms_strs(&["kick"; 129], 0, true)
            .unwrap_err(),
        Error::TooLarge
    );

    let mut name = "a".repeat(16_777_216);
    assert_eq!(segment.df(&name).unwrap(), 0);
    assert_eq!(
        write(&[(3, 1)], &[(&name, &[(3, &[0])])]).unwrap().len(),
        16_777_216 + 109
    );
    name.push('a');
    assert_eq!(segment.df(&name).unwrap_err(), Error::TooLarge);
    assert_eq!(
        write(&[(3, 1)], &[(&name, &[(3, &[0])])]).unwrap_err(),
        Error::TooLarge
    );
}

#[test]
fn texts() {
    let texts = [
        (
            Error::UnsupportedFlags(16),
            "unsupported raw positional segment flags: 0x10",
        ),
        (
            varint("postings", 4),
            "invalid varint in raw positional segment section postings at index 4",
        ),
        (
            Error::InvalidLayout("empty term"),
            "invalid raw positional segment layout: empty term",
        ),
    ];
    for (error, text) in texts {
        assert_eq!(error.to_string(), text);
    }
}
