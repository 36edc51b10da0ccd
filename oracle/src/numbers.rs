//! Document 01's numbers for what the Rust's `Error` says.

use crate::reply::Refusal;
use postings::positional::raw::Error;

const SECTIONS: [&str; 6] = ["header", "term directory", "term bytes", "document metadata", "postings", "term postings"];

const REASONS: [&str; 21] = [
    "trailing bytes",
    "section range overflow",
    "trailing document metadata bytes",
    "non-increasing document id",
    "term directory length mismatch",
    "empty term",
    "non-increasing term",
    "empty term posting list",
    "non-increasing posting doc id",
    "posting references unknown document",
    "empty position list",
    "non-increasing token position",
    "token position exceeds document length",
    "trailing posting bytes",
    "document lengths must be strictly increasing",
    "terms must be strictly increasing",
    "posting doc id gap underflow",
    "posting doc ids must be increasing",
    "position gap underflow",
    "positions must be increasing",
    "position exceeds document length",
];

// A text without a number is one that document 01 says cannot occur.
fn place(table: &[&str], text: &str) -> u32 {
    let found = table.iter().position(|known| *known == text);
    found.unwrap_or_else(|| panic!("document 01 has no number for {text:?}")) as u32 + 1
}

pub fn refusal(error: &Error) -> Refusal {
    match *error {
        Error::Truncated(section) => Refusal::new(1, place(&SECTIONS, section), 0),
        Error::InvalidMagic => Refusal::of_kind(2),
        Error::UnsupportedVersion(value) => Refusal::new(3, 0, value.into()),
        Error::UnsupportedFlags(value) => Refusal::new(4, 0, value.into()),
        Error::ChecksumMismatch(section) => Refusal::new(5, place(&SECTIONS, section), 0),
        Error::InvalidLayout(reason) => Refusal::new(6, place(&REASONS, reason), 0),
        Error::InvalidVarint { section, index } => Refusal::new(7, place(&SECTIONS, section), index as u64),
        Error::DocIdOverflow(index) => Refusal::new(8, 0, index as u64),
        Error::PositionOverflow(index) => Refusal::new(9, 0, index as u64),
        Error::InvalidUtf8 => Refusal::of_kind(10),
        ref other => panic!("document 01 has no number for {other:?}"),
    }
}
