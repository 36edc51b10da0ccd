//! A refusal's three numbers as the original's error.

use std::fmt;

/// Why a call was refused. The first ten are the original's, with its texts; the others belong to the library.
#[derive(Debug, Clone, PartialEq, Eq)]
#[non_exhaustive]
pub enum Error {
    /// The segment magic did not match the raw positional format.
    InvalidMagic,
    /// The segment version is not supported by this reader.
    UnsupportedVersion(u32),
    /// The segment flags contain unsupported bits.
    UnsupportedFlags(u32),
    /// A fixed-width field or section was truncated.
    Truncated(&'static str),
    /// A section checksum did not match the encoded bytes.
    ChecksumMismatch(&'static str),
    /// The encoded layout violated the raw positional segment contract.
    InvalidLayout(&'static str),
    /// A varint field could not be decoded.
    InvalidVarint {
        /// Section being decoded.
        section: &'static str,
        /// Field index within the section.
        index: usize,
    },
    /// A delta-decoded document id overflowed.
    DocIdOverflow(usize),
    /// A delta-decoded token position overflowed.
    PositionOverflow(usize),
    /// A term string was not valid UTF-8.
    InvalidUtf8,
    /// Flat lists do not fit together. Slices of slices always do: only [`length_of`](crate::length_of), which takes two lists, gives it.
    ListShape,
    /// A list, text or MIDI file handed in has over 16,777,216 elements, a question over 128 terms, or a sound to save is above 127.
    TooLarge,
    /// A lent buffer is too short. This crate lends buffers that suffice: no call of it gives this.
    NoRoom {
        /// The buffer's place among those lent, from 1.
        buffer: u32,
        /// The length that it needs.
        needed: usize,
    },
    /// A MIDI file is outside the rules: at 0 its header, at 14 its track's heading, else the event at this offset.
    MidiFile(usize),
    /// A MIDI file has a hit beyond bar 65,535.
    BarTooFar,
    /// No bar has the id asked for.
    UnknownBar,
    /// The bar asked for has more than 64 steps, too many for a sheet.
    BarTooLong,
    /// The pad holds a bar of the id under which another is to be saved.
    AlreadyHeld,
    /// The pad holds 256 bars, or would hold over 8,192 hits.
    PadFull,
    /// Words that are no pad.
    BrokenPad,
    /// In a list of ids, the one at this index, from 0, is the first that is not above the one before it.
    IdsNotRising(usize),
    /// A hit to save has a velocity that is not 1 to 127.
    VelocityRange,
}

/// Sections, from 1.
const SECTIONS: [&str; 6] = [
    "header",
    "term directory",
    "term bytes",
    "document metadata",
    "postings",
    "term postings",
];

/// Reasons of an invalid layout, from 1.
const REASONS: [&str; 21] = [
    "trailing bytes",
    "section range overflow",
    "trailing document metadata bytes",
    "non-increasing document id",
    "term directory length mismatch",
    "empty term",
    "non-increasing term",
    "empty term posting list",
    "non-increasing posting doc id",
    "posting references unknown document",
    "empty position list",
    "non-increasing token position",
    "token position exceeds document length",
    "trailing posting bytes",
    "document lengths must be strictly increasing",
    "terms must be strictly increasing",
    "posting doc id gap underflow",
    "posting doc ids must be increasing",
    "position gap underflow",
    "positions must be increasing",
    "position exceeds document length",
];

fn named(names: &[&'static str], which: u32) -> Option<&'static str> {
    names
        .get(usize::try_from(which).ok()?.checked_sub(1)?)
        .copied()
}

impl Error {
    /// The error with these numbers (docs/FORMAT.md: kind, which, index), or none.
    pub(crate) fn of_numbers(kind: u32, which: u32, index: u64) -> Option<Self> {
        let section = || named(&SECTIONS, which);
        let index = usize::try_from(index).ok()?;
        let number = || u32::try_from(index).ok();
        Some(match kind {
            1 => Error::Truncated(section()?),
            2 => Error::InvalidMagic,
            3 => Error::UnsupportedVersion(number()?),
            4 => Error::UnsupportedFlags(number()?),
            5 => Error::ChecksumMismatch(section()?),
            6 => Error::InvalidLayout(named(&REASONS, which)?),
            7 => Error::InvalidVarint {
                section: section()?,
                index,
            },
            8 => Error::DocIdOverflow(index),
            9 => Error::PositionOverflow(index),
            10 => Error::InvalidUtf8,
            11 => Error::ListShape,
            12 => Error::TooLarge,
            13 => Error::NoRoom {
                buffer: which,
                needed: index,
            },
            14 => Error::MidiFile(index),
            15 => Error::BarTooFar,
            16 => Error::UnknownBar,
            17 => Error::BarTooLong,
            18 => Error::AlreadyHeld,
            19 => Error::PadFull,
            20 => Error::BrokenPad,
            21 => Error::IdsNotRising(index),
            22 => Error::VelocityRange,
            _ => return None,
        })
    }
}

impl fmt::Display for Error {
    fn fmt(&self, f: &mut fmt::Formatter<'_>) -> fmt::Result {
        match self {
            Error::InvalidMagic => write!(f, "raw positional segment has invalid magic"),
            Error::UnsupportedVersion(version) => {
                write!(f, "unsupported raw positional segment version: {version}")
            }
            Error::UnsupportedFlags(flags) => {
                write!(f, "unsupported raw positional segment flags: {flags:#x}")
            }
            Error::Truncated(section) => {
                write!(f, "truncated raw positional segment section: {section}")
            }
            Error::ChecksumMismatch(section) => {
                write!(f, "raw positional segment checksum mismatch in {section}")
            }
            Error::InvalidLayout(reason) => {
                write!(f, "invalid raw positional segment layout: {reason}")
            }
            Error::InvalidVarint { section, index } => write!(
                f,
                "invalid varint in raw positional segment section {section} at index {index}"
            ),
            Error::DocIdOverflow(index) => {
                write!(f, "raw positional segment doc id overflow at index {index}")
            }
            Error::PositionOverflow(index) => write!(
                f,
                "raw positional segment token position overflow at index {index}"
            ),
            Error::InvalidUtf8 => write!(f, "raw positional segment term is not UTF-8"),
            Error::ListShape => write!(f, "lists do not fit together"),
            Error::TooLarge => {
                write!(
                    f,
                    "a list or file is too large, a question has too many terms, or a sound is above 127"
                )
            }
            Error::NoRoom { buffer, needed } => {
                write!(
                    f,
                    "buffer {buffer} is too short: {needed} places are needed"
                )
            }
            Error::MidiFile(0) => write!(f, "invalid MIDI file: header"),
            Error::MidiFile(14) => write!(f, "invalid MIDI file: track heading"),
            Error::MidiFile(offset) => write!(f, "invalid MIDI file: event at offset {offset}"),
            Error::BarTooFar => write!(f, "MIDI file has a hit beyond bar 65535"),
            Error::UnknownBar => write!(f, "no bar has this id"),
            Error::BarTooLong => write!(f, "bar has more than 64 steps"),
            Error::AlreadyHeld => write!(f, "the pad already holds a bar of this id"),
            Error::PadFull => write!(f, "the pad has no room for the bar"),
            Error::BrokenPad => write!(f, "the words are no pad"),
            Error::IdsNotRising(index) => {
                write!(f, "the id at index {index} is not above the one before it")
            }
            Error::VelocityRange => write!(f, "a velocity is not 1 to 127"),
        }
    }
}

impl std::error::Error for Error {}

#[cfg(test)]
mod tests {
    use super::*;

    #[test]
    fn each_number_has_its_error() {
        let cases = [
            ((1, 1, 0), Error::Truncated("header")),
            ((1, 5, 0), Error::Truncated("postings")),
            ((2, 0, 0), Error::InvalidMagic),
            ((3, 0, 4_294_967_295), Error::UnsupportedVersion(u32::MAX)),
            ((4, 0, 1), Error::UnsupportedFlags(1)),
            ((5, 6, 0), Error::ChecksumMismatch("term postings")),
            ((6, 1, 0), Error::InvalidLayout("trailing bytes")),
            (
                (6, 21, 0),
                Error::InvalidLayout("position exceeds document length"),
            ),
            (
                (7, 4, 1 << 33),
                Error::InvalidVarint {
                    section: "document metadata",
                    index: 1 << 33,
                },
            ),
            ((8, 0, 7), Error::DocIdOverflow(7)),
            ((9, 0, 8), Error::PositionOverflow(8)),
            ((10, 0, 0), Error::InvalidUtf8),
            ((11, 0, 0), Error::ListShape),
            ((12, 0, 0), Error::TooLarge),
            (
                (13, 3, 9),
                Error::NoRoom {
                    buffer: 3,
                    needed: 9,
                },
            ),
            ((14, 0, 16_777_216), Error::MidiFile(16_777_216)),
            ((15, 0, 0), Error::BarTooFar),
            ((16, 0, 0), Error::UnknownBar),
            ((17, 0, 0), Error::BarTooLong),
            ((18, 0, 0), Error::AlreadyHeld),
            ((19, 0, 0), Error::PadFull),
            ((20, 0, 0), Error::BrokenPad),
            ((21, 0, 16_777_215), Error::IdsNotRising(16_777_215)),
            ((22, 0, 0), Error::VelocityRange),
        ];
        for ((kind, which, index), error) in cases {
            assert_eq!(Error::of_numbers(kind, which, index), Some(error));
        }
    }

    #[test]
    fn other_numbers_have_none() {
        for (kind, which, index) in [
            (0, 0, 0),
            (23, 0, 0),
            (1, 0, 0),
            (5, 7, 0),
            (6, 0, 0),
            (6, 22, 0),
            (3, 0, 1 << 32),
        ] {
            assert_eq!(Error::of_numbers(kind, which, index), None);
        }
    }
}
