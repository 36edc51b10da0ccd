//! Positional segments: documents, terms and token positions in one sequence of bytes, and the phrase and near search over them.
//!
//! Names and shapes are those of `src/positional/raw.rs` of arclabs561/postings (MIT OR Apache-2.0); the work is done by `libpstp.a`, in
//! which every call is proved to return what its definition says. This crate turns slices of slices into the library's flat lists, lends
//! the buffers, and turns refusals into errors. `docs/FORMAT.md` of the repository describes the format and the rules of the search.
//!
//! ```
//! use pstp::{write_positional_segment, PositionalPosting, PositionalTermPostings, RawPositionalSegment};
//!
//! let bytes = write_positional_segment(
//!     &[(3, 16)],
//!     &[PositionalTermPostings {
//!         term: "kick",
//!         postings: vec![PositionalPosting { doc_id: 3, positions: &[0, 4, 15] }],
//!     }],
//! )?;
//! let segment = RawPositionalSegment::open(&bytes)?;
//! assert_eq!(segment.positions("kick", 3)?, [0, 4, 15]);
//! assert_eq!(segment.near_match("kick", "kick", 4)?, [3]);
//! # Ok::<(), pstp::Error>(())
//! ```
//!
//! # What differs from the original
//!
//! - Each call opens the segment again: the library keeps nothing between calls. A call therefore reads the whole segment once, and every
//!   method returns a [`Result`]; after [`RawPositionalSegment::open`] has accepted the bytes, opening them again cannot fail.
//!   [`RawPositionalSegment::check`] gives a [`CheckedSegment`], which is asked the questions of document 01 and checks nothing
//!   again, and
//!   [`RawPositionalSegment::open_once`] an [`OpenedSegment`], which still decodes the lists of each question, as the original does.
//! - A question has at most 128 terms, and each list at most 16,777,216 elements; otherwise [`Error::TooLarge`].
//! - Files and the hash-map index are left out. [`midi_bars`], which reads bars from a MIDI file,
//!   [`RawPositionalSegment::bar_sheet`], which puts a bar on paper, [`RawPositionalSegment::phrase_match_ranked`], which lists the
//!   best bars first, [`length_of`], which looks a length up in lists of the caller's own, and [`Pad`], which holds bars before they are
//!   written, are added.
#![deny(missing_docs)]
#![deny(unsafe_code)]

mod checked;
mod error;
mod flat;
mod lookup;
mod midi;
mod pad;
mod room;
mod segment;
#[allow(unsafe_code)]
mod sys;
mod types;
mod writer;

pub use checked::{CheckedSegment, OpenedSegment};
pub use error::Error;
pub use lookup::length_of;
pub use midi::{midi_bars, MidiBars};
pub use pad::{Bar, Hit, Pad};
pub use segment::RawPositionalSegment;
pub use types::{DocId, PositionalPosting, PositionalTermPostings, RawPositionalPosting, TokenPos};
pub use writer::write_positional_segment;
