//! A segment checked once and asked often. The questions are those of [`RawPositionalSegment`].

use crate::flat::Names;
use crate::room::{front, split_postings, with_positions};
use crate::segment::RawPositionalSegment;
use crate::sys::handle::{self, Handle};
use crate::types::{DocId, RawPositionalPosting, TokenPos};
use crate::Error;

/// A segment whose every list was decoded once: a question checks nothing again, and reads only what it needs.
///
/// [`RawPositionalSegment::check`] makes it. It costs about as much as a few questions to a [`RawPositionalSegment`], and pays from then
/// on. Each method returns what the method of that name returns of the plain segment; as every list is known to decode, only what is asked
/// can be refused, such as a question of too many terms.
///
/// It borrows the bytes, so that they cannot change as long as it is used:
///
/// ```compile_fail,E0502
/// # use pstp::{write_positional_segment, PositionalPosting, PositionalTermPostings, RawPositionalSegment};
/// # let kick = vec![PositionalPosting { doc_id: 3, positions: &[0, 4, 15] }];
/// # let mut bytes = write_positional_segment(&[(3, 16)], &[PositionalTermPostings { term: "kick", postings: kick }])?;
/// let checked = RawPositionalSegment::open(&bytes)?.check()?;
/// bytes[0] = 0;
/// assert_eq!(checked.df("kick")?, 1);
/// # Ok::<(), pstp::Error>(())
/// ```
///
/// Bytes that have changed are checked again:
///
/// ```
/// # use pstp::{write_positional_segment, Error, PositionalPosting, PositionalTermPostings, RawPositionalSegment};
/// # let kick = vec![PositionalPosting { doc_id: 3, positions: &[0, 4, 15] }];
/// # let mut bytes = write_positional_segment(&[(3, 16)], &[PositionalTermPostings { term: "kick", postings: kick }])?;
/// let checked = RawPositionalSegment::open(&bytes)?.check()?;
/// assert_eq!(checked.positions("kick", 3)?, [0, 4, 15]);
/// assert_eq!(checked.near_match("kick", "kick", 4)?, [3]);
/// bytes[0] = 0;
/// assert_eq!(RawPositionalSegment::open(&bytes).unwrap_err(), Error::InvalidMagic);
/// # Ok::<(), pstp::Error>(())
/// ```
#[derive(Clone, Copy, Debug)]
pub struct CheckedSegment<'a> {
    segment: RawPositionalSegment<'a>,
    handle: Handle,
}

impl<'a> CheckedSegment<'a> {
    /// Open a segment and decode every list, in one call: [`RawPositionalSegment::open`] and [`RawPositionalSegment::check`].
    pub fn open(bytes: &'a [u8]) -> Result<Self, Error> {
        let handle = handle::check(bytes).accepted()?;
        let segment = RawPositionalSegment::of_handle(bytes, &handle);
        Ok(Self { segment, handle })
    }
}

/// A segment that was opened once: a question does not open it again, but decodes the lists that it needs.
///
/// [`RawPositionalSegment::open_once`] makes it, at the cost of one opening. It is the one to take where some list of the segment does not
/// decode, so that [`RawPositionalSegment::check`] refuses it, or where few questions are asked. Each method returns what the method of
/// that name returns of the plain segment. It borrows the bytes as [`CheckedSegment`] does.
#[derive(Clone, Copy, Debug)]
pub struct OpenedSegment<'a> {
    segment: RawPositionalSegment<'a>,
    handle: Handle,
}

impl<'a> OpenedSegment<'a> {
    /// Open a segment, in one call: [`RawPositionalSegment::open`] and [`RawPositionalSegment::open_once`].
    pub fn open(bytes: &'a [u8]) -> Result<Self, Error> {
        let handle = handle::open_once(bytes).accepted()?;
        let segment = RawPositionalSegment::of_handle(bytes, &handle);
        Ok(Self { segment, handle })
    }
}

/// The questions, the same for both.
macro_rules! questions {
    ($segment:ident) => {
        impl<'a> $segment<'a> {
            /// Return the plain segment over the same bytes, for what needs no handle.
            pub fn segment(&self) -> RawPositionalSegment<'a> {
                self.segment
            }

            /// Return the number of documents.
            pub fn doc_count(&self) -> u32 {
                self.segment.doc_count()
            }

            /// Return the number of terms.
            pub fn term_count(&self) -> u32 {
                self.segment.term_count()
            }

            /// [`RawPositionalSegment::document_len`].
            pub fn document_len(&self, doc_id: DocId) -> Result<Option<u32>, Error> {
                let (known, len) =
                    handle::document_len(self.segment.bytes(), self.handle, doc_id).answer()?;
                Ok((known == 1).then_some(len as u32))
            }

            /// [`RawPositionalSegment::df`].
            pub fn df(&self, term: &str) -> Result<u32, Error> {
                let (df, _) = handle::df(self.segment.bytes(), self.handle, term).answer()?;
                Ok(df as u32)
            }

            /// [`RawPositionalSegment::docs_with_term`].
            pub fn docs_with_term(&self, term: &str) -> Result<Vec<DocId>, Error> {
                self.segment.documents(|ids| {
                    handle::docs_with_term(self.segment.bytes(), self.handle, term, ids)
                })
            }

            /// [`RawPositionalSegment::term_postings`].
            pub fn term_postings(&self, term: &str) -> Result<Vec<RawPositionalPosting>, Error> {
                let bytes = self.segment.bytes();
                let mut ids = self.segment.room_for_documents();
                let mut counts = self.segment.room_for_documents();
                let (postings, positions) = with_positions(bytes.len(), |positions| {
                    handle::term_postings(
                        bytes,
                        self.handle,
                        term,
                        &mut ids,
                        &mut counts,
                        positions,
                    )
                })?;
                Ok(split_postings(&ids[..postings], &counts, &positions))
            }

            /// [`RawPositionalSegment::positions`].
            pub fn positions(&self, term: &str, doc_id: DocId) -> Result<Vec<TokenPos>, Error> {
                let bytes = self.segment.bytes();
                let (count, positions) = with_positions(bytes.len(), |positions| {
                    handle::positions(bytes, self.handle, term, doc_id, positions)
                })?;
                Ok(front(positions, count as u64))
            }

            /// [`RawPositionalSegment::phrase_match_strs`].
            pub fn phrase_match_strs(&self, phrase: &[&str]) -> Result<Vec<DocId>, Error> {
                let names = Names::of(phrase)?;
                self.segment.documents(|ids| {
                    handle::phrase_match_strs(self.segment.bytes(), self.handle, &names, ids)
                })
            }

            /// [`RawPositionalSegment::near_match`].
            pub fn near_match(&self, a: &str, b: &str, window: u32) -> Result<Vec<DocId>, Error> {
                self.segment.documents(|ids| {
                    handle::near_match(self.segment.bytes(), self.handle, a, b, window, ids)
                })
            }

            /// [`RawPositionalSegment::near_match_terms_strs`].
            pub fn near_match_terms_strs(
                &self,
                terms: &[&str],
                window: u32,
                ordered: bool,
            ) -> Result<Vec<DocId>, Error> {
                let names = Names::of(terms)?;
                let bytes = self.segment.bytes();
                self.segment.documents(|ids| {
                    handle::near_match_terms_strs(bytes, self.handle, &names, window, ordered, ids)
                })
            }
        }
    };
}

questions!(CheckedSegment);
questions!(OpenedSegment);
