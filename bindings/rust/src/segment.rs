//! A segment and the questions to it.

use crate::checked::{CheckedSegment, OpenedSegment};
use crate::flat::Names;
use crate::room::{front, split_postings, with_positions};
use crate::sys::handle::Handle;
use crate::sys::{self, Reply};
use crate::types::{DocId, RawPositionalPosting, TokenPos};
use crate::Error;

/// A byte-backed immutable positional segment.
///
/// It holds the bytes and their two counts, nothing decoded: each method opens and checks the bytes again. For many questions to one segment
/// see [`check`](Self::check) and [`open_once`](Self::open_once).
#[derive(Clone, Copy, Debug)]
pub struct RawPositionalSegment<'a> {
    bytes: &'a [u8],
    doc_count: u32,
    term_count: u32,
}

impl<'a> RawPositionalSegment<'a> {
    /// Open a raw positional segment from bytes.
    ///
    /// Fixed sections and checksums are validated. Posting payloads are decoded when a term is requested.
    pub fn open(bytes: &'a [u8]) -> Result<Self, Error> {
        let (documents, terms) = sys::open(bytes).answer()?;
        Ok(Self {
            bytes,
            doc_count: documents as u32,
            term_count: terms as u32,
        })
    }

    /// Decode every list once, so that questions to the [`CheckedSegment`] check nothing again.
    ///
    /// The error is that of the first list, in the order of the terms, that does not decode; the other terms can still be asked for here
    /// and in [`open_once`](Self::open_once).
    pub fn check(&self) -> Result<CheckedSegment<'a>, Error> {
        CheckedSegment::open(self.bytes)
    }

    /// Open the bytes for many questions: those to the [`OpenedSegment`] decode the lists that they need, but do not open the bytes again.
    pub fn open_once(&self) -> Result<OpenedSegment<'a>, Error> {
        OpenedSegment::open(self.bytes)
    }

    /// Return the number of documents.
    pub fn doc_count(&self) -> u32 {
        self.doc_count
    }

    /// Return the number of terms.
    pub fn term_count(&self) -> u32 {
        self.term_count
    }

    /// Return `(doc_id, token_count)` pairs sorted by document id.
    pub fn document_lengths(&self) -> Result<Vec<(DocId, u32)>, Error> {
        let mut ids = self.room_for_documents();
        let mut lengths = self.room_for_documents();
        sys::document_lengths(self.bytes, &mut ids, &mut lengths).answer()?;
        Ok(ids.into_iter().zip(lengths).collect())
    }

    /// Return one document's token count, if present.
    pub fn document_len(&self, doc_id: DocId) -> Result<Option<u32>, Error> {
        let (known, len) = sys::document_len(self.bytes, doc_id).answer()?;
        Ok((known == 1).then_some(len as u32))
    }

    /// Return the number of documents containing a term, as the directory has it; 0 for an unknown term.
    pub fn df(&self, term: &str) -> Result<u32, Error> {
        let (df, _) = sys::df(self.bytes, term).answer()?;
        Ok(df as u32)
    }

    /// Return sorted document ids containing a term; none for an unknown term.
    pub fn docs_with_term(&self, term: &str) -> Result<Vec<DocId>, Error> {
        self.documents(|ids| sys::docs_with_term(self.bytes, term, ids))
    }

    /// Return decoded postings for one term; none for an unknown term.
    pub fn term_postings(&self, term: &str) -> Result<Vec<RawPositionalPosting>, Error> {
        let mut ids = self.room_for_documents();
        let mut counts = self.room_for_documents();
        // A position takes a byte or more.
        let (postings, positions) = with_positions(self.bytes.len(), |positions| {
            sys::term_postings(self.bytes, term, &mut ids, &mut counts, positions)
        })?;
        Ok(split_postings(&ids[..postings], &counts, &positions))
    }

    /// Return positions for one term in one document; none where either is unknown. The term's whole list is decoded.
    pub fn positions(&self, term: &str, doc_id: DocId) -> Result<Vec<TokenPos>, Error> {
        let (count, positions) = with_positions(self.bytes.len(), |positions| {
            sys::positions(self.bytes, term, doc_id, positions)
        })?;
        Ok(front(positions, count as u64))
    }

    /// Exact phrase match over borrowed term strings: term i is on start + i, for some start.
    ///
    /// A term that is named twice must occur twice. A phrase of no terms matches nothing.
    pub fn phrase_match_strs(&self, phrase: &[&str]) -> Result<Vec<DocId>, Error> {
        let names = Names::of(phrase)?;
        self.documents(|ids| sys::phrase_match_strs(self.bytes, &names, ids))
    }

    /// Phrase match, the best documents first: the documents of [`phrase_match_strs`](Self::phrase_match_strs), each once, with the number
    /// of different starts at which the phrase fits in it.
    ///
    /// By decreasing count; of equal counts, by increasing id.
    ///
    /// ```
    /// # use pstp::{write_positional_segment, PositionalPosting, PositionalTermPostings, RawPositionalSegment};
    /// # let hit = |doc_id, positions| PositionalPosting { doc_id, positions };
    /// # let hat = vec![hit(1, &[0, 2]), hit(2, &[0, 1]), hit(4, &[0, 1, 2, 3]), hit(9, &[2, 3])];
    /// # let lengths = [(1, 8), (2, 8), (4, 8), (9, 8)];
    /// # let bytes = write_positional_segment(&lengths, &[PositionalTermPostings { term: "hat", postings: hat }])?;
    /// let segment = RawPositionalSegment::open(&bytes)?;
    /// // Bar 4 has hats on 0, 1, 2, 3: two in a row fit at three starts.
    /// assert_eq!(segment.phrase_match_ranked(&["hat", "hat"])?, [(4, 3), (2, 1), (9, 1)]);
    /// # Ok::<(), pstp::Error>(())
    /// ```
    pub fn phrase_match_ranked(&self, phrase: &[&str]) -> Result<Vec<(DocId, u32)>, Error> {
        let names = Names::of(phrase)?;
        let mut ids = self.room_for_documents();
        let mut counts = self.room_for_documents();
        let answer =
            sys::phrase_match_ranked(self.bytes, &names, &mut ids, &mut counts).answer()?;
        Ok(front(ids, answer.0).into_iter().zip(counts).collect())
    }

    /// Proximity match: returns docs where `a` and `b` occur within `window` tokens, in any order.
    ///
    /// If `a` equals `b`, it must occur twice. A window of 0 matches nothing.
    pub fn near_match(&self, a: &str, b: &str, window: u32) -> Result<Vec<DocId>, Error> {
        self.documents(|ids| sys::near_match(self.bytes, a, b, window, ids))
    }

    /// Multi-term proximity over borrowed term strings.
    ///
    /// - `ordered=false`: unordered window (`max(pos)-min(pos) <= window`) covering all term occurrences.
    /// - `ordered=true`: terms must appear in the given order within `window`.
    pub fn near_match_terms_strs(
        &self,
        terms: &[&str],
        window: u32,
        ordered: bool,
    ) -> Result<Vec<DocId>, Error> {
        let names = Names::of(terms)?;
        self.documents(|ids| sys::near_match_terms_strs(self.bytes, &names, window, ordered, ids))
    }

    /// Return one bar as a sheet of text, in lines of 80 characters: first the bar's id and length, then one line for each sound that has
    /// a hit in it, by name.
    ///
    /// A name is cut or padded to 12 characters. Then come 64 steps, `o` for a hit, `.` for another step of the bar and a blank past its
    /// length, and the number of hits. Every term's list is decoded, whether or not the bar has the sound. A bar that is not there is
    /// [`Error::UnknownBar`], one of more than 64 steps [`Error::BarTooLong`].
    ///
    /// ```
    /// # use pstp::{write_positional_segment, PositionalPosting, PositionalTermPostings, RawPositionalSegment};
    /// # let kick = vec![PositionalPosting { doc_id: 3, positions: &[0, 4, 15] }];
    /// # let bytes = write_positional_segment(&[(3, 16)], &[PositionalTermPostings { term: "kick", postings: kick }])?;
    /// let segment = RawPositionalSegment::open(&bytes)?;
    /// let sheet = segment.bar_sheet(3)?;
    /// let lines: Vec<_> = sheet.lines().map(str::trim_end).collect();
    /// assert_eq!(lines[0], "         3        16");
    /// assert_eq!(lines[1], "kick        o...o..........o                                                   3");
    /// # Ok::<(), pstp::Error>(())
    /// ```
    pub fn bar_sheet(&self, doc_id: DocId) -> Result<String, Error> {
        // No sheet is longer, so one call suffices: 81 bytes of heading, and for each term a line of 12 characters of at most four bytes
        // and 69 bytes more. A term has 32 bytes of the segment or more, so this is about four times the segment at most.
        let mut sheet = vec![0; 81 + 117 * self.term_count as usize];
        let (len, _) = sys::bar_sheet(self.bytes, doc_id, &mut sheet).answer()?;
        let sheet = String::from_utf8(front(sheet, len));
        Ok(sheet.expect("names are UTF-8, and are cut between characters"))
    }

    pub(crate) fn of_handle(bytes: &'a [u8], handle: &Handle) -> Self {
        Self {
            bytes,
            doc_count: handle.documents(),
            term_count: handle.terms(),
        }
    }

    pub(crate) fn bytes(&self) -> &'a [u8] {
        self.bytes
    }

    /// A place for each document. An open segment has two bytes or more for each, so this is at most twice the segment.
    pub(crate) fn room_for_documents(&self) -> Vec<u32> {
        vec![0; self.doc_count as usize]
    }

    /// An answer of documents: never more than the segment has, so one call suffices. Asking for the length first would read the whole
    /// segment and decode every list twice.
    pub(crate) fn documents(
        &self,
        ask: impl FnOnce(&mut [u32]) -> Reply,
    ) -> Result<Vec<DocId>, Error> {
        let mut ids = self.room_for_documents();
        let (count, _) = ask(&mut ids).answer()?;
        Ok(front(ids, count))
    }
}
