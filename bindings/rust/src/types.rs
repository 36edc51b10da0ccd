//! The types of the original.

/// A document's id.
pub type DocId = u32;

/// A token's position in its document.
pub type TokenPos = u32;

/// One decoded raw positional posting.
#[derive(Clone, Debug, PartialEq, Eq)]
pub struct RawPositionalPosting {
    /// Document id containing the term.
    pub doc_id: DocId,
    /// Sorted token positions for this term in the document.
    pub positions: Vec<TokenPos>,
}

/// One document's positions for a positional term posting list.
#[derive(Clone, Copy, Debug, PartialEq, Eq)]
pub struct PositionalPosting<'a> {
    /// Document id containing the term.
    pub doc_id: DocId,
    /// Sorted token positions where the term occurs in the document.
    pub positions: &'a [TokenPos],
}

/// A sorted positional posting list for one term.
#[derive(Clone, Debug, PartialEq, Eq)]
pub struct PositionalTermPostings<'a> {
    /// Term text for this posting list.
    pub term: &'a str,
    /// Posting entries sorted by document id.
    pub postings: Vec<PositionalPosting<'a>>,
}
