//! Writing a segment.

use crate::flat::Lists;
use crate::room::front;
use crate::sys;
use crate::types::{DocId, PositionalTermPostings};
use crate::Error;

/// Encode sorted positional document metadata and term posting lists.
///
/// Document lengths must be sorted by document id. Terms must be sorted lexicographically, and each posting list must be sorted by
/// document id with strictly increasing token positions.
pub fn write_positional_segment(
    document_lengths: &[(DocId, u32)],
    terms: &[PositionalTermPostings<'_>],
) -> Result<Vec<u8>, Error> {
    let lists = Lists::of(document_lengths, terms)?;
    let mut bytes = vec![0; lists.most_bytes()];
    let (len, _) = sys::write_positional_segment(&lists, &mut bytes).answer()?;
    Ok(front(bytes, len))
}
