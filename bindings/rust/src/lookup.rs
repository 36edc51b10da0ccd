//! A length in lists of the caller's own.

use crate::sys;
use crate::types::DocId;
use crate::Error;

/// Return the length beside an id, looked up in two lists: `lengths[i]` is that of `ids[i]`. `None` exactly if the list lacks the id.
///
/// The lists may be anyone's; those of a segment come from [`document_lengths`](crate::RawPositionalSegment::document_lengths). The ids
/// are tested to the last, whatever id is asked for: one pass over them, then a binary search.
///
/// The first that holds is the error: [`Error::TooLarge`] for a list of over 16,777,216 elements; [`Error::ListShape`] for lists that
/// differ in length; [`Error::IdsNotRising`] for an id that is not above the one before it.
///
/// ```
/// use pstp::{length_of, Error};
///
/// assert_eq!(length_of(&[3, 7], &[16, 12], 7)?, Some(12));
/// assert_eq!(length_of(&[3, 7], &[16, 12], 5)?, None);
/// // The second 7 is wrong, though 3 comes before it.
/// assert_eq!(length_of(&[3, 7, 7, 9], &[1, 2, 3, 4], 3), Err(Error::IdsNotRising(2)));
/// # Ok::<(), pstp::Error>(())
/// ```
pub fn length_of(ids: &[DocId], lengths: &[u32], doc_id: DocId) -> Result<Option<u32>, Error> {
    let (known, len) = sys::length_of(ids, lengths, doc_id).answer()?;
    Ok((known == 1).then_some(len as u32))
}
