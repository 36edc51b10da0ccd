//! The buffers that are lent. They come zeroed from the system, and are touched only as far as they are filled.

use crate::sys::Reply;
use crate::types::RawPositionalPosting;
use crate::Error;

/// Places for positions at the first try.
const FIRST_ROOM: usize = 1 << 20;

/// An answer with positions, at most so many: its first number, and the buffer. A list too long for the first room is refused with the
/// length that it needs, and a second call has that room.
pub(crate) fn with_positions(
    most: usize,
    mut ask: impl FnMut(&mut [u32]) -> Reply,
) -> Result<(usize, Vec<u32>), Error> {
    let mut positions = vec![0; most.min(FIRST_ROOM)];
    let mut answer = ask(&mut positions).answer();
    if let Err(Error::NoRoom { needed, .. }) = answer {
        positions = vec![0; needed];
        answer = ask(&mut positions).answer();
    }
    answer.map(|(first, _)| (first as usize, positions))
}

/// A term's postings, each with its own positions: `counts` has how many of them each id has.
pub(crate) fn split_postings(
    ids: &[u32],
    counts: &[u32],
    positions: &[u32],
) -> Vec<RawPositionalPosting> {
    let mut rest = positions;
    let mut out = Vec::with_capacity(ids.len());
    for (&doc_id, &count) in ids.iter().zip(counts) {
        let (positions, next) = rest.split_at(count as usize);
        rest = next;
        out.push(RawPositionalPosting {
            doc_id,
            positions: positions.to_vec(),
        });
    }
    out
}

/// The first n elements.
pub(crate) fn front<T>(mut buffer: Vec<T>, n: u64) -> Vec<T> {
    buffer.truncate(n as usize);
    buffer.shrink_to_fit();
    buffer
}
