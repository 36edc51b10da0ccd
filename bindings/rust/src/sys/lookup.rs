//! The call that looks a length up in lists of the caller's own.

use super::Reply;

extern "C" {
    fn pstp_length_of(
        ids: *const u32,
        ids_len: usize,
        lengths: *const u32,
        lengths_len: usize,
        id: u32,
    ) -> Reply;
}

pub(crate) fn length_of(ids: &[u32], lengths: &[u32], id: u32) -> Reply {
    // SAFETY: two slices, which are only read.
    unsafe { pstp_length_of(ids.as_ptr(), ids.len(), lengths.as_ptr(), lengths.len(), id) }
}
