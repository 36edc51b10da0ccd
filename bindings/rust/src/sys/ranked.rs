//! The phrase search, the best documents first.

use super::Reply;
use crate::flat::Names;

extern "C" {
    fn pstp_phrase_match_ranked(
        segment: *const u8,
        segment_len: usize,
        text: *const u8,
        text_len: usize,
        ends: *const u32,
        ends_len: usize,
        ids: *mut u32,
        ids_len: usize,
        counts: *mut u32,
        counts_len: usize,
    ) -> Reply;
}

pub(crate) fn phrase_match_ranked(
    segment: &[u8],
    names: &Names,
    ids: &mut [u32],
    counts: &mut [u32],
) -> Reply {
    // SAFETY: three slices that are only read, and two lent, apart from them and from each other by `&mut`.
    unsafe {
        pstp_phrase_match_ranked(
            segment.as_ptr(),
            segment.len(),
            names.text.as_ptr(),
            names.text.len(),
            names.ends.as_ptr(),
            names.ends.len(),
            ids.as_mut_ptr(),
            ids.len(),
            counts.as_mut_ptr(),
            counts.len(),
        )
    }
}
