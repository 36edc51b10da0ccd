//! The call that puts a bar on paper.

use super::Reply;

extern "C" {
    fn pstp_bar_sheet(
        segment: *const u8,
        segment_len: usize,
        id: u32,
        out: *mut u8,
        out_len: usize,
    ) -> Reply;
}

pub(crate) fn bar_sheet(segment: &[u8], id: u32, out: &mut [u8]) -> Reply {
    // SAFETY: a slice that is only read, and one lent, apart from it by `&mut`.
    unsafe {
        pstp_bar_sheet(
            segment.as_ptr(),
            segment.len(),
            id,
            out.as_mut_ptr(),
            out.len(),
        )
    }
}
