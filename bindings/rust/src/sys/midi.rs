//! The call that reads a MIDI file.

use super::Reply;
use crate::flat::Lists;

extern "C" {
    fn pstp_midi_bars(
        file: *const u8,
        file_len: usize,
        ids: *mut u32,
        ids_len: usize,
        lengths: *mut u32,
        lengths_len: usize,
        text: *mut u8,
        text_len: usize,
        ends: *mut u32,
        ends_len: usize,
        posting_counts: *mut u32,
        posting_counts_len: usize,
        posting_ids: *mut u32,
        posting_ids_len: usize,
        position_counts: *mut u32,
        position_counts_len: usize,
        positions: *mut u32,
        positions_len: usize,
        velocities: *mut u8,
        velocities_len: usize,
    ) -> Reply;
}

pub(crate) fn midi_bars(file: &[u8], lists: &mut Lists, velocities: &mut [u8]) -> Reply {
    // SAFETY: a slice that is only read, and nine lent ones, apart from it by `&mut`; the eight are apart from each other as vectors of
    // their own, the ninth by its own `&mut`.
    unsafe {
        pstp_midi_bars(
            file.as_ptr(),
            file.len(),
            lists.ids.as_mut_ptr(),
            lists.ids.len(),
            lists.lengths.as_mut_ptr(),
            lists.lengths.len(),
            lists.names.text.as_mut_ptr(),
            lists.names.text.len(),
            lists.names.ends.as_mut_ptr(),
            lists.names.ends.len(),
            lists.posting_counts.as_mut_ptr(),
            lists.posting_counts.len(),
            lists.posting_ids.as_mut_ptr(),
            lists.posting_ids.len(),
            lists.position_counts.as_mut_ptr(),
            lists.position_counts.len(),
            lists.positions.as_mut_ptr(),
            lists.positions.len(),
            velocities.as_mut_ptr(),
            velocities.len(),
        )
    }
}
