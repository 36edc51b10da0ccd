//! The calls on a pad.

use super::Reply;
use crate::flat::Names;

extern "C" {
    fn pstp_pad_save(
        pad: *mut u32,
        pad_len: usize,
        id: u32,
        length: u32,
        sounds: *const u8,
        sounds_len: usize,
        steps: *const u32,
        steps_len: usize,
        velocities: *const u8,
        velocities_len: usize,
    ) -> Reply;
    fn pstp_pad_erase(pad: *mut u32, pad_len: usize, id: u32) -> Reply;
    fn pstp_pad_read(
        pad: *const u32,
        pad_len: usize,
        id: u32,
        sounds: *mut u8,
        sounds_len: usize,
        steps: *mut u32,
        steps_len: usize,
        velocities: *mut u8,
        velocities_len: usize,
    ) -> Reply;
    fn pstp_pad_write(
        pad: *const u32,
        pad_len: usize,
        text: *const u8,
        text_len: usize,
        ends: *const u32,
        ends_len: usize,
        out: *mut u8,
        out_len: usize,
    ) -> Reply;
    fn pstp_pad_hits(pad: *const u32, pad_len: usize) -> Reply;
}

pub(crate) fn pad_save(
    pad: &mut [u32],
    id: u32,
    length: u32,
    sounds: &[u8],
    steps: &[u32],
    velocities: &[u8],
) -> Reply {
    // SAFETY: three slices that are only read, and one lent, apart from them by `&mut`.
    unsafe {
        pstp_pad_save(
            pad.as_mut_ptr(),
            pad.len(),
            id,
            length,
            sounds.as_ptr(),
            sounds.len(),
            steps.as_ptr(),
            steps.len(),
            velocities.as_ptr(),
            velocities.len(),
        )
    }
}

pub(crate) fn pad_erase(pad: &mut [u32], id: u32) -> Reply {
    // SAFETY: one slice, which is lent.
    unsafe { pstp_pad_erase(pad.as_mut_ptr(), pad.len(), id) }
}

pub(crate) fn pad_read(
    pad: &[u32],
    id: u32,
    sounds: &mut [u8],
    steps: &mut [u32],
    velocities: &mut [u8],
) -> Reply {
    // SAFETY: a slice that is only read, and three lent, apart from it and from each other by `&mut`.
    unsafe {
        pstp_pad_read(
            pad.as_ptr(),
            pad.len(),
            id,
            sounds.as_mut_ptr(),
            sounds.len(),
            steps.as_mut_ptr(),
            steps.len(),
            velocities.as_mut_ptr(),
            velocities.len(),
        )
    }
}

pub(crate) fn pad_write(pad: &[u32], names: &Names, out: &mut [u8]) -> Reply {
    // SAFETY: three slices that are only read, and one lent, apart from them by `&mut`.
    unsafe {
        pstp_pad_write(
            pad.as_ptr(),
            pad.len(),
            names.text.as_ptr(),
            names.text.len(),
            names.ends.as_ptr(),
            names.ends.len(),
            out.as_mut_ptr(),
            out.len(),
        )
    }
}

/// The total as it is stored: this call refuses nothing.
pub(crate) fn pad_hits(pad: &[u32]) -> u64 {
    // SAFETY: one slice, which is only read.
    unsafe { pstp_pad_hits(pad.as_ptr(), pad.len()) }.first
}
