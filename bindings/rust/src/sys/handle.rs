//! The calls that make a handle and those that take one.

use super::Reply;
use crate::flat::Names;
use crate::Error;

/// What is known of a segment: numbers alone, by value.
#[repr(C)]
#[derive(Clone, Copy, Debug)]
pub(crate) struct Handle {
    kind: u32,
    which: u32,
    index: u64,
    level: u32,
    documents: u32,
    terms: u32,
    spare: u32,
    names: usize,
    metadata: usize,
    lists: usize,
}

impl Handle {
    /// The handle of a segment that was accepted, or the refusal.
    pub(crate) fn accepted(self) -> Result<Self, Error> {
        Reply::of_refusal(self.kind, self.which, self.index).numbers()?;
        Ok(self)
    }

    pub(crate) fn documents(&self) -> u32 {
        self.documents
    }

    pub(crate) fn terms(&self) -> u32 {
        self.terms
    }
}

extern "C" {
    fn pstp_open_once(segment: *const u8, segment_len: usize) -> Handle;
    fn pstp_check(segment: *const u8, segment_len: usize) -> Handle;
    fn pstp_document_len_checked(
        segment: *const u8,
        segment_len: usize,
        handle: Handle,
        id: u32,
    ) -> Reply;
    fn pstp_df_checked(
        segment: *const u8,
        segment_len: usize,
        handle: Handle,
        name: *const u8,
        name_len: usize,
    ) -> Reply;
    fn pstp_docs_with_term_checked(
        segment: *const u8,
        segment_len: usize,
        handle: Handle,
        name: *const u8,
        name_len: usize,
        ids: *mut u32,
        ids_len: usize,
    ) -> Reply;
    fn pstp_term_postings_checked(
        segment: *const u8,
        segment_len: usize,
        handle: Handle,
        name: *const u8,
        name_len: usize,
        ids: *mut u32,
        ids_len: usize,
        counts: *mut u32,
        counts_len: usize,
        positions: *mut u32,
        positions_len: usize,
    ) -> Reply;
    fn pstp_positions_checked(
        segment: *const u8,
        segment_len: usize,
        handle: Handle,
        name: *const u8,
        name_len: usize,
        id: u32,
        positions: *mut u32,
        positions_len: usize,
    ) -> Reply;
    fn pstp_phrase_match_strs_checked(
        segment: *const u8,
        segment_len: usize,
        handle: Handle,
        text: *const u8,
        text_len: usize,
        ends: *const u32,
        ends_len: usize,
        ids: *mut u32,
        ids_len: usize,
    ) -> Reply;
    fn pstp_near_match_checked(
        segment: *const u8,
        segment_len: usize,
        handle: Handle,
        a: *const u8,
        a_len: usize,
        b: *const u8,
        b_len: usize,
        window: u32,
        ids: *mut u32,
        ids_len: usize,
    ) -> Reply;
    fn pstp_near_match_terms_strs_checked(
        segment: *const u8,
        segment_len: usize,
        handle: Handle,
        text: *const u8,
        text_len: usize,
        ends: *const u32,
        ends_len: usize,
        window: u32,
        ordered: bool,
        ids: *mut u32,
        ids_len: usize,
    ) -> Reply;
}

pub(crate) fn open_once(segment: &[u8]) -> Handle {
    // SAFETY: one slice, which is only read.
    unsafe { pstp_open_once(segment.as_ptr(), segment.len()) }
}

pub(crate) fn check(segment: &[u8]) -> Handle {
    // SAFETY: one slice, which is only read.
    unsafe { pstp_check(segment.as_ptr(), segment.len()) }
}

// The calls with a handle: any handle is allowed with any segment, so it asks nothing of the caller.

pub(crate) fn document_len(segment: &[u8], handle: Handle, id: u32) -> Reply {
    // SAFETY: one slice, which is only read.
    unsafe { pstp_document_len_checked(segment.as_ptr(), segment.len(), handle, id) }
}

pub(crate) fn df(segment: &[u8], handle: Handle, name: &str) -> Reply {
    // SAFETY: two slices, which are only read.
    unsafe {
        pstp_df_checked(
            segment.as_ptr(),
            segment.len(),
            handle,
            name.as_ptr(),
            name.len(),
        )
    }
}

pub(crate) fn docs_with_term(segment: &[u8], handle: Handle, name: &str, ids: &mut [u32]) -> Reply {
    // SAFETY: two slices that are only read, and one lent, apart from them by `&mut`.
    unsafe {
        pstp_docs_with_term_checked(
            segment.as_ptr(),
            segment.len(),
            handle,
            name.as_ptr(),
            name.len(),
            ids.as_mut_ptr(),
            ids.len(),
        )
    }
}

pub(crate) fn term_postings(
    segment: &[u8],
    handle: Handle,
    name: &str,
    ids: &mut [u32],
    counts: &mut [u32],
    positions: &mut [u32],
) -> Reply {
    // SAFETY: two slices that are only read, and three lent ones, apart by `&mut`.
    unsafe {
        pstp_term_postings_checked(
            segment.as_ptr(),
            segment.len(),
            handle,
            name.as_ptr(),
            name.len(),
            ids.as_mut_ptr(),
            ids.len(),
            counts.as_mut_ptr(),
            counts.len(),
            positions.as_mut_ptr(),
            positions.len(),
        )
    }
}

pub(crate) fn positions(
    segment: &[u8],
    handle: Handle,
    name: &str,
    id: u32,
    positions: &mut [u32],
) -> Reply {
    // SAFETY: two slices that are only read, and one lent, apart from them by `&mut`.
    unsafe {
        pstp_positions_checked(
            segment.as_ptr(),
            segment.len(),
            handle,
            name.as_ptr(),
            name.len(),
            id,
            positions.as_mut_ptr(),
            positions.len(),
        )
    }
}

pub(crate) fn phrase_match_strs(
    segment: &[u8],
    handle: Handle,
    names: &Names,
    ids: &mut [u32],
) -> Reply {
    // SAFETY: three slices that are only read, and one lent, apart from them by `&mut`.
    unsafe {
        pstp_phrase_match_strs_checked(
            segment.as_ptr(),
            segment.len(),
            handle,
            names.text.as_ptr(),
            names.text.len(),
            names.ends.as_ptr(),
            names.ends.len(),
            ids.as_mut_ptr(),
            ids.len(),
        )
    }
}

pub(crate) fn near_match(
    segment: &[u8],
    handle: Handle,
    a: &str,
    b: &str,
    window: u32,
    ids: &mut [u32],
) -> Reply {
    // SAFETY: three slices that are only read, and one lent, apart from them by `&mut`.
    unsafe {
        pstp_near_match_checked(
            segment.as_ptr(),
            segment.len(),
            handle,
            a.as_ptr(),
            a.len(),
            b.as_ptr(),
            b.len(),
            window,
            ids.as_mut_ptr(),
            ids.len(),
        )
    }
}

pub(crate) fn near_match_terms_strs(
    segment: &[u8],
    handle: Handle,
    names: &Names,
    window: u32,
    ordered: bool,
    ids: &mut [u32],
) -> Reply {
    // SAFETY: three slices that are only read, and one lent, apart from them by `&mut`; C's bool is Rust's.
    unsafe {
        pstp_near_match_terms_strs_checked(
            segment.as_ptr(),
            segment.len(),
            handle,
            names.text.as_ptr(),
            names.text.len(),
            names.ends.as_ptr(),
            names.ends.len(),
            window,
            ordered,
            ids.as_mut_ptr(),
            ids.len(),
        )
    }
}
