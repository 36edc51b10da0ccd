//! The library's calls (include/pstp.h) over slices. All unsafe code of the crate is here.
//!
//! What the library asks of each call holds of Rust's slices by themselves: a slice's pointer is not null, aligned, and valid for its
//! length, empty ones too; a `&mut` slice overlaps nothing else that is passed; no other thread writes behind a `&` or touches what is
//! behind a `&mut` while the call runs. The library keeps no pointer, and no contents are forbidden.

pub(crate) mod handle;
mod lookup;
mod midi;
mod pad;
mod ranked;
mod sheet;

use crate::flat::{Lists, Names};
use crate::Error;

pub(crate) use lookup::length_of;
pub(crate) use midi::midi_bars;
pub(crate) use pad::{pad_erase, pad_hits, pad_read, pad_save, pad_write};
pub(crate) use ranked::phrase_match_ranked;
pub(crate) use sheet::bar_sheet;

/// Every call's reply.
#[repr(C)]
pub(crate) struct Reply {
    kind: u32,
    which: u32,
    index: u64,
    first: u64,
    second: u64,
    third: u64,
    fourth: u64,
}

// The library is built for 64-bit machines alone.
const _: () = assert!(usize::BITS == 64);

impl Reply {
    /// Three numbers of a handle as a reply: the refusal, or an acceptance.
    pub(crate) fn of_refusal(kind: u32, which: u32, index: u64) -> Self {
        Self {
            kind,
            which,
            index,
            first: 0,
            second: 0,
            third: 0,
            fourth: 0,
        }
    }

    /// The answer's first two numbers, or the refusal. Only `midi_bars` has more.
    pub(crate) fn answer(self) -> Result<(u64, u64), Error> {
        self.numbers().map(|[first, second, ..]| (first, second))
    }

    /// The answer's four numbers, or the refusal.
    pub(crate) fn numbers(self) -> Result<[u64; 4], Error> {
        if self.kind == 0 {
            return Ok([self.first, self.second, self.third, self.fourth]);
        }
        let refusal = Error::of_numbers(self.kind, self.which, self.index);
        Err(refusal.unwrap_or_else(|| {
            // A fault of the build: header, library and crate come from one repository.
            panic!(
                "libpstp.a gave a refusal that this crate does not know: {} {} {}",
                self.kind, self.which, self.index
            )
        }))
    }
}

extern "C" {
    fn pstp_open(segment: *const u8, segment_len: usize) -> Reply;
    fn pstp_document_lengths(
        segment: *const u8,
        segment_len: usize,
        ids: *mut u32,
        ids_len: usize,
        lengths: *mut u32,
        lengths_len: usize,
    ) -> Reply;
    fn pstp_document_len(segment: *const u8, segment_len: usize, id: u32) -> Reply;
    fn pstp_df(segment: *const u8, segment_len: usize, name: *const u8, name_len: usize) -> Reply;
    fn pstp_docs_with_term(
        segment: *const u8,
        segment_len: usize,
        name: *const u8,
        name_len: usize,
        ids: *mut u32,
        ids_len: usize,
    ) -> Reply;
    fn pstp_term_postings(
        segment: *const u8,
        segment_len: usize,
        name: *const u8,
        name_len: usize,
        ids: *mut u32,
        ids_len: usize,
        counts: *mut u32,
        counts_len: usize,
        positions: *mut u32,
        positions_len: usize,
    ) -> Reply;
    fn pstp_positions(
        segment: *const u8,
        segment_len: usize,
        name: *const u8,
        name_len: usize,
        id: u32,
        positions: *mut u32,
        positions_len: usize,
    ) -> Reply;
    fn pstp_phrase_match_strs(
        segment: *const u8,
        segment_len: usize,
        text: *const u8,
        text_len: usize,
        ends: *const u32,
        ends_len: usize,
        ids: *mut u32,
        ids_len: usize,
    ) -> Reply;
    fn pstp_near_match(
        segment: *const u8,
        segment_len: usize,
        a: *const u8,
        a_len: usize,
        b: *const u8,
        b_len: usize,
        window: u32,
        ids: *mut u32,
        ids_len: usize,
    ) -> Reply;
    fn pstp_near_match_terms_strs(
        segment: *const u8,
        segment_len: usize,
        text: *const u8,
        text_len: usize,
        ends: *const u32,
        ends_len: usize,
        window: u32,
        ordered: bool,
        ids: *mut u32,
        ids_len: usize,
    ) -> Reply;
    fn pstp_write_positional_segment(
        ids: *const u32,
        ids_len: usize,
        lengths: *const u32,
        lengths_len: usize,
        text: *const u8,
        text_len: usize,
        ends: *const u32,
        ends_len: usize,
        posting_counts: *const u32,
        posting_counts_len: usize,
        posting_ids: *const u32,
        posting_ids_len: usize,
        position_counts: *const u32,
        position_counts_len: usize,
        positions: *const u32,
        positions_len: usize,
        out: *mut u8,
        out_len: usize,
    ) -> Reply;
}

pub(crate) fn open(segment: &[u8]) -> Reply {
    // SAFETY: one slice, which is only read.
    unsafe { pstp_open(segment.as_ptr(), segment.len()) }
}

pub(crate) fn document_lengths(segment: &[u8], ids: &mut [u32], lengths: &mut [u32]) -> Reply {
    // SAFETY: a slice that is only read, and two lent ones, apart by `&mut`.
    unsafe {
        pstp_document_lengths(
            segment.as_ptr(),
            segment.len(),
            ids.as_mut_ptr(),
            ids.len(),
            lengths.as_mut_ptr(),
            lengths.len(),
        )
    }
}

pub(crate) fn document_len(segment: &[u8], id: u32) -> Reply {
    // SAFETY: one slice, which is only read.
    unsafe { pstp_document_len(segment.as_ptr(), segment.len(), id) }
}

pub(crate) fn df(segment: &[u8], name: &str) -> Reply {
    // SAFETY: two slices, which are only read.
    unsafe { pstp_df(segment.as_ptr(), segment.len(), name.as_ptr(), name.len()) }
}

pub(crate) fn docs_with_term(segment: &[u8], name: &str, ids: &mut [u32]) -> Reply {
    // SAFETY: two slices that are only read, and one lent, apart from them by `&mut`.
    unsafe {
        pstp_docs_with_term(
            segment.as_ptr(),
            segment.len(),
            name.as_ptr(),
            name.len(),
            ids.as_mut_ptr(),
            ids.len(),
        )
    }
}

pub(crate) fn term_postings(
    segment: &[u8],
    name: &str,
    ids: &mut [u32],
    counts: &mut [u32],
    positions: &mut [u32],
) -> Reply {
    // SAFETY: two slices that are only read, and three lent ones, apart by `&mut`.
    unsafe {
        pstp_term_postings(
            segment.as_ptr(),
            segment.len(),
            name.as_ptr(),
            name.len(),
            ids.as_mut_ptr(),
            ids.len(),
            counts.as_mut_ptr(),
            counts.len(),
            positions.as_mut_ptr(),
            positions.len(),
        )
    }
}

pub(crate) fn positions(segment: &[u8], name: &str, id: u32, positions: &mut [u32]) -> Reply {
    // SAFETY: two slices that are only read, and one lent, apart from them by `&mut`.
    unsafe {
        pstp_positions(
            segment.as_ptr(),
            segment.len(),
            name.as_ptr(),
            name.len(),
            id,
            positions.as_mut_ptr(),
            positions.len(),
        )
    }
}

pub(crate) fn phrase_match_strs(segment: &[u8], names: &Names, ids: &mut [u32]) -> Reply {
    // SAFETY: three slices that are only read, and one lent, apart from them by `&mut`.
    unsafe {
        pstp_phrase_match_strs(
            segment.as_ptr(),
            segment.len(),
            names.text.as_ptr(),
            names.text.len(),
            names.ends.as_ptr(),
            names.ends.len(),
            ids.as_mut_ptr(),
            ids.len(),
        )
    }
}

pub(crate) fn near_match(segment: &[u8], a: &str, b: &str, window: u32, ids: &mut [u32]) -> Reply {
    // SAFETY: three slices that are only read, and one lent, apart from them by `&mut`.
    unsafe {
        pstp_near_match(
            segment.as_ptr(),
            segment.len(),
            a.as_ptr(),
            a.len(),
            b.as_ptr(),
            b.len(),
            window,
            ids.as_mut_ptr(),
            ids.len(),
        )
    }
}

pub(crate) fn near_match_terms_strs(
    segment: &[u8],
    names: &Names,
    window: u32,
    ordered: bool,
    ids: &mut [u32],
) -> Reply {
    // SAFETY: three slices that are only read, and one lent, apart from them by `&mut`; C's bool is Rust's.
    unsafe {
        pstp_near_match_terms_strs(
            segment.as_ptr(),
            segment.len(),
            names.text.as_ptr(),
            names.text.len(),
            names.ends.as_ptr(),
            names.ends.len(),
            window,
            ordered,
            ids.as_mut_ptr(),
            ids.len(),
        )
    }
}

pub(crate) fn write_positional_segment(lists: &Lists, out: &mut [u8]) -> Reply {
    // SAFETY: eight slices that are only read, and one lent, apart from them by `&mut`.
    unsafe {
        pstp_write_positional_segment(
            lists.ids.as_ptr(),
            lists.ids.len(),
            lists.lengths.as_ptr(),
            lists.lengths.len(),
            lists.names.text.as_ptr(),
            lists.names.text.len(),
            lists.names.ends.as_ptr(),
            lists.names.ends.len(),
            lists.posting_counts.as_ptr(),
            lists.posting_counts.len(),
            lists.posting_ids.as_ptr(),
            lists.posting_ids.len(),
            lists.position_counts.as_ptr(),
            lists.position_counts.len(),
            lists.positions.as_ptr(),
            lists.positions.len(),
            out.as_mut_ptr(),
            out.len(),
        )
    }
}
