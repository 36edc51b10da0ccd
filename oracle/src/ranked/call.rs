//! `pstp_phrase_match_ranked` through the C interface, with buffers whose every place is watched.

use crate::case::{Case, ENDS};
use crate::lent::Lent;
use crate::reply::Reply;

#[link(name = "pstp", kind = "static")]
extern "C" {
    fn pstp_phrase_match_ranked(
        segment: *const u8,
        segment_n: usize,
        text: *const u8,
        text_n: usize,
        ends: *const u32,
        ends_n: usize,
        ids: *mut u32,
        ids_n: usize,
        counts: *mut u32,
        counts_n: usize,
    ) -> Reply;
}

/// The names of a phrase question, asked for the best bars first.
pub fn phrase_match_ranked(case: &Case, [ids, counts]: &mut [Lent<u32>; 2]) -> Reply {
    let (s, t, e) = (case.segment, case.text, case.lists[ENDS]);
    let ((p, pn), (q, qn)) = (ids.raw(), counts.raw());
    // SAFETY: every pointer comes with the length of a slice that outlives the call, and the lent ones overlap nothing.
    unsafe { pstp_phrase_match_ranked(s.as_ptr(), s.len(), t.as_ptr(), t.len(), e.as_ptr(), e.len(), p, pn, q, qn) }
}
