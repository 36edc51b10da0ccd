//! Handles, and the calls that make and take them, through the C interface.

use crate::case::{Call, Case, ENDS};
use crate::reply::{Refusal, Reply};

type Bytes = *const u8;
type Words = *const u32;
type Places = *mut u32;

/// The handle of include/pstp.h.
#[repr(C)]
#[derive(Clone, Copy, Debug, Default, PartialEq, Eq)]
pub struct Handle {
    pub kind: u32,
    pub which: u32,
    pub index: u64,
    pub level: u32,
    pub documents: u32,
    pub terms: u32,
    pub spare: u32,
    pub names: usize,
    pub metadata: usize,
    pub lists: usize,
}

pub const REFUSED: u32 = 0;
pub const OPENED: u32 = 1;
pub const CHECKED: u32 = 2;

impl From<Refusal> for Handle {
    fn from(r: Refusal) -> Self {
        Handle { kind: r.kind, which: r.which, index: r.index, ..Handle::default() }
    }
}

#[link(name = "pstp", kind = "static")]
extern "C" {
    fn pstp_open_once(bytes: Bytes, n: usize) -> Handle;
    fn pstp_check(bytes: Bytes, n: usize) -> Handle;
    fn pstp_document_len_checked(bytes: Bytes, n: usize, handle: Handle, id: u32) -> Reply;
    fn pstp_df_checked(bytes: Bytes, n: usize, handle: Handle, name: Bytes, name_n: usize) -> Reply;
    fn pstp_docs_with_term_checked(
        bytes: Bytes,
        n: usize,
        handle: Handle,
        name: Bytes,
        name_n: usize,
        ids: Places,
        ids_n: usize,
    ) -> Reply;
    fn pstp_term_postings_checked(
        bytes: Bytes,
        n: usize,
        handle: Handle,
        name: Bytes,
        name_n: usize,
        ids: Places,
        ids_n: usize,
        counts: Places,
        counts_n: usize,
        positions: Places,
        positions_n: usize,
    ) -> Reply;
    fn pstp_positions_checked(
        bytes: Bytes,
        n: usize,
        handle: Handle,
        name: Bytes,
        name_n: usize,
        id: u32,
        positions: Places,
        positions_n: usize,
    ) -> Reply;
    fn pstp_phrase_match_strs_checked(
        bytes: Bytes,
        n: usize,
        handle: Handle,
        text: Bytes,
        text_n: usize,
        ends: Words,
        ends_n: usize,
        ids: Places,
        ids_n: usize,
    ) -> Reply;
    fn pstp_near_match_checked(
        bytes: Bytes,
        n: usize,
        handle: Handle,
        a: Bytes,
        a_n: usize,
        b: Bytes,
        b_n: usize,
        window: u32,
        ids: Places,
        ids_n: usize,
    ) -> Reply;
    fn pstp_near_match_terms_strs_checked(
        bytes: Bytes,
        n: usize,
        handle: Handle,
        text: Bytes,
        text_n: usize,
        ends: Words,
        ends_n: usize,
        window: u32,
        ordered: bool,
        ids: Places,
        ids_n: usize,
    ) -> Reply;
}

pub fn open_once(segment: &[u8]) -> Handle {
    // SAFETY: one slice, which outlives the call.
    unsafe { pstp_open_once(segment.as_ptr(), segment.len()) }
}

pub fn check(segment: &[u8]) -> Handle {
    // SAFETY: one slice, which outlives the call.
    unsafe { pstp_check(segment.as_ptr(), segment.len()) }
}

/// The calls that a handle can be passed to.
pub const TAKING: [Call; 8] = [
    Call::DocumentLen,
    Call::Df,
    Call::DocsWithTerm,
    Call::TermPostings,
    Call::Positions,
    Call::Phrase,
    Call::Near,
    Call::NearTerms,
];

pub fn takes(call: Call) -> bool {
    TAKING.contains(&call)
}

/// A call that takes a handle, with one. The lent places are three buffers that no other part of the case overlaps.
pub fn ask(case: &Case, handle: Handle, lent: [(*mut u32, usize); 3]) -> Reply {
    let (s, n) = (case.segment.as_ptr(), case.segment.len());
    let (t, tn) = (case.text.as_ptr(), case.text.len());
    let (u, un) = (case.second.as_ptr(), case.second.len());
    let (e, en) = (case.lists[ENDS].as_ptr(), case.lists[ENDS].len());
    let [(p, pn), (q, qn), (r, rn)] = lent;
    let number = case.number;
    // SAFETY: every pointer comes with the length of a slice that outlives the call, and no two lent buffers overlap; any handle may be
    // passed with any bytes.
    unsafe {
        match case.call {
            Call::DocumentLen => pstp_document_len_checked(s, n, handle, number),
            Call::Df => pstp_df_checked(s, n, handle, t, tn),
            Call::DocsWithTerm => pstp_docs_with_term_checked(s, n, handle, t, tn, p, pn),
            Call::TermPostings => pstp_term_postings_checked(s, n, handle, t, tn, p, pn, q, qn, r, rn),
            Call::Positions => pstp_positions_checked(s, n, handle, t, tn, number, p, pn),
            Call::Phrase => pstp_phrase_match_strs_checked(s, n, handle, t, tn, e, en, p, pn),
            Call::Near => pstp_near_match_checked(s, n, handle, t, tn, u, un, number, p, pn),
            Call::NearTerms => pstp_near_match_terms_strs_checked(s, n, handle, t, tn, e, en, number, case.ordered, p, pn),
            Call::Open | Call::DocumentLengths | Call::Write => unreachable!("no handle is passed to {}", case.call.name()),
        }
    }
}
