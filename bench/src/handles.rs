//! The library's calls with a handle: of a segment that was opened once, or checked once.
use crate::calls::{self, Answer, Call};
use crate::library::{Buffers, Bytes, Lent, Numbers, Reply};

#[repr(C)]
#[derive(Clone, Copy, Debug, PartialEq, Eq)]
pub struct Handle {
    pub kind: u32,
    pub which: u32,
    pub index: u64,
    pub level: u32,
    pub documents: u32,
    pub terms: u32,
    pub spare: u32,
    pub names: usize,
    pub metadata: usize,
    pub lists: usize,
}

extern "C" {
    fn pstp_open_once(s: Bytes, n: usize) -> Handle;
    fn pstp_check(s: Bytes, n: usize) -> Handle;
    fn pstp_document_len_checked(s: Bytes, n: usize, h: Handle, id: u32) -> Reply;
    fn pstp_df_checked(s: Bytes, n: usize, h: Handle, name: Bytes, m: usize) -> Reply;
    fn pstp_docs_with_term_checked(s: Bytes, n: usize, h: Handle, name: Bytes, m: usize, ids: Lent, a: usize) -> Reply;
    fn pstp_term_postings_checked(
        s: Bytes,
        n: usize,
        h: Handle,
        name: Bytes,
        m: usize,
        ids: Lent,
        a: usize,
        counts: Lent,
        b: usize,
        positions: Lent,
        c: usize,
    ) -> Reply;
    fn pstp_positions_checked(s: Bytes, n: usize, h: Handle, name: Bytes, m: usize, id: u32, positions: Lent, a: usize) -> Reply;
    fn pstp_phrase_match_strs_checked(
        s: Bytes,
        n: usize,
        h: Handle,
        text: Bytes,
        m: usize,
        ends: Numbers,
        k: usize,
        ids: Lent,
        a: usize,
    ) -> Reply;
    fn pstp_near_match_checked(
        s: Bytes,
        n: usize,
        h: Handle,
        a: Bytes,
        m: usize,
        b: Bytes,
        k: usize,
        window: u32,
        ids: Lent,
        l: usize,
    ) -> Reply;
    fn pstp_near_match_terms_strs_checked(
        s: Bytes,
        n: usize,
        h: Handle,
        text: Bytes,
        m: usize,
        ends: Numbers,
        k: usize,
        window: u32,
        ordered: bool,
        ids: Lent,
        a: usize,
    ) -> Reply;
}

pub fn open_once(s: &[u8]) -> Handle {
    unsafe { pstp_open_once(s.as_ptr(), s.len()) }
}

pub fn check(s: &[u8]) -> Handle {
    unsafe { pstp_check(s.as_ptr(), s.len()) }
}

/// Whether there is such a call with a handle.
pub fn has(call: &Call) -> bool {
    !matches!(call, Call::Open | Call::DocumentLengths | Call::BarSheet(..) | Call::Ranked(_))
}

/// A call with a handle.
pub fn ask(call: &Call, s: &[u8], h: Handle, b: &mut Buffers) -> Reply {
    let (p, n) = (s.as_ptr(), s.len());
    let (ids, a) = (b.ids.as_mut_ptr(), b.ids.len());
    let (counts, e) = (b.seconds.as_mut_ptr(), b.seconds.len());
    let (positions, f) = (b.positions.as_mut_ptr(), b.positions.len());
    unsafe {
        match call {
            Call::DocumentLen(id) => pstp_document_len_checked(p, n, h, *id),
            Call::Df(t) => pstp_df_checked(p, n, h, t.as_ptr(), t.len()),
            Call::DocsWithTerm(t) => pstp_docs_with_term_checked(p, n, h, t.as_ptr(), t.len(), ids, a),
            Call::TermPostings(t) => pstp_term_postings_checked(p, n, h, t.as_ptr(), t.len(), ids, a, counts, e, positions, f),
            Call::Positions(t, id) => pstp_positions_checked(p, n, h, t.as_ptr(), t.len(), *id, positions, f),
            Call::Phrase(q) => {
                let (text, ends) = (&q.text, &q.ends);
                pstp_phrase_match_strs_checked(p, n, h, text.as_ptr(), text.len(), ends.as_ptr(), ends.len(), ids, a)
            }
            Call::NearMatch(x, y, window) => {
                pstp_near_match_checked(p, n, h, x.as_ptr(), x.len(), y.as_ptr(), y.len(), *window, ids, a)
            }
            Call::Near(q, window, ordered) => pstp_near_match_terms_strs_checked(
                p,
                n,
                h,
                q.text.as_ptr(),
                q.text.len(),
                q.ends.as_ptr(),
                q.ends.len(),
                *window,
                *ordered,
                ids,
                a,
            ),
            Call::Open | Call::DocumentLengths | Call::BarSheet(..) | Call::Ranked(_) => panic!("{} has no handle", call.name()),
        }
    }
}

/// The library's answer with a handle; a refusal is a fault here.
pub fn answer(call: &Call, s: &[u8], h: Handle, b: &mut Buffers) -> Answer {
    let r = ask(call, s, h, b);
    calls::answered(call, r, b)
}
