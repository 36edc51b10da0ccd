//! The library, called through the C interface.

use crate::case::{Call, Case, ENDS, IDS, LENGTHS, POSITIONS, POSITION_COUNTS, POSTING_COUNTS, POSTING_IDS};
use crate::lent::Buffers;
use crate::reply::Reply;

type Bytes = *const u8;
type Words = *const u32;
type Places = *mut u32;

#[link(name = "pstp", kind = "static")]
extern "C" {
    fn pstp_open(bytes: Bytes, n: usize) -> Reply;
    fn pstp_document_lengths(bytes: Bytes, n: usize, ids: Places, ids_n: usize, lengths: Places, lengths_n: usize) -> Reply;
    fn pstp_document_len(bytes: Bytes, n: usize, id: u32) -> Reply;
    fn pstp_df(bytes: Bytes, n: usize, name: Bytes, name_n: usize) -> Reply;
    fn pstp_docs_with_term(bytes: Bytes, n: usize, name: Bytes, name_n: usize, ids: Places, ids_n: usize) -> Reply;
    fn pstp_term_postings(
        bytes: Bytes,
        n: usize,
        name: Bytes,
        name_n: usize,
        ids: Places,
        ids_n: usize,
        counts: Places,
        counts_n: usize,
        positions: Places,
        positions_n: usize,
    ) -> Reply;
    fn pstp_positions(
        bytes: Bytes,
        n: usize,
        name: Bytes,
        name_n: usize,
        id: u32,
        positions: Places,
        positions_n: usize,
    ) -> Reply;
    fn pstp_phrase_match_strs(
        bytes: Bytes,
        n: usize,
        text: Bytes,
        text_n: usize,
        ends: Words,
        ends_n: usize,
        ids: Places,
        ids_n: usize,
    ) -> Reply;
    fn pstp_near_match(
        bytes: Bytes,
        n: usize,
        a: Bytes,
        a_n: usize,
        b: Bytes,
        b_n: usize,
        window: u32,
        ids: Places,
        ids_n: usize,
    ) -> Reply;
    fn pstp_near_match_terms_strs(
        bytes: Bytes,
        n: usize,
        text: Bytes,
        text_n: usize,
        ends: Words,
        ends_n: usize,
        window: u32,
        ordered: bool,
        ids: Places,
        ids_n: usize,
    ) -> Reply;
    fn pstp_write_positional_segment(
        ids: Words,
        ids_n: usize,
        lengths: Words,
        lengths_n: usize,
        text: Bytes,
        text_n: usize,
        ends: Words,
        ends_n: usize,
        posting_counts: Words,
        posting_counts_n: usize,
        posting_ids: Words,
        posting_ids_n: usize,
        position_counts: Words,
        position_counts_n: usize,
        positions: Words,
        positions_n: usize,
        out: *mut u8,
        out_n: usize,
    ) -> Reply;
}

pub fn ask(case: &Case, lent: &mut Buffers) -> Reply {
    let (s, n) = (case.segment.as_ptr(), case.segment.len());
    let (t, tn) = (case.text.as_ptr(), case.text.len());
    let (u, un) = (case.second.as_ptr(), case.second.len());
    let list = |i: usize| (case.lists[i].as_ptr(), case.lists[i].len());
    let (e, en) = list(ENDS);
    let [(p, pn), (q, qn), (r, rn)] = lent.places.each_mut().map(|buffer| buffer.raw());
    // SAFETY: every pointer comes with the length of a slice that outlives the call, and no two lent buffers overlap.
    unsafe {
        match case.call {
            Call::Open => pstp_open(s, n),
            Call::DocumentLengths => pstp_document_lengths(s, n, p, pn, q, qn),
            Call::DocumentLen => pstp_document_len(s, n, case.number),
            Call::Df => pstp_df(s, n, t, tn),
            Call::DocsWithTerm => pstp_docs_with_term(s, n, t, tn, p, pn),
            Call::TermPostings => pstp_term_postings(s, n, t, tn, p, pn, q, qn, r, rn),
            Call::Positions => pstp_positions(s, n, t, tn, case.number, p, pn),
            Call::Phrase => pstp_phrase_match_strs(s, n, t, tn, e, en, p, pn),
            Call::Near => pstp_near_match(s, n, t, tn, u, un, case.number, p, pn),
            Call::NearTerms => pstp_near_match_terms_strs(s, n, t, tn, e, en, case.number, case.ordered, p, pn),
            Call::Write => {
                let (ids, ids_n) = list(IDS);
                let (lengths, lengths_n) = list(LENGTHS);
                let (counts, counts_n) = list(POSTING_COUNTS);
                let (postings, postings_n) = list(POSTING_IDS);
                let (steps, steps_n) = list(POSITION_COUNTS);
                let (positions, positions_n) = list(POSITIONS);
                let (out, out_n) = lent.bytes.raw();
                pstp_write_positional_segment(
                    ids,
                    ids_n,
                    lengths,
                    lengths_n,
                    t,
                    tn,
                    e,
                    en,
                    counts,
                    counts_n,
                    postings,
                    postings_n,
                    steps,
                    steps_n,
                    positions,
                    positions_n,
                    out,
                    out_n,
                )
            }
        }
    }
}
