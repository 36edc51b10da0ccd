//! The library, through its C interface.
use crate::calls::Call;
use crate::data::Lists;

#[repr(C)]
#[derive(Clone, Copy, Debug, PartialEq, Eq)]
pub struct Reply {
    pub kind: u32,
    pub which: u32,
    pub index: u64,
    pub first: u64,
    pub second: u64,
    pub third: u64,
    pub fourth: u64,
}

pub type Bytes = *const u8;
pub type Numbers = *const u32;
pub type Lent = *mut u32;

extern "C" {
    fn pstp_open(s: Bytes, n: usize) -> Reply;
    fn pstp_document_lengths(s: Bytes, n: usize, ids: Lent, a: usize, lengths: Lent, b: usize) -> Reply;
    fn pstp_document_len(s: Bytes, n: usize, id: u32) -> Reply;
    fn pstp_df(s: Bytes, n: usize, name: Bytes, m: usize) -> Reply;
    fn pstp_docs_with_term(s: Bytes, n: usize, name: Bytes, m: usize, ids: Lent, a: usize) -> Reply;
    fn pstp_term_postings(
        s: Bytes,
        n: usize,
        name: Bytes,
        m: usize,
        ids: Lent,
        a: usize,
        counts: Lent,
        b: usize,
        positions: Lent,
        c: usize,
    ) -> Reply;
    fn pstp_positions(s: Bytes, n: usize, name: Bytes, m: usize, id: u32, positions: Lent, a: usize) -> Reply;
    fn pstp_phrase_match_strs(s: Bytes, n: usize, text: Bytes, m: usize, ends: Numbers, k: usize, ids: Lent, a: usize) -> Reply;
    fn pstp_phrase_match_ranked(
        s: Bytes,
        n: usize,
        text: Bytes,
        m: usize,
        ends: Numbers,
        k: usize,
        ids: Lent,
        a: usize,
        counts: Lent,
        b: usize,
    ) -> Reply;
    fn pstp_near_match(s: Bytes, n: usize, a: Bytes, m: usize, b: Bytes, k: usize, window: u32, ids: Lent, l: usize) -> Reply;
    fn pstp_near_match_terms_strs(
        s: Bytes,
        n: usize,
        text: Bytes,
        m: usize,
        ends: Numbers,
        k: usize,
        window: u32,
        ordered: bool,
        ids: Lent,
        a: usize,
    ) -> Reply;
    fn pstp_write_positional_segment(
        ids: Numbers,
        a: usize,
        lengths: Numbers,
        b: usize,
        text: Bytes,
        c: usize,
        ends: Numbers,
        d: usize,
        posting_counts: Numbers,
        e: usize,
        posting_ids: Numbers,
        f: usize,
        position_counts: Numbers,
        g: usize,
        positions: Numbers,
        h: usize,
        out: *mut u8,
        l: usize,
    ) -> Reply;
    fn pstp_bar_sheet(s: Bytes, n: usize, id: u32, out: *mut u8, l: usize) -> Reply;
    fn pstp_midi_bars(
        file: Bytes,
        n: usize,
        ids: Lent,
        a: usize,
        lengths: Lent,
        b: usize,
        text: *mut u8,
        c: usize,
        ends: Lent,
        d: usize,
        posting_counts: Lent,
        e: usize,
        posting_ids: Lent,
        f: usize,
        position_counts: Lent,
        g: usize,
        positions: Lent,
        h: usize,
        velocities: *mut u8,
        i: usize,
    ) -> Reply;
}

/// The lent answer buffers: ids, lengths or counts, positions, and a sheet of up to 5,000 sounds.
pub struct Buffers {
    pub ids: Vec<u32>,
    pub seconds: Vec<u32>,
    pub positions: Vec<u32>,
    pub sheet: Vec<u8>,
}

impl Buffers {
    pub fn new(documents: usize, positions: usize) -> Buffers {
        Buffers { ids: vec![0; documents], seconds: vec![0; documents], positions: vec![0; positions], sheet: vec![0; 5001 * 81] }
    }

    /// Other numbers than an answer's, so that one that is not filled in does not pass for the one before.
    pub fn wipe(&mut self) {
        [&mut self.ids, &mut self.seconds, &mut self.positions].into_iter().for_each(|lent| lent.fill(u32::MAX));
    }
}

/// A call: the segment is opened and asked.
pub fn ask(call: &Call, s: &[u8], b: &mut Buffers) -> Reply {
    let (p, n) = (s.as_ptr(), s.len());
    let (ids, a) = (b.ids.as_mut_ptr(), b.ids.len());
    let (seconds, e) = (b.seconds.as_mut_ptr(), b.seconds.len());
    let (positions, f) = (b.positions.as_mut_ptr(), b.positions.len());
    let (sheet, l) = (b.sheet.as_mut_ptr(), b.sheet.len());
    unsafe {
        match call {
            Call::Open => pstp_open(p, n),
            Call::DocumentLengths => pstp_document_lengths(p, n, ids, a, seconds, e),
            Call::DocumentLen(id) => pstp_document_len(p, n, *id),
            Call::Df(t) => pstp_df(p, n, t.as_ptr(), t.len()),
            Call::DocsWithTerm(t) => pstp_docs_with_term(p, n, t.as_ptr(), t.len(), ids, a),
            Call::TermPostings(t) => pstp_term_postings(p, n, t.as_ptr(), t.len(), ids, a, seconds, e, positions, f),
            Call::Positions(t, id) => pstp_positions(p, n, t.as_ptr(), t.len(), *id, positions, f),
            Call::Phrase(q) => pstp_phrase_match_strs(p, n, q.text.as_ptr(), q.text.len(), q.ends.as_ptr(), q.ends.len(), ids, a),
            Call::NearMatch(x, y, window) => pstp_near_match(p, n, x.as_ptr(), x.len(), y.as_ptr(), y.len(), *window, ids, a),
            Call::BarSheet(_, id) => pstp_bar_sheet(p, n, *id, sheet, l),
            Call::Ranked(q) => {
                let (text, ends) = (&q.text, &q.ends);
                pstp_phrase_match_ranked(p, n, text.as_ptr(), text.len(), ends.as_ptr(), ends.len(), ids, a, seconds, e)
            }
            Call::Near(q, window, ordered) => pstp_near_match_terms_strs(
                p,
                n,
                q.text.as_ptr(),
                q.text.len(),
                q.ends.as_ptr(),
                q.ends.len(),
                *window,
                *ordered,
                ids,
                a,
            ),
        }
    }
}

/// The writer.
pub fn write(l: &Lists, out: &mut [u8]) -> Reply {
    unsafe {
        pstp_write_positional_segment(
            l.ids.as_ptr(),
            l.ids.len(),
            l.lengths.as_ptr(),
            l.lengths.len(),
            l.text.as_ptr(),
            l.text.len(),
            l.ends.as_ptr(),
            l.ends.len(),
            l.posting_counts.as_ptr(),
            l.posting_counts.len(),
            l.posting_ids.as_ptr(),
            l.posting_ids.len(),
            l.position_counts.as_ptr(),
            l.position_counts.len(),
            l.positions.as_ptr(),
            l.positions.len(),
            out.as_mut_ptr(),
            out.len(),
        )
    }
}

/// The bars of a MIDI file and their velocities, in lists that are lent.
pub fn midi_bars(file: &[u8], l: &mut Lists, velocities: &mut [u8]) -> Reply {
    unsafe {
        pstp_midi_bars(
            file.as_ptr(),
            file.len(),
            l.ids.as_mut_ptr(),
            l.ids.len(),
            l.lengths.as_mut_ptr(),
            l.lengths.len(),
            l.text.as_mut_ptr(),
            l.text.len(),
            l.ends.as_mut_ptr(),
            l.ends.len(),
            l.posting_counts.as_mut_ptr(),
            l.posting_counts.len(),
            l.posting_ids.as_mut_ptr(),
            l.posting_ids.len(),
            l.position_counts.as_mut_ptr(),
            l.position_counts.len(),
            l.positions.as_mut_ptr(),
            l.positions.len(),
            velocities.as_mut_ptr(),
            velocities.len(),
        )
    }
}
