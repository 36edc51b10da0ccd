//! A whole small space: every short byte string as a segment's metadata, and as a term's posting list, with right checksums.

use crate::case::{Call, Case, ENDS};
use crate::compare::{opened, Runner};
use crate::damage::encoded;
use crate::parts::{Entry, Parts};
use crate::sheet::Paper;

fn parts(documents: u32, metadata: &[u8]) -> Parts {
    Parts { documents, metadata: metadata.to_vec(), ..Parts::empty() }
}

fn as_metadata(runner: &mut Runner, documents: u32, metadata: &[u8]) {
    let bytes = parts(documents, metadata).bytes();
    let opened = opened(&bytes);
    runner.ask_full(&Case::on(Call::Open, &bytes), &opened);
    let id = metadata.first().map_or(0, |b| u32::from(*b));
    drop(runner.sheets.ask_full(&Paper::new(&opened), id));
    if opened.segment.is_ok() {
        runner.ask_full(&Case::on(Call::DocumentLengths, &bytes), &opened);
        runner.ask_full(&Case::on(Call::DocumentLen, &bytes).numbered(id), &opened);
    }
}

/// Documents 0, 1, 5, 127 and 2^32 - 1, of lengths 4, 200, 2^32 - 1, 0 and 2^32 - 1.
fn five_documents() -> Vec<u8> {
    let numbers = [0, 4, 1, 200, 4, u32::MAX, 122, 0, u32::MAX - 127, u32::MAX];
    numbers.iter().flat_map(|number| encoded(*number)).collect()
}

struct Lists {
    parts: Parts,
}

impl Lists {
    fn new() -> Self {
        let mut parts = parts(5, &five_documents());
        parts.terms = 1;
        parts.names = b"a".to_vec();
        parts.entries = vec![Entry { name_at: 0, name_len: 1, list_at: 0, list_len: 0, df: 1, checksum: 0 }];
        Lists { parts }
    }

    /// All calls that decode go by turns.
    fn as_list(&mut self, runner: &mut Runner, df: u32, list: &[u8]) {
        self.parts.postings.clear();
        self.parts.put_list(0, list);
        self.parts.entries[0].df = df;
        self.parts.sign_lists();
        let bytes = self.parts.bytes();
        let opened = opened(&bytes);
        let turn = list.iter().map(|byte| usize::from(*byte)).sum::<usize>() % 8;
        let calls = [Call::DocsWithTerm, Call::Positions, Call::Phrase, Call::Near, Call::NearTerms];
        let call = calls.get(turn).copied().unwrap_or(Call::TermPostings);
        let mut case = Case::on(call, &bytes).named(b"a");
        match call {
            Call::Positions => case.number = 1,
            Call::Phrase => case.lists[ENDS] = &[1],
            Call::Near => (case.second, case.number) = (b"a", 1),
            Call::NearTerms => (case.text, case.lists[ENDS], case.number, case.ordered) = (b"aa", &[1, 2], 1, true),
            _ => {}
        }
        runner.ask_full(&case, &opened);
        drop(runner.sheets.ask_full(&Paper::new(&opened), 0));
    }
}

/// Every byte string of up to two bytes, or three if the whole space is asked for; and numbers of five bytes.
pub fn all(runner: &mut Runner, whole: bool) {
    let mut lists = Lists::new();
    let longest = if whole { 3 } else { 2 };
    for length in 0..=longest {
        for all in 0..1u32 << (8 * length) {
            let string = &all.to_le_bytes()[..length];
            for documents in if length < 3 { 0..=3 } else { 1..=2 } {
                as_metadata(runner, documents, string);
            }
            for df in if length < 3 { 1..=2 } else { 1..=1 } {
                lists.as_list(runner, df, string);
            }
        }
    }
    five_bytes(runner, &mut lists);
}

fn five_bytes(runner: &mut Runner, lists: &mut Lists) {
    const LOW: [u8; 6] = [0x00, 0x01, 0x7F, 0x80, 0x81, 0xFF];
    const LAST: [u8; 8] = [0x00, 0x01, 0x0E, 0x0F, 0x10, 0x7F, 0x80, 0xFF];
    for choice in 0..6usize.pow(4) * 8 {
        let low = |i: u32| LOW[choice / 6usize.pow(i) % 6];
        let number = [low(0), low(1), low(2), low(3), LAST[choice / 6usize.pow(4)]];
        for behind in [&[][..], &[5], &[5, 1, 1]] {
            as_metadata(runner, 1, &[&number, behind].concat());
            as_metadata(runner, 2, &[&[1, 1], &number[..], behind].concat());
            // as a document id, a first position, a gap of ids, a gap of positions
            lists.as_list(runner, 1, &[&number, behind].concat());
            lists.as_list(runner, 1, &[&[5, 1], &number[..], behind].concat());
            lists.as_list(runner, 1, &[&[5, 2, 3], &number[..], behind].concat());
            lists.as_list(runner, 2, &[&[5, 1, 3], &number[..], behind].concat());
        }
    }
}
