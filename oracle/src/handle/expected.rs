//! The handles of a segment, from what the Rust opens and decodes. Where the sections begin is the header's.

use super::call::{Handle, CHECKED, OPENED};
use crate::compare::opened;
use crate::reply::Refusal;
use crate::rust::Stage;
use crate::sheet::Paper;

/// Who refused a segment that is checked.
pub type Why = Option<(Stage, Refusal)>;

fn number(bytes: &[u8], at: usize) -> usize {
    u64::from_le_bytes(bytes[at..at + 8].try_into().unwrap()) as usize
}

/// By `check` and by `open_once`; and why the first refuses: opening's refusal, else that of the first list in the directory's order.
pub fn handles(bytes: &[u8]) -> ([Handle; 2], Why) {
    let opened = opened(bytes);
    let segment = match &opened.segment {
        Ok(segment) => segment,
        Err((stage, refusal)) => return ([Handle::from(*refusal); 2], Some((*stage, *refusal))),
    };
    let names = 72 + number(bytes, 24);
    let metadata = names + number(bytes, 32);
    let once = Handle {
        level: OPENED,
        documents: segment.document_lengths().len() as u32,
        terms: u32::from_le_bytes(bytes[20..24].try_into().unwrap()),
        names,
        metadata,
        lists: metadata + number(bytes, 40),
        ..Handle::default()
    };
    match Paper::new(&opened).sounds.into_iter().find_map(|sound| sound.list.err()) {
        Some(refusal) => ([Handle::from(refusal), once], Some((Stage::List, refusal))),
        None => ([Handle { level: CHECKED, ..once }, once], None),
    }
}
