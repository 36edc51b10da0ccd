//! The writer's flat lists as nested ones again, where they fit together.

use crate::case::{Kept, ENDS, IDS, LENGTHS, POSITIONS, POSITION_COUNTS, POSTING_COUNTS, POSTING_IDS};
use crate::given::{Given, Posting, Term};
use crate::words;

pub fn given_of(kept: &Kept) -> Option<Given> {
    words::writer_lists(&kept.case()).ok()?;
    let lists = &kept.lists;
    let documents = lists[IDS].iter().copied().zip(lists[LENGTHS].iter().copied()).collect();
    let mut positions = lists[POSITIONS].iter().copied();
    let mut postings = lists[POSTING_IDS].iter().zip(&lists[POSITION_COUNTS]);
    let mut terms = Vec::new();
    for (name, count) in words::names(&kept.text, &lists[ENDS]).zip(&lists[POSTING_COUNTS]) {
        let postings = postings.by_ref().take(*count as usize);
        let postings =
            postings.map(|(id, steps)| Posting { id: *id, positions: positions.by_ref().take(*steps as usize).collect() });
        terms.push(Term { name: name.to_vec(), postings: postings.collect() });
    }
    Some(Given { documents, terms })
}
