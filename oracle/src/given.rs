//! The writer's input: documents, terms, postings and positions; and the same as flat lists.

use crate::case::{Call, Case, ENDS, IDS, LENGTHS, POSITIONS, POSITION_COUNTS, POSTING_COUNTS, POSTING_IDS};

#[derive(Clone, Debug)]
pub struct Posting {
    pub id: u32,
    pub positions: Vec<u32>,
}

#[derive(Clone, Debug)]
pub struct Term {
    pub name: Vec<u8>,
    pub postings: Vec<Posting>,
}

#[derive(Clone, Debug, Default)]
pub struct Given {
    /// id and length
    pub documents: Vec<(u32, u32)>,
    pub terms: Vec<Term>,
}

#[derive(Clone, Debug, Default)]
pub struct Flat {
    pub text: Vec<u8>,
    pub lists: [Vec<u32>; 7],
}

impl Given {
    pub fn flat(&self) -> Flat {
        let mut flat = Flat::default();
        for (id, length) in &self.documents {
            flat.lists[IDS].push(*id);
            flat.lists[LENGTHS].push(*length);
        }
        for term in &self.terms {
            flat.text.extend(&term.name);
            flat.lists[ENDS].push(flat.text.len() as u32);
            flat.lists[POSTING_COUNTS].push(term.postings.len() as u32);
            for posting in &term.postings {
                flat.lists[POSTING_IDS].push(posting.id);
                flat.lists[POSITION_COUNTS].push(posting.positions.len() as u32);
                flat.lists[POSITIONS].extend(&posting.positions);
            }
        }
        flat
    }

    /// A document's own positions for a name; none if nothing stands there.
    pub fn own(&self, name: &[u8], id: u32) -> Vec<u32> {
        let terms = self.terms.iter().filter(|term| term.name == name);
        let postings = terms.flat_map(|term| &term.postings).filter(|posting| posting.id == id);
        postings.flat_map(|posting| posting.positions.iter().copied()).collect()
    }
}

impl Flat {
    pub fn case(&self) -> Case<'_> {
        Case { text: &self.text, lists: std::array::from_fn(|i| &self.lists[i][..]), ..Case::on(Call::Write, &[]) }
    }
}
