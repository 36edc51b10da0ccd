//! Slices of slices as the library's flat lists.

use crate::types::{DocId, PositionalTermPostings, TokenPos};
use crate::Error;

/// A number that a list of at most 16,777,216 elements can have, or the library's refusal of a longer one.
fn count(n: usize) -> Result<u32, Error> {
    u32::try_from(n).map_err(|_| Error::TooLarge)
}

/// Names as one text, and where each ends in it.
#[derive(Clone, Debug, Default, PartialEq, Eq)]
pub(crate) struct Names {
    pub(crate) text: Vec<u8>,
    pub(crate) ends: Vec<u32>,
}

impl Names {
    pub(crate) fn of(names: &[&str]) -> Result<Self, Error> {
        let mut flat = Self::default();
        for name in names {
            flat.push(name)?;
        }
        Ok(flat)
    }

    fn push(&mut self, name: &str) -> Result<(), Error> {
        self.text.extend_from_slice(name.as_bytes());
        self.ends.push(count(self.text.len())?);
        Ok(())
    }
}

/// The writer's eight lists.
#[derive(Clone, Debug, Default, PartialEq, Eq)]
pub(crate) struct Lists {
    pub(crate) ids: Vec<DocId>,
    pub(crate) lengths: Vec<u32>,
    pub(crate) names: Names,
    pub(crate) posting_counts: Vec<u32>,
    pub(crate) posting_ids: Vec<DocId>,
    pub(crate) position_counts: Vec<u32>,
    pub(crate) positions: Vec<TokenPos>,
}

impl Lists {
    pub(crate) fn of(
        document_lengths: &[(DocId, u32)],
        terms: &[PositionalTermPostings<'_>],
    ) -> Result<Self, Error> {
        let (ids, lengths) = document_lengths.iter().copied().unzip();
        let mut flat = Self {
            ids,
            lengths,
            ..Self::default()
        };
        for term in terms {
            flat.names.push(term.term)?;
            flat.posting_counts.push(count(term.postings.len())?);
            for posting in &term.postings {
                flat.posting_ids.push(posting.doc_id);
                flat.position_counts.push(count(posting.positions.len())?);
                flat.positions.extend_from_slice(posting.positions);
            }
        }
        Ok(flat)
    }

    /// No segment of these lists is longer: header and directory are fixed, a stored number has at most five bytes. Room for it is
    /// little more than the lists themselves, and saves the call that would only ask for the length.
    pub(crate) fn most_bytes(&self) -> usize {
        let numbers = 2 * self.ids.len() + 2 * self.posting_ids.len() + self.positions.len();
        72 + 32 * self.names.ends.len() + self.names.text.len() + 5 * numbers
    }
}

#[cfg(test)]
mod tests {
    use super::*;

    #[test]
    fn counts_are_numbers_of_32_bits() {
        assert_eq!(count(u32::MAX as usize), Ok(u32::MAX));
        assert_eq!(count(1 << 32), Err(Error::TooLarge));
    }
}
