//! The two bars of docs/FORMAT.md, segments broken on purpose, and random numbers.
#![allow(dead_code)] // Each test file uses a part.

use pstp::{
    write_positional_segment, DocId, Error, PositionalPosting, PositionalTermPostings, TokenPos,
};

/// Terms as names with their postings.
pub type Terms<'a> = [(&'a str, &'a [(DocId, &'a [TokenPos])])];

/// Ids with lengths.
pub type Documents = [(DocId, u32)];

pub fn write(documents: &Documents, terms: &Terms<'_>) -> Result<Vec<u8>, Error> {
    let terms: Vec<_> = terms
        .iter()
        .map(|&(term, postings)| PositionalTermPostings {
            term,
            postings: postings
                .iter()
                .map(|&(doc_id, positions)| PositionalPosting { doc_id, positions })
                .collect(),
        })
        .collect();
    write_positional_segment(documents, &terms)
}

pub fn two_bars() -> Vec<u8> {
    write(
        &[(3, 16), (7, 16)],
        &[
            ("kick", &[(3, &[0, 4, 15]), (7, &[2])]),
            ("snare", &[(3, &[8, 14]), (7, &[3, 4])]),
        ],
    )
    .unwrap()
}

/// CRC-32 of IEEE 802.3, bit by bit.
pub fn crc32(bytes: &[u8]) -> u32 {
    !bytes.iter().fold(u32::MAX, |r, &byte| {
        (0..8).fold(r ^ u32::from(byte), |r, _| {
            (r >> 1) ^ (0xEDB8_8320 * (r & 1))
        })
    })
}

/// The bytes with some overwritten, and the checksums of the sections, and of each list, made right again.
pub fn repaired(mut bytes: Vec<u8>, at: usize, over: &[u8]) -> Vec<u8> {
    bytes[at..at + over.len()].copy_from_slice(over);
    let number = |bytes: &[u8], at: usize| {
        u64::from_le_bytes(bytes[at..at + 8].try_into().unwrap()) as usize
    };
    let lists = bytes.len() - number(&bytes, 48);
    for entry in (72..72 + number(&bytes, 24)).step_by(32) {
        let from = lists + number(&bytes, entry + 8);
        if let Some(list) = bytes.get(from..from + number(&bytes, entry + 16)) {
            let checksum = crc32(list).to_le_bytes();
            bytes[entry + 28..entry + 32].copy_from_slice(&checksum);
        }
    }
    let mut start = 72;
    for section in 0..4 {
        let end = start + number(&bytes, 24 + 8 * section);
        let checksum = crc32(&bytes[start..end]).to_le_bytes();
        bytes[56 + 4 * section..60 + 4 * section].copy_from_slice(&checksum);
        start = end;
    }
    bytes
}

/// Marsaglia's xorshift: the same numbers in each run.
pub struct Random(pub u64);

impl Random {
    pub fn below(&mut self, n: u32) -> u32 {
        self.0 ^= self.0 << 13;
        self.0 ^= self.0 >> 7;
        self.0 ^= self.0 << 17;
        ((self.0 >> 32) % u64::from(n)) as u32
    }

    pub fn bytes(&mut self, len: u32, below: u32) -> Vec<u8> {
        (0..len).map(|_| self.below(below) as u8).collect()
    }
}
