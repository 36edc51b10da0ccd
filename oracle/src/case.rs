//! One call with everything that it is given. The calls have the replay list's numbers.

#[derive(Clone, Copy, Debug, PartialEq, Eq)]
pub enum Call {
    Open = 1,
    DocumentLengths,
    DocumentLen,
    Df,
    DocsWithTerm,
    TermPostings,
    Positions,
    Phrase,
    Near,
    NearTerms,
    Write,
}

pub const CALLS: [(Call, &str); 11] = [
    (Call::Open, "open"),
    (Call::DocumentLengths, "document_lengths"),
    (Call::DocumentLen, "document_len"),
    (Call::Df, "df"),
    (Call::DocsWithTerm, "docs_with_term"),
    (Call::TermPostings, "term_postings"),
    (Call::Positions, "positions"),
    (Call::Phrase, "phrase_match_strs"),
    (Call::Near, "near_match"),
    (Call::NearTerms, "near_match_terms_strs"),
    (Call::Write, "write_positional_segment"),
];

impl Call {
    pub fn name(self) -> &'static str {
        CALLS[self as usize - 1].1
    }

    /// How many buffers of u32 are lent to it.
    pub fn buffers(self) -> usize {
        match self {
            Call::Open | Call::DocumentLen | Call::Df | Call::Write => 0,
            Call::DocumentLengths => 2,
            Call::TermPostings => 3,
            _ => 1,
        }
    }
}

/// The seven lists of u32: a question has `ends` alone, the writer all.
pub const ENDS: usize = 0;
pub const IDS: usize = 1;
pub const LENGTHS: usize = 2;
pub const POSTING_COUNTS: usize = 3;
pub const POSTING_IDS: usize = 4;
pub const POSITION_COUNTS: usize = 5;
pub const POSITIONS: usize = 6;
pub const LISTS: [&str; 7] = ["ends", "ids", "lengths", "posting_counts", "posting_ids", "position_counts", "positions"];

#[derive(Clone, Copy)]
pub struct Case<'a> {
    pub call: Call,
    pub ordered: bool,
    /// the document id or the window
    pub number: u32,
    pub segment: &'a [u8],
    pub text: &'a [u8],
    pub second: &'a [u8],
    pub lists: [&'a [u32]; 7],
}

impl<'a> Case<'a> {
    pub fn on(call: Call, segment: &'a [u8]) -> Self {
        Case { call, ordered: false, number: 0, segment, text: &[], second: &[], lists: [&[]; 7] }
    }

    pub fn named(self, text: &'a [u8]) -> Self {
        Case { text, ..self }
    }

    pub fn numbered(self, number: u32) -> Self {
        Case { number, ..self }
    }
}

/// How long the lent buffers are.
#[derive(Clone, Copy, Debug, Default, PartialEq, Eq)]
pub struct Room {
    pub places: [usize; 3],
    pub bytes: usize,
}

/// A case that owns what it is given.
#[derive(Clone)]
pub struct Kept {
    pub call: Call,
    pub ordered: bool,
    pub number: u32,
    pub segment: Vec<u8>,
    pub text: Vec<u8>,
    pub second: Vec<u8>,
    pub lists: [Vec<u32>; 7],
    pub room: Room,
}

impl Kept {
    pub fn new(case: &Case, room: Room) -> Self {
        Kept {
            call: case.call,
            ordered: case.ordered,
            number: case.number,
            segment: case.segment.to_vec(),
            text: case.text.to_vec(),
            second: case.second.to_vec(),
            lists: case.lists.map(<[u32]>::to_vec),
            room,
        }
    }

    pub fn case(&self) -> Case<'_> {
        Case {
            call: self.call,
            ordered: self.ordered,
            number: self.number,
            segment: &self.segment,
            text: &self.text,
            second: &self.second,
            lists: std::array::from_fn(|i| &self.lists[i][..]),
        }
    }

    /// What a smaller case has less of: bytes and elements first, then the numbers themselves.
    pub fn size(&self) -> (usize, u64) {
        let elements = self.lists.iter().map(Vec::len).sum::<usize>();
        let room = self.room.places.iter().sum::<usize>() + self.room.bytes;
        let bytes = self.segment.len() + self.text.len() + self.second.len();
        let numbers = self.lists.iter().flatten().map(|x| u64::from(*x)).sum::<u64>();
        let weight = self.segment.iter().chain(&self.text).chain(&self.second).map(|b| u64::from(*b)).sum::<u64>();
        (bytes + 4 * elements + room, numbers + weight + u64::from(self.number))
    }
}
