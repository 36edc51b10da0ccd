//! The answer of the Rust, in document 01's order: what is added to it in `words`, then the Rust itself.

use crate::case::{Call, Case, Room, ENDS, IDS, LENGTHS, POSITIONS, POSITION_COUNTS, POSTING_COUNTS, POSTING_IDS};
use crate::numbers::refusal;
use crate::reply::Refusal;
use crate::words;
use postings::positional::raw::{write_positional_segment, Error, RawPositionalSegment};
use postings::positional::{PositionalPosting, PositionalTermPostings};

/// Where a refusal came from.
#[derive(Clone, Copy, Debug, PartialEq, Eq)]
pub enum Stage {
    Arguments,
    Opening,
    Entry,
    List,
    Writing,
    Room,
}

pub type Refused = (Stage, Refusal);

/// A whole answer, before any buffer is looked at.
#[derive(Debug, Default, PartialEq, Eq)]
pub struct Answer {
    pub first: u64,
    pub second: u64,
    pub places: [Vec<u32>; 3],
    pub bytes: Vec<u8>,
}

/// A segment opened once for many questions.
pub struct Opened<'a> {
    pub bytes: &'a [u8],
    pub segment: Result<RawPositionalSegment<'a>, Refused>,
}

impl<'a> Opened<'a> {
    pub fn new(bytes: &'a [u8]) -> Self {
        let segment = RawPositionalSegment::open(bytes).map_err(|error| {
            let refusal = refusal(&error);
            (opening_stage(bytes, refusal), refusal)
        });
        Opened { bytes, segment }
    }
}

// Ranges are tested in the header and again in each entry, with the same numbers: an entry's comes only after the header's fit.
fn opening_stage(bytes: &[u8], refusal: Refusal) -> Stage {
    let of_range = refusal.kind == 1 || (refusal.kind == 6 && refusal.which == 2);
    let of_entry = refusal.kind == 10 || (refusal.kind == 6 && refusal.which >= 6);
    if of_entry || (of_range && bytes.len() >= 72 && header_fits(bytes)) {
        Stage::Entry
    } else {
        Stage::Opening
    }
}

fn header_fits(bytes: &[u8]) -> bool {
    let length = |at: usize| u128::from(u64::from_le_bytes(bytes[at..at + 8].try_into().unwrap()));
    72 + length(24) + length(32) + length(40) + length(48) == bytes.len() as u128
}

fn in_arguments(refusal: Refusal) -> Refused {
    (Stage::Arguments, refusal)
}

fn in_list(error: Error) -> Refused {
    (Stage::List, refusal(&error))
}

fn ids(ids: Vec<u32>) -> Answer {
    Answer { first: ids.len() as u64, places: [ids, Vec::new(), Vec::new()], ..Answer::default() }
}

pub fn answer(case: &Case, opened: &Opened) -> Result<Answer, Refused> {
    let segment = || opened.segment.as_ref().map_err(|refused| *refused);
    let name = || words::single_names([case.text]).map(|[name]| name).map_err(in_arguments);
    match case.call {
        Call::Open => {
            let documents = segment()?.document_lengths().len() as u64;
            let terms = u32::from_le_bytes(case.segment[20..24].try_into().unwrap());
            Ok(Answer { first: documents, second: terms.into(), ..Answer::default() })
        }
        Call::DocumentLengths => {
            let (ids, lengths): (Vec<u32>, Vec<u32>) = segment()?.document_lengths().iter().copied().unzip();
            Ok(Answer { first: ids.len() as u64, places: [ids, lengths, Vec::new()], ..Answer::default() })
        }
        Call::DocumentLen => {
            let length = segment()?.document_len(case.number);
            Ok(Answer { first: length.is_some().into(), second: length.unwrap_or(0).into(), ..Answer::default() })
        }
        Call::Df => {
            let name = name()?;
            Ok(Answer { first: segment()?.df(name).into(), ..Answer::default() })
        }
        Call::DocsWithTerm => {
            let name = name()?;
            segment()?.docs_with_term(name).map(ids).map_err(in_list)
        }
        Call::TermPostings => {
            let name = name()?;
            let postings = segment()?.term_postings(name).map_err(in_list)?;
            let ids: Vec<u32> = postings.iter().map(|p| p.doc_id).collect();
            let counts = postings.iter().map(|p| p.positions.len() as u32).collect();
            let positions: Vec<u32> = postings.iter().flat_map(|p| p.positions.iter().copied()).collect();
            let (first, second) = (ids.len() as u64, positions.len() as u64);
            Ok(Answer { first, second, places: [ids, counts, positions], bytes: Vec::new() })
        }
        Call::Positions => {
            let name = name()?;
            segment()?.positions(name, case.number).map(ids).map_err(in_list)
        }
        Call::Phrase => {
            let names = words::question(case).map_err(in_arguments)?;
            segment()?.phrase_match_strs(&names).map(ids).map_err(in_list)
        }
        Call::Near => {
            let [a, b] = words::single_names([case.text, case.second]).map_err(in_arguments)?;
            segment()?.near_match(a, b, case.number).map(ids).map_err(in_list)
        }
        Call::NearTerms => {
            let names = words::question(case).map_err(in_arguments)?;
            segment()?.near_match_terms_strs(&names, case.number, case.ordered).map(ids).map_err(in_list)
        }
        Call::Write => write(case),
    }
}

// The Rust goes term by term, so a name that is not UTF-8 is reached when the terms before it are written.
fn write(case: &Case) -> Result<Answer, Refused> {
    words::writer_lists(case).map_err(in_arguments)?;
    let lists = &case.lists;
    let documents: Vec<(u32, u32)> = lists[IDS].iter().copied().zip(lists[LENGTHS].iter().copied()).collect();
    let mut terms = Vec::with_capacity(lists[ENDS].len());
    let (mut posting, mut position) = (0usize, 0usize);
    let mut foreign = false;
    for (name, count) in words::names(case.text, lists[ENDS]).zip(lists[POSTING_COUNTS]) {
        let Ok(term) = std::str::from_utf8(name) else {
            foreign = true;
            break;
        };
        let mut postings = Vec::with_capacity(*count as usize);
        for _ in 0..*count {
            let steps = lists[POSITION_COUNTS][posting] as usize;
            let positions = &lists[POSITIONS][position..position + steps];
            postings.push(PositionalPosting { doc_id: lists[POSTING_IDS][posting], positions });
            posting += 1;
            position += steps;
        }
        terms.push(PositionalTermPostings { term, postings });
    }
    let bytes = write_positional_segment(&documents, &terms).map_err(|error| (Stage::Writing, refusal(&error)))?;
    if foreign {
        return Err((Stage::Writing, words::NOT_UTF8));
    }
    Ok(Answer { first: bytes.len() as u64, bytes, ..Answer::default() })
}

/// 13 comes last, when nothing else refuses.
pub fn in_room<'r>(case: &Case, found: &'r Result<Answer, Refused>, room: Room) -> Result<&'r Answer, Refused> {
    let answer = found.as_ref().map_err(|refused| *refused)?;
    let n = case.call.buffers();
    let told = match case.call {
        Call::Write => words::room(&[answer.bytes.len()], &[room.bytes]),
        _ => words::room(&answer.places.each_ref().map(Vec::len)[..n], &room.places[..n]),
    };
    told.map_err(|refusal| (Stage::Room, refusal))?;
    Ok(answer)
}
