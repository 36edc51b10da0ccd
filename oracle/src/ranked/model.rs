//! The ranked answer, from the words of document 02's wish 5. Opening and decoding are the Rust's; starts, order and room are written here.

use crate::case::Case;
use crate::numbers::refusal;
use crate::reply::{Refusal, Reply};
use crate::rust::{Opened, Refused, Stage};
use crate::words;
use postings::positional::raw::RawPositionalPosting;
use std::cmp::Ordering;
use std::panic::{catch_unwind, AssertUnwindSafe};

/// A found bar, and at how many different starts the phrase fits there.
#[derive(Clone, Copy, Debug, PartialEq, Eq)]
pub struct Match {
    pub id: u32,
    pub count: u32,
}

/// "most first, ties by the lower id": the one place that knows the order.
pub fn best_first(a: &Match, b: &Match) -> Ordering {
    b.count.cmp(&a.count).then(a.id.cmp(&b.id))
}

/// A whole answer, before any buffer is looked at.
#[derive(Debug, Default)]
pub struct Ranking {
    pub ids: Vec<u32>,
    pub counts: Vec<u32>,
    /// how near two starts of one bar come, if some bar has two
    pub nearest: Option<u32>,
    /// a position of the first name from which the phrase would run past 2^32 - 1
    pub runs_over: bool,
}

impl Ranking {
    /// The matches in their order, as two lists.
    pub fn of(mut matches: Vec<Match>) -> Self {
        matches.sort_by(best_first);
        let (ids, counts) = matches.iter().map(|found| (found.id, found.count)).unzip();
        Ranking { ids, counts, ..Ranking::default() }
    }
}

pub type Found = Result<Ranking, Refused>;

/// How long the buffers for ids and counts are.
pub type Lengths = [usize; 2];

type List = Vec<RawPositionalPosting>;

/// A bar's own positions in a list; none if it is not there.
fn own(list: &List, id: u32) -> &[u32] {
    list.binary_search_by_key(&id, |posting| posting.doc_id).map_or(&[], |at| &list[at].positions)
}

/// The starts s, positions of the first name, for which every name i stands on s + i.
fn starts(own: &[&[u32]]) -> Vec<u32> {
    let fits = |start: u32| {
        let mut places = own.iter().zip(0u32..);
        places.all(|(positions, i)| start.checked_add(i).is_some_and(|position| positions.binary_search(&position).is_ok()))
    };
    own[0].iter().copied().filter(|start| fits(*start)).collect()
}

/// The list of each name, by its place in the phrase; every different name is decoded once, in the order named.
fn decoded(names: &[&str], opened: &Opened) -> Result<(Vec<List>, Vec<usize>), Refused> {
    let segment = opened.segment.as_ref().map_err(|refused| *refused)?;
    let (mut lists, mut known, mut places) = (Vec::new(), Vec::new(), Vec::new());
    for name in names {
        let place = match known.iter().position(|other| other == name) {
            Some(place) => place,
            None => {
                lists.push(segment.term_postings(name).map_err(|error| (Stage::List, refusal(&error)))?);
                known.push(*name);
                known.len() - 1
            }
        };
        places.push(place);
    }
    Ok((lists, places))
}

/// The whole answer, or the first refusal: 12, 11, 10, opening, then every different name's list.
fn answer(case: &Case, opened: &Opened) -> Found {
    let names = words::question(case).map_err(|refusal| (Stage::Arguments, refusal))?;
    let (lists, places) = decoded(&names, opened)?;
    let Some(first) = places.first() else { return Ok(Ranking::default()) };
    let (mut matches, mut nearest, mut runs_over) = (Vec::new(), None, false);
    for posting in &lists[*first] {
        let own: Vec<&[u32]> = places.iter().map(|place| own(&lists[*place], posting.doc_id)).collect();
        let starts = starts(&own);
        if !starts.is_empty() {
            matches.push(Match { id: posting.doc_id, count: starts.len() as u32 });
        }
        nearest = starts.windows(2).map(|pair| pair[1] - pair[0]).chain(nearest).min();
        runs_over |= posting.positions.last().is_some_and(|last| last.checked_add(names.len() as u32 - 1).is_none());
    }
    Ok(Ranking { nearest, runs_over, ..Ranking::of(matches) })
}

/// The answer; a fault of the Rust itself becomes a refusal that no call gives.
pub fn found(case: &Case, opened: &Opened) -> Found {
    let fault = (Stage::Arguments, Refusal::of_kind(99));
    catch_unwind(AssertUnwindSafe(|| answer(case, opened))).unwrap_or(Err(fault))
}

/// 13 comes last, "and looks at ids, then counts"; its index is the number of bars found.
pub fn in_room(found: &Found, [ids, counts]: Lengths) -> Result<&Ranking, Refused> {
    let ranking = found.as_ref().map_err(|refused| *refused)?;
    let needed = ranking.ids.len();
    let no_room = |which: u32| Err((Stage::Room, Refusal::new(13, which, needed as u64)));
    if needed > ids {
        no_room(1)
    } else if needed > counts {
        no_room(2)
    } else {
        Ok(ranking)
    }
}

pub fn reply(told: Result<&Ranking, Refused>) -> Reply {
    match told {
        Ok(ranking) => Reply::accepted(ranking.ids.len() as u64, 0),
        Err((_, refusal)) => refusal.into(),
    }
}
