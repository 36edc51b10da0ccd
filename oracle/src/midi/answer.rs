//! What `pstp_midi_bars` has to answer: the hits as the lists that the writer takes and their velocities, in the nine buffers' order.

use super::clause::{Broken, Clause};
use super::model::{self, Hits, BAR_LENGTH};
use crate::case::{ENDS, IDS, LENGTHS, POSITIONS, POSITION_COUNTS, POSTING_COUNTS, POSTING_IDS};
use crate::given::{Flat, Given, Posting, Term};
use crate::reply::{Refusal, Reply};
use crate::words;
use std::collections::BTreeMap;

pub const BUFFERS: [&str; 9] =
    ["ids", "lengths", "text", "ends", "posting_counts", "posting_ids", "position_counts", "positions", "velocities"];
/// The buffers of bytes; the seven others are of u32, and hold these of the writer's lists.
pub const TEXT: usize = 2;
pub const VELOCITIES: usize = 8;
pub const NUMBERS: [(usize, usize); 7] =
    [(0, IDS), (1, LENGTHS), (3, ENDS), (4, POSTING_COUNTS), (5, POSTING_IDS), (6, POSITION_COUNTS), (7, POSITIONS)];

/// How many places each of the nine buffers has.
pub type Room = [usize; 9];

/// A whole answer, before any buffer is looked at.
#[derive(Debug, Default)]
pub struct Answer {
    pub hits: Hits,
    pub flat: Flat,
    /// side by side with the positions
    pub velocities: Vec<u8>,
}

/// Why a call is refused: the file, or a buffer.
#[derive(Clone, Copy, Debug, PartialEq, Eq, PartialOrd, Ord)]
pub enum Why {
    File(Clause),
    /// the buffer's place from 1
    NoRoom(u32),
}

pub type Found = Result<Answer, Broken>;
pub type Told<'a> = Result<&'a Answer, (Why, Refusal)>;

/// The sound "n" with the note as three decimal digits.
pub fn sound(note: u8) -> String {
    format!("n{note:03}")
}

/// Every bar from 0 to the last with a hit; under each sound its bars, under each of these its positions.
fn given(hits: &Hits) -> Given {
    let bars = hits.keys().map(|hit| hit.bar + 1).max().unwrap_or(0);
    let mut sounds: BTreeMap<u8, BTreeMap<u32, Vec<u32>>> = BTreeMap::new();
    for hit in hits.keys() {
        sounds.entry(hit.note).or_default().entry(hit.bar).or_default().push(hit.position);
    }
    let postings = |bars: BTreeMap<u32, Vec<u32>>| bars.into_iter().map(|(id, positions)| Posting { id, positions }).collect();
    Given {
        documents: (0..bars).map(|bar| (bar, BAR_LENGTH)).collect(),
        terms: sounds.into_iter().map(|(note, bars)| Term { name: sound(note).into(), postings: postings(bars) }).collect(),
    }
}

pub fn found(file: &[u8]) -> Found {
    let hits = model::hits(file)?;
    let flat = given(&hits).flat();
    // by note, then bar, then position: the order in which the lists have the positions
    let velocities = hits.values().copied().collect();
    Ok(Answer { hits, flat, velocities })
}

impl Answer {
    pub fn needed(&self) -> Room {
        let mut room = [0; 9];
        for (buffer, list) in NUMBERS {
            room[buffer] = self.flat.lists[list].len();
        }
        room[TEXT] = self.flat.text.len();
        room[VELOCITIES] = self.velocities.len();
        room
    }

    /// Bars, sounds, postings and positions.
    pub fn reply(&self) -> Reply {
        let [first, second, third, fourth] = [IDS, ENDS, POSTING_IDS, POSITIONS].map(|list| self.flat.lists[list].len() as u64);
        Reply { first, second, third, fourth, ..Reply::accepted(0, 0) }
    }
}

/// Exactly as much as the answer needs; where there is none, some places, which have to be left as they were.
pub fn full_room(found: &Found) -> Room {
    found.as_ref().map_or([6; 9], Answer::needed)
}

/// What has to be told with buffers of these lengths.
pub fn in_room(found: &Found, room: Room) -> Told<'_> {
    match found {
        Ok(answer) => {
            words::room(&answer.needed(), &room).map_err(|refusal| (Why::NoRoom(refusal.which), refusal))?;
            Ok(answer)
        }
        Err(broken) => Err((Why::File(broken.clause), (*broken).into())),
    }
}

pub fn reply(told: Told) -> Reply {
    match told {
        Ok(answer) => answer.reply(),
        Err((_, refusal)) => refusal.into(),
    }
}
