//! How loud a made file's notes were struck, note by note and step by step: what the velocities have to be, and what equal hits had.

use super::answer::Answer;
use super::made::Struck;
use crate::case::{POSITIONS, POSITION_COUNTS, POSTING_COUNTS, POSTING_IDS};
use std::collections::HashMap;

/// The strokes of each note on each step, as they come in the file, each with its place there.
pub struct Loud {
    strokes: HashMap<(u8, u64), Vec<(usize, Struck)>>,
}

/// What equal hits on one step can have, and the velocities of a file; the run counts it over the made files that are accepted.
type Clause = (&'static str, fn(&[(usize, Struck)]) -> bool);

pub const CLAUSES: [Clause; 15] = [
    ("velocity 1", |all| loudest(all) == 1),
    ("velocity 127", |all| loudest(all) == 127),
    ("two equal hits, the first louder", |all| all.len() == 2 && velocity(all, 0) > velocity(all, 1)),
    ("two equal hits, the second louder", |all| all.len() == 2 && velocity(all, 0) < velocity(all, 1)),
    ("two equal hits of one velocity", |all| all.len() == 2 && velocity(all, 0) == velocity(all, 1)),
    ("three or more equal hits, the first alone the loudest", |all| all.len() > 2 && alone(all) == Some(0)),
    ("three or more equal hits, the last alone the loudest", |all| all.len() > 2 && alone(all) == Some(all.len() - 1)),
    ("three or more equal hits, one between alone the loudest", |all| alone(all).is_some_and(|at| at > 0 && at + 1 < all.len())),
    ("three or more equal hits, two of them the loudest", |all| all.len() > 2 && alone(all).is_none()),
    ("five or more equal hits", |all| all.len() > 4),
    ("equal hits, the loudest on another channel than the first", |all| {
        differs(all, |one, loudest| one.channel != loudest.channel)
    }),
    ("equal hits, the loudest on another tick than the first", |all| differs(all, |one, loudest| one.tick != loudest.tick)),
    ("equal hits, the loudest on the last tick of the step", |all| {
        all.len() > 1 && all.iter().any(|(_, one)| one.velocity == loudest(all) && one.last_tick && one.tick > all[0].1.tick)
    }),
    ("equal hits of velocities 1 and 127", |all| {
        [1, 127].iter().all(|velocity| all.iter().any(|(_, one)| one.velocity == *velocity))
    }),
    ("equal hits with other notes between them", |all| all.windows(2).any(|pair| pair[1].0 > pair[0].0 + 1)),
];

fn velocity(all: &[(usize, Struck)], at: usize) -> u8 {
    all[at].1.velocity
}

fn loudest(all: &[(usize, Struck)]) -> u8 {
    let mut velocities: Vec<u8> = all.iter().map(|(_, one)| one.velocity).collect();
    velocities.sort_unstable();
    velocities.pop().unwrap_or(0)
}

/// The place of the loudest, if no other is as loud.
fn alone(all: &[(usize, Struck)]) -> Option<usize> {
    let places: Vec<usize> = (0..all.len()).filter(|at| velocity(all, *at) == loudest(all)).collect();
    if let [at] = places[..] {
        Some(at)
    } else {
        None
    }
}

/// Whether the only loudest is not the first, and differs so from it.
fn differs(all: &[(usize, Struck)], is: impl Fn(&Struck, &Struck) -> bool) -> bool {
    alone(all).is_some_and(|at| is(&all[0].1, &all[at].1))
}

impl Loud {
    pub fn of(step: u64, struck: &[Struck]) -> Self {
        let mut strokes: HashMap<(u8, u64), Vec<(usize, Struck)>> = HashMap::new();
        for (place, one) in struck.iter().enumerate() {
            strokes.entry((one.note, one.tick / step)).or_default().push((place, *one));
        }
        Loud { strokes }
    }

    /// Whether each position of the lists has beside it the loudest stroke of its sound on its step.
    pub fn beside(&self, answer: &Answer) -> bool {
        let lists = &answer.flat.lists;
        let (mut postings, mut steps) = (lists[POSTING_IDS].iter().zip(&lists[POSITION_COUNTS]), lists[POSITIONS].iter());
        let mut velocities = answer.velocities.iter();
        for (name, count) in answer.flat.text.chunks(4).zip(&lists[POSTING_COUNTS]) {
            let note: Option<u8> = std::str::from_utf8(&name[1..]).ok().and_then(|digits| digits.parse().ok());
            for (bar, count) in postings.by_ref().take(*count as usize) {
                for position in steps.by_ref().take(*count as usize) {
                    let step = u64::from(*bar) * 16 + u64::from(*position);
                    let strokes = note.and_then(|note| self.strokes.get(&(note, step)));
                    if strokes.map(|all| loudest(all)) != velocities.next().copied() {
                        return false;
                    }
                }
            }
        }
        velocities.next().is_none()
    }

    /// By clause, on how many steps of a note it holds.
    pub fn counts(&self) -> [u64; CLAUSES.len()] {
        CLAUSES.map(|(_, holds)| self.strokes.values().filter(|all| holds(all)).count() as u64)
    }
}
