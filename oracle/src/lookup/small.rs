//! Whole small spaces: every short list of a few ids, every choice of neighbouring ids, every place that an id can fail on.

use super::compare::Lookups;
use super::make::{not_rising, Known, Made};
use super::model::Lists;
use std::collections::BTreeMap;

const MIDDLE: u32 = 1 << 31;
const LAST: u32 = u32::MAX;
const IDS: [u32; 8] = [0, 1, 2, 7, MIDDLE - 1, MIDDLE, LAST - 1, LAST];
/// The ids, and those beside them.
const ASKED: [u32; 14] = [0, 1, 2, 3, 6, 7, 8, MIDDLE - 2, MIDDLE - 1, MIDDLE, MIDDLE + 1, LAST - 2, LAST - 1, LAST];
/// Lengths, no two neighbours the same, so that the one beside another id is told apart.
const LENGTHS: [u32; 7] = [16, 0, LAST, 7, MIDDLE, 1, 64];

/// So many lengths, from a turn on.
fn some_lengths(count: usize, turn: usize) -> Vec<u32> {
    (turn..turn + count).map(|i| LENGTHS[i % LENGTHS.len()]).collect()
}

/// Every list of up to so many ids out of eight, with as many lengths; up to four ids also with every other number of lengths up to 5.
fn lists(lookups: &mut Lookups, most: u32) {
    for count in 0..=most {
        for choice in 0..IDS.len().pow(count) {
            let ids: Vec<u32> = (0..count).map(|i| IDS[choice / IDS.len().pow(i) % IDS.len()]).collect();
            let mut given = Lists { lengths: some_lengths(ids.len(), choice), ids };
            ask_all(lookups, &given, &ASKED);
            for other in (0..=5).filter(|other| count <= 4 && *other != given.ids.len()) {
                given.lengths = some_lengths(other, choice);
                ask_all(lookups, &given, &[IDS[choice % IDS.len()], 7]);
            }
        }
    }
}

fn ask_all(lookups: &mut Lookups, lists: &Lists, asked: &[u32]) {
    for id in asked {
        drop(lookups.run(lists, *id));
    }
}

/// Every choice out of so many neighbouring ids: at 0, around 2^31 and up to 2^32 - 1; each of them asked for, and those beside.
fn choices(lookups: &mut Lookups, neighbours: u32) {
    for first in [0, MIDDLE - neighbours / 2, LAST - (neighbours - 1)] {
        for choice in 0..1u32 << neighbours {
            let ids: Vec<u32> = (0..neighbours).filter(|i| choice >> i & 1 == 1).map(|i| first + i).collect();
            let lengths = some_lengths(ids.len(), choice as usize);
            let known: BTreeMap<u32, u32> = ids.iter().copied().zip(lengths.iter().copied()).collect();
            let made = Made { lists: Lists { ids, lengths }, known: Known::Rising(known) };
            for i in 0..neighbours + 2 {
                lookups.ask(&made, first.wrapping_add(i).wrapping_sub(1));
            }
        }
    }
}

/// Every number of ids up to so many, and every place on which the first is not above the one before it, in several ways.
fn places(lookups: &mut Lookups, most: u32) {
    for count in 2..=most {
        let rising: Vec<u32> = (0..count).map(|i| 3 * i + 2).collect();
        for place in 1..count as usize {
            let (before, here) = (rising[place - 1], rising[place]);
            // it is lowered, or the one before it raised
            let edits =
                [(place, before), (place, before - 1), (place, 0), (place - 1, here), (place - 1, here + 1), (place - 1, LAST)];
            for (turn, (at, id)) in edits.into_iter().enumerate() {
                let mut ids = rising.clone();
                ids[at] = id;
                let lists = Lists { lengths: some_lengths(ids.len(), turn + place), ids };
                let asked = [0, rising[0], before, here, *rising.last().expect("two at least"), id, id.wrapping_add(1)];
                let made = Made { lists, known: Known::Refused(not_rising(place)) };
                asked.into_iter().for_each(|id| lookups.ask(&made, id));
            }
        }
    }
}

/// Lists of up to 5 ids, 10 neighbours, up to 40 ids; with the whole space 6, 14 and 130.
pub fn all(lookups: &mut Lookups, whole: bool) {
    lists(lookups, if whole { 6 } else { 5 });
    choices(lookups, if whole { 14 } else { 10 });
    places(lookups, if whole { 130 } else { 40 });
}
