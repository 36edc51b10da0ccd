//! Lists of 16,777,216 elements and of one more, in either place, with everything else right and wrong.

use super::compare::Lookups;
use super::make::not_rising;
use super::model::{Lists, LARGEST};
use crate::reply::{Refusal, Reply};

const LAST_PLACE: usize = LARGEST - 1;

/// Two apart, so that each has an absent one beside it.
fn ids(count: usize) -> Vec<u32> {
    (0..count as u32).map(|i| 2 * i + 1).collect()
}

/// All different, the first 0.
fn lengths(count: usize) -> Vec<u32> {
    (0..count as u32).map(|i| i.wrapping_mul(2_654_435_761)).collect()
}

/// As many as there may be: the ends, the middle and what is beside them; then one that is not above the one before it, and another.
fn at_the_limit(lookups: &mut Lookups) {
    let mut lists = Lists { ids: ids(LARGEST), lengths: lengths(LARGEST) };
    for place in [0, 1, LARGEST / 2 - 1, LARGEST / 2, LAST_PLACE - 1, LAST_PLACE] {
        let id = lists.ids[place];
        lookups.expect(&lists, id, Reply::accepted(1, lists.lengths[place].into()));
        lookups.expect(&lists, id + 1, Reply::accepted(0, 0));
    }
    lookups.expect(&lists, 0, Reply::accepted(0, 0));
    lookups.expect(&lists, u32::MAX, Reply::accepted(0, 0));
    let last = lists.ids[LAST_PLACE];
    for (place, id) in [(LAST_PLACE, lists.ids[LAST_PLACE - 1]), (LARGEST / 2, 0), (1, 1)] {
        lists.ids[place] = id;
        for asked in [1, id, last, 0] {
            lookups.expect(&lists, asked, not_rising(place).into());
        }
    }
}

/// Numbers of ids and of lengths, either or both one too many.
const TOO_MANY: [[usize; 2]; 7] = [
    [LARGEST + 1, LARGEST + 1],
    [LARGEST + 1, LARGEST],
    [LARGEST, LARGEST + 1],
    [LARGEST + 1, 0],
    [0, LARGEST + 1],
    [LARGEST + 1, 2],
    [2, LARGEST + 1],
];

/// 12, also where the lists differ in length, where the ids do not rise, and where the id is there.
fn beyond(lookups: &mut Lookups) {
    for [ids_count, lengths_count] in TOO_MANY {
        let mut lists = Lists { ids: ids(ids_count), lengths: lengths(lengths_count) };
        for id in [1, 0] {
            lookups.expect(&lists, id, Refusal::of_kind(12).into());
        }
        if let Some(second) = lists.ids.get_mut(1) {
            *second = 1;
            lookups.expect(&lists, 1, Refusal::of_kind(12).into());
        }
    }
}

/// As many as there may be in one list, and not in the other: 11.
fn beside_the_limit(lookups: &mut Lookups) {
    for [ids_count, lengths_count] in [[LARGEST, LAST_PLACE], [LAST_PLACE, LARGEST], [LARGEST, 0], [0, LARGEST]] {
        let lists = Lists { ids: ids(ids_count), lengths: lengths(lengths_count) };
        lookups.expect(&lists, 1, Refusal::of_kind(11).into());
    }
}

pub fn all(lookups: &mut Lookups) {
    at_the_limit(lookups);
    beyond(lookups);
    beside_the_limit(lookups);
}
