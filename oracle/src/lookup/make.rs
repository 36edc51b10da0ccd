//! Random lists of ids and lengths. The maker knows the answer: it draws ids that rise, and where they are not to, it chooses the place.

use super::model::Lists;
use crate::random::Random;
use crate::reply::Refusal;
use std::collections::BTreeMap;

/// What the maker knows of every lookup in its lists.
pub enum Known {
    /// The length of each id.
    Rising(BTreeMap<u32, u32>),
    Refused(Refusal),
    Nothing,
}

pub struct Made {
    pub lists: Lists,
    pub known: Known,
}

pub fn not_rising(place: usize) -> Refusal {
    Refusal::new(21, 0, place as u64)
}

/// Few ids mostly; often as many as a power of two, or one beside that, where a binary search could end wrongly.
fn count(random: &mut Random) -> usize {
    match random.below(100) {
        0..=2 => 0,
        3..=6 => 1,
        7..=49 => random.below(8) + 2,
        50..=74 => random.below(60) + 10,
        75..=94 => (1 << (random.below(8) + 3)) + random.below(3) - 1,
        95..=98 => random.below(3000),
        _ => random.below(9000),
    }
}

/// Where the ids begin: at 0, near it, at a number's width, so that they pass 2^31, or anywhere.
fn start(random: &mut Random, count: usize) -> u32 {
    match random.below(5) {
        0 => 0,
        1 => random.small(0, 3),
        2 => random.edge(),
        3 => (1 << 31) - random.below(2 * count + 2) as u32,
        _ => random.next() as u32,
    }
}

/// Rising ids: 1 apart, a little apart, far apart, in runs, by the widths of numbers; the other way round they end at 2^32 - 1.
pub fn rising(random: &mut Random) -> Vec<u32> {
    let count = count(random);
    let style = random.below(6);
    let far = (u32::MAX as usize / (count + 1)).max(1);
    let mut next = Some(start(random, count));
    let mut ids = Vec::with_capacity(count);
    while let Some(id) = next.filter(|_| ids.len() < count) {
        ids.push(id);
        let gap = match style {
            0 => 1,
            1 => random.small(1, 3),
            2 => 1 + random.below(far) as u32,
            3 => random.edge().max(1),
            4 if random.chance(85) => 1,
            4 => 1 + (random.next() >> 44) as u32,
            _ => 1 + (random.next() >> random.pick(&[34, 44, 54, 62])) as u32,
        };
        next = id.checked_add(gap);
    }
    if random.chance(25) {
        ids = ids.into_iter().rev().map(|id| u32::MAX - id).collect();
    }
    ids
}

/// One for each id: any, in a row, the ids themselves or their neighbours', all the same; 0 among them.
pub fn lengths(random: &mut Random, ids: &[u32]) -> Vec<u32> {
    let style = random.below(7);
    let same = random.edge();
    let of = |(place, id): (usize, &u32)| match style {
        0 => place as u32,
        1 => random.next() as u32,
        2 => random.edge(),
        3 => *id,
        4 => ids.get(place + 1).copied().unwrap_or(0),
        5 => random.small(0, 1),
        _ => same,
    };
    ids.iter().enumerate().map(of).collect()
}

/// Makes the id on this place one that is not above the one before it, which is left.
fn lower(random: &mut Random, ids: &mut [u32], place: usize) {
    let before = ids[place - 1];
    ids[place] = match random.below(6) {
        0 | 1 => before,
        2 => before.saturating_sub(1),
        3 => 0,
        4 => ids[random.below(place)].min(before),
        _ => random.below(before as usize + 1) as u32,
    };
}

/// Rising ids of which the one on a place is the first that is not above the one before it: often the second or the last.
fn spoil(random: &mut Random, ids: &mut Vec<u32>) -> usize {
    let last = ids.len() - 1;
    let place = match random.below(5) {
        0 => 1,
        1 => last,
        _ => 1 + random.below(last),
    };
    match random.below(10) {
        0 => ids.swap(place - 1, place),
        // the one before it is raised
        1 => ids[place - 1] = ids[place] + random.below((u32::MAX - ids[place]) as usize + 1) as u32,
        2 => ids.insert(place, ids[random.below(place)]),
        _ => lower(random, ids, place),
    }
    // and others behind it
    if random.chance(40) && place < last {
        for _ in 0..random.below(4) + 1 {
            let behind = place + 1 + random.below(last - place);
            lower(random, ids, behind);
        }
    }
    place
}

/// Ids in any order: turned round, all the same, exchanged, any, past the end of u32 and on from 0, as signed numbers rise.
fn disorder(random: &mut Random, ids: &mut [u32]) {
    let n = ids.len();
    match random.below(6) {
        0 => ids.reverse(),
        1 => ids.fill(ids[0]),
        2 => (1..n).for_each(|i| ids.swap(i, random.below(i + 1))),
        3 => ids.fill_with(|| random.next() as u32),
        4 => {
            let gap = 1 + random.below(u32::MAX as usize / n) as u32;
            let start = random.next() as u32;
            (0..n as u32).for_each(|i| ids[i as usize] = start.wrapping_add(i.wrapping_mul(gap)));
        }
        _ => ids.sort_unstable_by_key(|id| *id as i32),
    }
}

/// Lengths that are too few or too many for so many ids.
fn unfit(random: &mut Random, lengths: &mut Vec<u32>) {
    let n = lengths.len();
    let other = match random.below(6) {
        0 => n + 1,
        1 | 2 => n.saturating_sub(1),
        3 => 0,
        4 => random.below(2 * n + 2),
        _ => n + random.below(70),
    };
    lengths.resize(if other == n { n + 1 } else { other }, random.next() as u32);
}

pub fn made(random: &mut Random) -> Made {
    let mut ids = rising(random);
    let several = ids.len() > 1;
    let mut known = match random.below(10) {
        0..=2 if several => Known::Refused(not_rising(spoil(random, &mut ids))),
        3 if several => {
            disorder(random, &mut ids);
            Known::Nothing
        }
        _ => Known::Rising(BTreeMap::new()),
    };
    let mut lengths = lengths(random, &ids);
    if let Known::Rising(map) = &mut known {
        map.extend(ids.iter().copied().zip(lengths.iter().copied()));
    }
    if random.chance(8) {
        unfit(random, &mut lengths);
        known = Known::Refused(Refusal::of_kind(11));
    }
    Made { lists: Lists { ids, lengths }, known }
}

/// An id, and those beside it.
fn around(id: u32) -> [u32; 3] {
    [id, id.wrapping_sub(1), id.wrapping_add(1)]
}

/// Ids to ask for: those of the list, of a long one some, first, middle and last among them; beside each; ends of u32; lengths.
pub fn asked(random: &mut Random, lists: &Lists) -> Vec<u32> {
    let Lists { ids, lengths } = lists;
    let n = ids.len();
    let mut all = vec![0, u32::MAX, 1 << 31, random.next() as u32, random.edge()];
    all.extend(lengths.get(random.below(lengths.len().max(1))));
    if n <= 24 {
        all.extend(ids.iter().flat_map(|id| around(*id)));
    } else {
        let mut places = vec![0, 1, n / 2 - 1, n / 2, n - 2, n - 1];
        places.extend((0..8).map(|_| random.below(n)));
        all.extend(places.into_iter().flat_map(|place| around(ids[place])));
    }
    all.sort_unstable();
    all.dedup();
    all
}
