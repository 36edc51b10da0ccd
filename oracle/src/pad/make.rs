//! Random bars, lists with faults, rooms and names.

use super::call::{Call, Lists};
use super::model::{used, Hit, Map, SOUNDS};
use crate::questions::ends_of;
use crate::random::Random;
use std::collections::BTreeSet;

/// Different ids: small ones, ones side by side, anywhere, and the ends of u32.
pub fn ids(random: &mut Random, count: usize) -> Vec<u32> {
    let style = random.below(4);
    let mut ids = BTreeSet::new();
    while ids.len() < count {
        ids.insert(match style {
            0 => random.below(count + count / 4 + 1) as u32,
            1 => random.next() as u32,
            2 => u32::MAX - random.below(2 * count) as u32,
            _ if random.chance(20) => random.edge(),
            _ => random.next() as u32 >> random.below(25),
        });
        if random.chance(3) {
            ids.insert(random.pick(&[0, u32::MAX]));
        }
    }
    let mut ids: Vec<u32> = ids.into_iter().collect();
    while ids.len() > count {
        ids.swap_remove(random.below(ids.len()));
    }
    for i in (1..ids.len()).rev() {
        ids.swap(i, random.below(i + 1));
    }
    ids
}

pub fn length(random: &mut Random) -> u32 {
    match random.below(12) {
        0 => random.pick(&[0, 0, 1, 2]),
        1 => u32::MAX,
        2 => random.edge(),
        3 => random.next() as u32,
        _ => random.pick(&[3, 4, 16, 16, 32, 64]),
    }
}

fn step(random: &mut Random, length: u32) -> u32 {
    match random.below(8) {
        0 => length - 1,
        1 => 0,
        2 => random.below(length as usize) as u32,
        _ => random.below(length.min(16) as usize) as u32,
    }
}

/// The ends of the range, or any.
fn velocity(random: &mut Random) -> u8 {
    match random.below(6) {
        0 => 1,
        1 => 127,
        _ => random.small(1, 127) as u8,
    }
}

/// Hits on these places, each with a velocity.
fn struck(random: &mut Random, places: impl IntoIterator<Item = (u8, u32)>) -> Vec<Hit> {
    places.into_iter().map(|(sound, step)| (sound, step, velocity(random))).collect()
}

/// So many different hits below a length, by sound, then step; fewer where the length does not have them.
pub fn hits(random: &mut Random, count: usize, length: u32) -> Vec<Hit> {
    let most = (u64::from(length) * SOUNDS as u64).min(count as u64) as usize;
    let few = random.pick(&[1, 2, 4, 128]);
    let from = random.below(SOUNDS - few + 1);
    let mut hits = BTreeSet::new();
    for _ in 0..if most <= 64 { 4 * most } else { 0 } {
        if hits.len() < most {
            hits.insert(((from + random.below(few)) as u8, step(random, length)));
        }
    }
    if most > 64 {
        // as many steps as are needed on each sound, from the first or up to the last
        let each = most.div_ceil(SOUNDS).max(random.pick(&[1, 16, 64, 256])).min(length as usize) as u32;
        let low = if random.chance(30) { length - each } else { 0 };
        let all = (0..SOUNDS as u8).flat_map(|sound| (low..low + each).map(move |step| (sound, step)));
        hits.extend(all.take(most));
    }
    struck(random, hits)
}

/// Exactly so many hits, which the length has room for.
pub fn exactly(random: &mut Random, count: usize, length: u32) -> Vec<Hit> {
    let hits = hits(random, count, length);
    if hits.len() == count {
        return hits;
    }
    let each = count.div_ceil(SOUNDS) as u32;
    let all = (0..SOUNDS as u8).flat_map(|sound| (length - each..length).map(move |step| (sound, step)));
    struck(random, all.take(count))
}

/// A place of so many: the first, the last or any.
pub fn place(random: &mut Random, count: usize) -> usize {
    let any = random.below(count);
    random.pick(&[0, count - 1, any])
}

/// One to three faults of every sort that saving tells, anywhere in the lists.
pub fn spoil(random: &mut Random, length: u32, Lists { sounds, steps, velocities }: &mut Lists) {
    for _ in 0..random.pick(&[1, 1, 1, 2, 3]) {
        let n = sounds.len().min(steps.len()).min(velocities.len());
        let at = if n == 0 { 0 } else { place(random, n) };
        match random.below(11) {
            0 => sounds.push(random.pick(&[0, 127, 128])),
            1 => steps.push(random.pick(&[0, length, u32::MAX])),
            2 if n > 0 => match random.below(3) {
                0 => drop(sounds.pop()),
                1 => drop(steps.pop()),
                _ => drop(velocities.pop()),
            },
            3 if n > 0 => sounds[at] = random.pick(&[128, 129, 255]),
            4 if n > 0 => steps[at] = random.pick(&[length, length, length.saturating_add(1), u32::MAX]),
            5 if n > 1 => {
                let other = random.below(n);
                sounds.swap(at, other);
                steps.swap(at, other);
                velocities.swap(at, other);
            }
            6 if n > 1 => {
                let from = at.min(n - 2);
                (sounds[from + 1], steps[from + 1]) = (sounds[from], steps[from].saturating_sub(random.small(0, 1)));
            }
            7 if n > 0 => (sounds[at], steps[at]) = (random.below(256) as u8, random.edge()),
            8 => velocities.push(random.pick(&[0, 1, 127, 128])),
            9 | 10 if n > 0 => velocities[at] = random.pick(&[0, 0, 128, 128, 129, 255]),
            _ => {}
        }
    }
}

/// A save of some hits, now and then with faults.
pub fn save(random: &mut Random, id: u32, most: usize, faults: usize) -> Call {
    let length = length(random);
    let count = random.below(most + 1);
    let hits = hits(random, count, length);
    let mut call = Call::save(id, length, &hits);
    if let Call::Save { lists, .. } = &mut call {
        if random.chance(faults) {
            spoil(random, length, lists);
        }
    }
    call
}

/// A length around what is needed: exactly full, one short, empty or larger.
pub fn room(random: &mut Random, needed: usize) -> usize {
    match random.below(10) {
        0..=4 => needed,
        5 | 6 => needed + 1 + random.below(5),
        7 => needed.saturating_sub(1),
        8 => 0,
        _ => random.below(needed + 2),
    }
}

pub fn read(random: &mut Random, map: &Map, id: u32) -> Call {
    let needed = map.get(&id).map_or(random.below(3), |bar| bar.hits.len());
    Call::Read { id, room: [(); 3].map(|_| room(random, needed)) }
}

/// Names for all sounds that rise: of one byte, of three, with letters of several bytes, or of many lengths.
fn rising(random: &mut Random) -> Vec<Vec<u8>> {
    let style = random.below(4);
    let name = |sound: usize, length: usize| match style {
        0 => vec![sound as u8],
        1 => format!("s{sound:02x}").into_bytes(),
        2 => format!("\u{e9}\u{65e5}{}", char::from_u32(0x4e00 + sound as u32).expect("a letter")).into_bytes(),
        _ => [&[b'0' + (sound / 8) as u8, b'a' + (sound % 8) as u8][..], &vec![b'z'; length]].concat(),
    };
    (0..SOUNDS).map(|sound| name(sound, random.below(9))).collect()
}

const NOT_UTF8: [&[u8]; 5] = [b"\x80", b"\xC3", b"a\xFF", b"\xED\xA0\x80", b"\xF4\x90\x80\x80"];

/// A name that does not pass, or would not if its sound had hits.
fn other_name(random: &mut Random, names: &[Vec<u8>], at: usize) -> Vec<u8> {
    match random.below(6) {
        0 | 1 => Vec::new(),
        2 => random.pick(&NOT_UTF8).to_vec(),
        3 => names[at.saturating_sub(1)].clone(),
        4 => names[random.below(names.len())].clone(),
        _ => b"zz".to_vec(),
    }
}

/// Names whose used ones pass, the others being anything; now and then with faults.
pub fn names(random: &mut Random, map: &Map, faults: usize) -> Vec<Vec<u8>> {
    let mut names = rising(random);
    let used = used(map);
    let few = random.pick(&[0, 10, 100]);
    for at in 0..SOUNDS {
        if !used[at] && random.chance(few) {
            names[at] = other_name(random, &names, at);
        }
    }
    if random.chance(faults) {
        let hit: Vec<usize> = (0..SOUNDS).filter(|at| used[*at]).collect();
        for _ in 0..random.pick(&[1, 1, 2, 3]) {
            let at = if hit.is_empty() { random.below(SOUNDS) } else { random.pick(&hit) };
            match random.below(8) {
                0 if at + 1 < SOUNDS => {
                    // a letter whose two bytes belong to two names
                    names[at].push(0xC3);
                    names[at + 1].insert(0, 0xA9);
                }
                1 => {
                    let other = if hit.is_empty() { at } else { random.pick(&hit) };
                    names.swap(at, other);
                }
                2 => names[at] = names[hit.iter().rev().find(|before| **before < at).copied().unwrap_or(at)].clone(),
                _ => names[at] = other_name(random, &names, at),
            }
        }
    }
    names
}

/// A text and ends that do not have the shape of 128 names.
fn spoil_shape(random: &mut Random, text: &mut Vec<u8>, ends: &mut Vec<u32>) {
    let at = random.below(ends.len().max(1));
    match random.below(9) {
        0 => ends.truncate(random.pick(&[0, 1, 126, 127])),
        1 => ends.extend(vec![text.len() as u32; random.pick(&[1, 1, 2, 128])]),
        2 => text.push(b'x'),
        3 => drop(text.pop()),
        4 => ends[at] = random.edge(),
        5 => ends.reverse(),
        6 => ends[at] = ends[at].wrapping_sub(1),
        7 => ends.clear(),
        _ => {
            ends.clear();
            text.clear();
        }
    }
}

/// Writing out with some names, and a buffer around the length that a segment of the map would have.
pub fn write(random: &mut Random, map: &Map, faults: usize) -> Call {
    let names = names(random, map, faults);
    let (mut text, mut ends) = (names.concat(), ends_of(&names));
    if random.chance(faults / 2) {
        spoil_shape(random, &mut text, &mut ends);
    }
    Call::Write { text, ends, room: 0 }
}
