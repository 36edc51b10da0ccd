//! Random sequences of calls: from the empty pad, from words that were damaged, with few ids and few hits.

use super::call::Call;
use super::compare::{Pad, Pads};
use super::damage::{damaged, Known, KINDS};
use super::fill;
use super::make;
use super::model::{Bar, Map, Told, BARS, HITS};
use super::phrases;
use super::velocities::alike;
use super::words::WORDS;
use crate::compare::Runner;
use crate::random::Random;

/// Writes out with no places or with enough, then with about as many as are needed; asks phrases of what was written now and then.
pub fn write(pads: &mut Pads, runner: &mut Runner, random: &mut Random, pad: &mut Pad, faults: usize) {
    let Call::Write { text, ends, .. } = make::write(random, pad.map(), faults) else { return };
    let enough = 129_608 + text.len();
    let with = |room: usize| Call::Write { text: text.clone(), ends: ends.clone(), room };
    let told = pads.run(pad, &with(random.pick(&[0, enough])));
    let needed = match &told {
        Ok(answer) => answer.bytes.len(),
        Err(refused) => refused.refusal.index as usize,
    };
    if random.chance(60) {
        drop(pads.run(pad, &with(make::room(random, needed))));
    }
    if let Ok(answer) = told {
        if random.chance(25) {
            let map = pad.map().clone();
            phrases::ask(pads, runner, random, &map, &text, &ends, &answer.bytes);
        }
    }
}

/// An id of the few, or one beside it.
fn some_id(random: &mut Random, ids: &[u32]) -> u32 {
    random.pick(ids).wrapping_add(random.pick(&[0, 0, 0, 0, 0, 0, 0, 0, 1, u32::MAX]))
}

/// One call of any sort; a save has at most so many hits.
pub fn any_call(pads: &mut Pads, runner: &mut Runner, random: &mut Random, pad: &mut Pad, ids: &[u32], most: usize) {
    let id = some_id(random, ids);
    match random.below(20) {
        0..=9 => drop(pads.run(pad, &make::save(random, id, most, 30))),
        10..=13 => drop(pads.run(pad, &Call::Erase { id })),
        14..=17 => drop(pads.run(pad, &make::read(random, pad.map(), id))),
        _ => write(pads, runner, random, pad, 40),
    }
}

/// Some bars, or as many bars or hits as a pad holds.
pub fn map(random: &mut Random) -> Map {
    let (bars, most) = match random.below(12) {
        0 => (BARS, random.pick(&[0, 2, HITS / BARS])),
        1 => (random.below(BARS) + 1, 60),
        2 => (random.below(3) + 1, HITS),
        3 => (0, 0),
        _ => (random.below(6) + 1, 6),
    };
    let (mut map, mut remaining) = (Map::new(), HITS);
    for id in make::ids(random, bars) {
        let length = if most > 64 { random.pick(&[64, 200, u32::MAX]) } else { make::length(random) };
        let count = random.below(most.min(remaining) + 1);
        let hits = make::hits(random, count, length);
        remaining -= hits.len();
        map.insert(id, Bar { length, hits });
    }
    map
}

/// Ids that a map has, and some others.
fn ids_of(random: &mut Random, map: &Map) -> Vec<u32> {
    let mut ids: Vec<u32> = map.keys().copied().collect();
    ids.extend(make::ids(random, 2));
    ids
}

/// A sequence from the empty pad, its free words 0 or anything.
fn from_empty(pads: &mut Pads, runner: &mut Runner, random: &mut Random) {
    let mut pad = Pad::empty();
    if random.chance(30) {
        pad.words[2..].iter_mut().for_each(|word| *word = random.next() as u32);
    }
    let count = random.pick(&[2, 3, 5, 12]);
    let ids = make::ids(random, count);
    let most = random.pick(&[1, 3, 6, 40, 400]);
    for _ in 0..random.pick(&[10, 40, 120]) {
        any_call(pads, runner, random, &mut pad, &ids, most);
    }
    pads.hold(&pad);
}

/// Words that were damaged: every call on them, whatever else is wrong; where they are still a pad, a sequence from there.
fn from_damaged(pads: &mut Pads, runner: &mut Runner, random: &mut Random) {
    let map = map(random);
    let free = if random.chance(50) { vec![0; WORDS] } else { (0..WORDS).map(|_| random.next() as u32 >> 24).collect() };
    let ids = ids_of(random, &map);
    for _ in 0..8 {
        let (place, (kind, said)) = random.pick(&KINDS.iter().copied().enumerate().collect::<Vec<_>>());
        let Some((words, known)) = damaged(random, &map, &free, kind) else { continue };
        let mut pad = Pad::of(words);
        let is_known = match known {
            Known::Broken => pad.held.broken.is_some(),
            Known::SameMap => pad.held.broken.is_none() && *pad.map() == map,
            Known::SameButVelocities => pad.held.broken.is_none() && alike(pad.map(), &map),
            Known::Nothing => true,
        };
        if !is_known {
            pads.stray(format!("{said}: {known:?} is known, the model says {:?} of {map:?}", pad.held.broken));
        }
        pads.tally.known += u64::from(is_known && known != Known::Nothing);
        let before = pads.tally.total();
        if pad.held.broken.is_some() {
            each_on_broken(pads, random, &mut pad, &map, &ids);
        } else {
            for _ in 0..10 {
                any_call(pads, runner, random, &mut pad, &ids, 6);
            }
        }
        pads.tally.kinds[place] += pads.tally.total() - before;
    }
}

/// The calls on words that are no pad, the counter first: with arguments that would pass on the map from before, and with any.
pub fn each_on_broken(pads: &mut Pads, random: &mut Random, pad: &mut Pad, before: &Map, ids: &[u32]) {
    let id = some_id(random, ids);
    drop(pads.run(pad, &Call::Hits));
    let mut told: Vec<Told> = Vec::new();
    told.push(pads.run(pad, &make::save(random, id, 6, 40)));
    told.push(pads.run(pad, &Call::Erase { id }));
    told.push(pads.run(pad, &make::read(random, before, id)));
    if let Call::Write { text, ends, .. } = make::write(random, before, 30) {
        let room = random.pick(&[0, 71, 129_608 + text.len()]);
        told.push(pads.run(pad, &Call::Write { text, ends, room }));
    }
    if told.iter().any(Result::is_ok) {
        pads.stray(format!("words that are no pad are taken: {:?}", pad.held.broken));
    }
}

pub fn round(pads: &mut Pads, runner: &mut Runner, random: &mut Random) {
    match random.below(100) {
        0..=64 => from_empty(pads, runner, random),
        65..=95 => from_damaged(pads, runner, random),
        _ => fill::round(pads, runner, random),
    }
}
