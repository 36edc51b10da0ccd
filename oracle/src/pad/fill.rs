//! Pads filled to 256 bars or to 8,192 hits, torn by erasures in every pattern, and filled again to the last.

use super::call::Call;
use super::compare::{Pad, Pads};
use super::make;
use super::model::{hits_in, BARS, HITS};
use super::rounds::{any_call, write};
use crate::compare::Runner;
use crate::random::Random;

/// An id that is not held.
fn free_id(random: &mut Random, pad: &Pad) -> u32 {
    loop {
        let id = match random.below(4) {
            0 => random.edge(),
            1 => random.below(600) as u32,
            _ => random.next() as u32,
        };
        if !pad.map().contains_key(&id) {
            return id;
        }
    }
}

fn hits_left(pad: &Pad) -> usize {
    HITS - hits_in(pad.map())
}

/// A well-formed save of exactly so many hits.
fn save_of(random: &mut Random, id: u32, count: usize) -> Call {
    let length = if count == 0 {
        make::length(random)
    } else {
        random.pick(&[count as u32, 64.max(count.div_ceil(100) as u32), u32::MAX])
    };
    Call::save(id, length, &make::exactly(random, count, length))
}

fn save(pads: &mut Pads, random: &mut Random, pad: &mut Pad, count: usize) {
    let id = free_id(random, pad);
    drop(pads.run(pad, &save_of(random, id, count)));
}

/// Saves bars until one of the limits is reached; the last one has all the hits that are left, unless they are too many.
fn filled(pads: &mut Pads, random: &mut Random, pad: &mut Pad, most: usize) {
    while pad.map().len() < BARS && hits_left(pad) > 0 {
        let left = hits_left(pad);
        let count = if left <= most { left } else { random.below(most + 1) };
        save(pads, random, pad, count);
    }
}

/// What the limits refuse, and what they still let in.
fn at_the_limits(pads: &mut Pads, runner: &mut Runner, random: &mut Random, pad: &mut Pad) {
    let left = hits_left(pad);
    save(pads, random, pad, left + 1);
    let more = random.pick(&[left + 1, left + 7, HITS, HITS + 1]);
    save(pads, random, pad, more);
    let ids: Vec<u32> = pad.map().keys().copied().collect();
    if let (Some(first), Some(last)) = (ids.first(), ids.last()) {
        for id in [*first, *last, random.pick(&ids)] {
            drop(pads.run(pad, &make::read(random, pad.map(), id)));
        }
    }
    if random.chance(25) {
        write(pads, runner, random, pad, 10);
    }
    if random.chance(50) {
        save(pads, random, pad, 0);
    }
}

/// Erases bars here and there.
fn torn(pads: &mut Pads, random: &mut Random, pad: &mut Pad) {
    let ids: Vec<u32> = pad.map().keys().copied().collect();
    let n = ids.len();
    let (style, step, some) = (random.below(6), random.pick(&[2, 3, 7]), random.pick(&[3, 20, 50, 90]));
    for (i, id) in ids.into_iter().enumerate() {
        let erase = match style {
            0 => i % step == 0,
            1 => i % step != 0,
            2 => i < n / 2,
            3 => i >= n / 2,
            4 => i > n / 4 && i < n / 2,
            _ => random.chance(some),
        };
        if erase {
            drop(pads.run(pad, &Call::Erase { id }));
        }
    }
}

/// All the room that is left, at once or in pieces; one hit more is refused before.
fn filled_again(pads: &mut Pads, random: &mut Random, pad: &mut Pad) {
    let left = hits_left(pad);
    if pad.map().len() < BARS {
        save(pads, random, pad, left + 1);
        if random.chance(40) {
            save(pads, random, pad, left);
        }
    }
    let most = random.pick(&[0, 1, 31, 128, 1000]);
    filled(pads, random, pad, most);
}

pub fn round(pads: &mut Pads, runner: &mut Runner, random: &mut Random) {
    let mut pad = Pad::empty();
    if random.chance(30) {
        pad.words[2..].iter_mut().for_each(|word| *word = random.next() as u32);
    }
    let most = random.pick(&[0, 2, 32, 64, 128, 400, HITS]);
    if random.chance(20) {
        // 256 bars of 32 hits: both limits at once
        (0..BARS).for_each(|_| save(pads, random, &mut pad, HITS / BARS));
    }
    filled(pads, random, &mut pad, most);
    for _ in 0..random.pick(&[1, 2, 3]) {
        at_the_limits(pads, runner, random, &mut pad);
        torn(pads, random, &mut pad);
        if random.chance(30) {
            let ids: Vec<u32> = pad.map().keys().copied().chain([0, u32::MAX]).collect();
            (0..20).for_each(|_| any_call(pads, runner, random, &mut pad, &ids, 40));
        }
        filled_again(pads, random, &mut pad);
    }
    at_the_limits(pads, runner, random, &mut pad);
    pads.hold(&pad);
    if random.chance(40) {
        // the whole room is one bar's again
        pad.map().keys().copied().collect::<Vec<u32>>().into_iter().for_each(|id| drop(pads.run(&mut pad, &Call::Erase { id })));
        save(pads, random, &mut pad, HITS + 1);
        save(pads, random, &mut pad, HITS);
    }
}
