//! Where one test meets another, and the numbers at their ends: every choice of faults of a save, slices of other lengths, every damage.

use super::call::{Call, Lists};
use super::compare::{Pad, Pads};
use super::damage::{damaged, Known, KINDS};
use super::model::{Bar, Hit, Map, BARS, HITS, LARGEST};
use super::rounds::each_on_broken;
use super::words::WORDS;
use crate::random::Random;
use crate::reply::{Refusal, Reply};

/// The model has to say these numbers, and the library what the model says.
pub fn expect(pads: &mut Pads, pad: &mut Pad, call: &Call, expected: Reply, what: &str) {
    let told = pads.run(pad, call);
    let said = super::model::reply(&told);
    if said != expected {
        pads.stray(format!("{what}: the model says {said:?} instead of {expected:?}"));
    }
}

pub fn refused(kind: u32, which: u32, index: u64) -> Reply {
    Refusal::new(kind, which, index).into()
}

/// So many hits: sound 0 on every step, then sound 1, and so on; velocities 5 apart in the range from 1 to 127.
pub fn grid(count: usize, length: u32) -> Vec<Hit> {
    (0..count as u32).map(|i| ((i / length) as u8, i % length, 1 + (i * 5 % 127) as u8)).collect()
}

/// Bars from this id on, each with so many hits.
fn bars(ids: std::ops::Range<u32>, hits: usize) -> Map {
    ids.map(|id| (id, Bar { length: 64, hits: grid(hits, 64) })).collect()
}

fn holding(map: &Map) -> Pad {
    Pad::holding(map, &[0; WORDS])
}

/// 20, 18, 11, 12, 22, 6 20, 6 21 and 19: every choice of them at once gives the first.
fn all_faults(pads: &mut Pads) {
    const REFUSALS: [(u32, u32); 8] = [(20, 0), (18, 0), (11, 0), (12, 0), (22, 0), (6, 20), (6, 21), (19, 0)];
    for choice in 0..1usize << REFUSALS.len() {
        let fails = |i: usize| choice >> i & 1 == 1;
        for (full, bars_held, hits_held) in [(false, 1..3, 1), (true, 1..BARS as u32 + 1, 0), (true, 1..65, HITS / 64)] {
            if full != fails(7) {
                continue;
            }
            let mut pad = holding(&bars(bars_held, hits_held));
            if fails(0) {
                pad.words[1] ^= 1;
                pad = Pad::of(pad.words);
            }
            let mut lists = Lists::of(&[(5, 0, 1), (6, 1, 64), (7, 2, 127), (8, 3, 9)]);
            if fails(3) {
                lists.sounds[3] = 128;
            }
            if fails(5) {
                lists.sounds.swap(0, 1);
            }
            if fails(6) {
                lists.steps[2] = 4;
            }
            // the velocity of each hit in turn; each list longer or shorter than the others
            for (at, velocity) in [(0, 0), (1, 128), (2, 255), (3, 0), (3, 128)].into_iter().take(if fails(4) { 5 } else { 1 }) {
                for other in 0..if fails(2) { 6 } else { 1 } {
                    let mut lists = lists.clone();
                    if fails(4) {
                        lists.velocities[at] = velocity;
                    }
                    match other {
                        _ if !fails(2) => {}
                        0 => lists.sounds.push(127),
                        1 => lists.steps.push(3),
                        2 => lists.velocities.push(100),
                        3 => drop(lists.sounds.remove(2)),
                        4 => drop(lists.steps.remove(0)),
                        _ => drop(lists.velocities.remove((at + 1) % 4)),
                    }
                    let call = Call::Save { id: if fails(1) { 2 } else { 1000 }, length: 4, lists };
                    let first = REFUSALS.iter().enumerate().find(|(i, _)| fails(*i)).map(|(_, numbers)| *numbers);
                    let expected = first.map_or(Reply::accepted(4, 0), |(kind, which)| refused(kind, which, 0));
                    expect(pads, &mut pad.clone(), &call, expected, &format!("faults {choice:08b}"));
                }
            }
        }
    }
}

/// Lists of 16,777,216 hits and of one more, alone and with everything else that can be wrong.
fn long_lists(pads: &mut Pads) {
    let mut most = grid(LARGEST, 131_072);
    let held = bars(1..3, 1);
    let mut broken = holding(&held).words;
    broken[0] = 1;
    let mut pad = holding(&held);
    expect(pads, &mut pad, &Call::save(9, 131_072, &most), refused(19, 0, 0), "16,777,216 hits");
    expect(pads, &mut pad, &Call::save(9, 131_071, &most), refused(6, 21, 0), "16,777,216 hits, the last steps too far");
    for (place, velocity) in [(LARGEST - 1, 0), (65_536, 128)] {
        most[place].2 = velocity;
        expect(pads, &mut pad, &Call::save(9, 131_072, &most), refused(22, 0, 0), "16,777,216 hits, one velocity out of range");
        most[place].2 = 1;
    }
    drop(most);
    let more = Lists { sounds: vec![200; LARGEST + 1], steps: vec![7; LARGEST + 1], velocities: vec![0; LARGEST + 1] };
    let save = |id: u32, lengths: [usize; 3]| {
        let Lists { sounds, steps, velocities } = &more;
        let [a, b, c] = lengths;
        let lists = Lists { sounds: sounds[..a].to_vec(), steps: steps[..b].to_vec(), velocities: velocities[..c].to_vec() };
        Call::Save { id, length: 4, lists }
    };
    for lengths in (1..27).map(|i| [i / 9, i / 3 % 3, i % 3].map(|i| [0, LARGEST, LARGEST + 1][i])) {
        let apart = !lengths.contains(&(LARGEST + 1)) && lengths != [LARGEST; 3];
        let kind = if apart { 11 } else { 12 };
        expect(pads, &mut pad, &save(9, lengths), refused(kind, 0, 0), &format!("lists of {lengths:?}"));
    }
    let all = [LARGEST + 1; 3];
    expect(pads, &mut pad, &save(2, all), refused(18, 0, 0), "an id that is held, lists too long");
    expect(pads, &mut Pad::of(broken), &save(2, all), refused(20, 0, 0), "no pad, lists too long");
}

/// Ids, lengths, steps and sounds at the ends of what they can be.
fn edges(pads: &mut Pads) {
    for id in [0, 1, 1 << 31, u32::MAX - 1, u32::MAX] {
        for length in [0, 1, 2, 64, 1 << 31, u32::MAX - 1, u32::MAX] {
            let mut pad = holding(&[(5, Bar { length: 9, hits: vec![(3, 8, 77)] })].into());
            for step in [0, 1, length.wrapping_sub(2), length.wrapping_sub(1), length, u32::MAX] {
                for (sound, velocity) in (0..24).map(|i| ([0, 127, 128, 255][i / 6], [0, 1, 64, 127, 128, 255][i % 6])) {
                    let mut pad = pad.clone();
                    let expected = match (sound, velocity) {
                        (128.., _) => refused(12, 0, 0),
                        (_, 0 | 128..) => refused(22, 0, 0),
                        _ if step >= length => refused(6, 21, 0),
                        _ => Reply::accepted(1, 0),
                    };
                    expect(pads, &mut pad, &Call::save(id, length, &[(sound, step, velocity)]), expected, "one hit");
                    if expected.kind == 0 {
                        let read = Call::Read { id, room: [1, 1, 1] };
                        expect(pads, &mut pad, &read, Reply::accepted(1, length.into()), "one hit read back");
                        expect(pads, &mut pad, &Call::Erase { id }, Reply::accepted(1, 0), "one hit erased");
                    }
                }
            }
            let no_sounds = Lists { steps: vec![length], velocities: vec![64], ..Lists::default() };
            expect(pads, &mut pad, &Call::Save { id, length, lists: no_sounds }, refused(11, 0, 0), "a step and no sounds");
            expect(pads, &mut pad, &Call::save(id, length, &[]), Reply::accepted(0, 0), "no hits");
            expect(pads, &mut pad, &Call::save(id, length, &[]), refused(18, 0, 0), "no hits, again");
            expect(pads, &mut pad, &Call::Read { id, room: [0; 3] }, Reply::accepted(0, length.into()), "no hits read back");
            expect(pads, &mut pad, &Call::Read { id: id ^ 1, room: [0; 3] }, refused(16, 0, 0), "no bar, no places");
            expect(pads, &mut pad, &Call::Erase { id }, Reply::accepted(0, 0), "no hits erased");
            expect(pads, &mut pad, &Call::Erase { id }, refused(16, 0, 0), "no hits erased, again");
        }
    }
}

/// 256 bars, 8,192 hits, and both: what still fits and what does not, before and after erasures.
fn limits(pads: &mut Pads) {
    let (fits, full) = (Reply::accepted, refused(19, 0, 0));
    let mut pad = Pad::empty();
    let mut more = grid(HITS + 1, 100);
    expect(pads, &mut pad, &Call::save(1, 100, &more), full, "8,193 hits");
    for (place, velocity) in [(0, 128), (HITS / 2, 0), (HITS, 0), (HITS, 128)] {
        let before = std::mem::replace(&mut more[place].2, velocity);
        expect(pads, &mut pad, &Call::save(1, 100, &more), refused(22, 0, 0), "8,193 hits, one velocity out of range");
        more[place].2 = before;
    }
    expect(pads, &mut pad, &Call::save(1, 64, &grid(HITS, 64)), fits(HITS as u64, 0), "8,192 hits");
    expect(pads, &mut pad, &Call::save(0, 1, &[(0, 0, 1)]), full, "one more");
    for id in 2..=BARS as u32 {
        expect(pads, &mut pad, &Call::save(id, 1, &[]), fits(0, 0), "a bar without hits beside 8,192");
    }
    expect(pads, &mut pad, &Call::save(0, 1, &[]), full, "257 bars");
    expect(pads, &mut pad, &Call::Read { id: 1, room: [HITS; 3] }, fits(HITS as u64, 64), "8,192 hits read back");
    expect(pads, &mut pad, &Call::Erase { id: 1 }, fits(HITS as u64, 0), "8,192 hits erased");
    expect(pads, &mut pad, &Call::save(u32::MAX, 64, &grid(HITS, 64)), fits(HITS as u64, 0), "8,192 hits at the end");
    for (bars_held, hits_held) in [(256, 32), (256, 0), (64, 128), (255, 32), (1, HITS)] {
        let map = bars(0..bars_held, hits_held);
        let (mut pad, middle) = (holding(&map), bars_held / 2);
        expect(pads, &mut pad, &Call::save(900, 100, &grid(HITS + 1, 100)), full, "8,193 hits beside others");
        let read = Call::Read { id: middle, room: [HITS; 3] };
        expect(pads, &mut pad, &read, fits(hits_held as u64, 64), "the middle one read back");
        for apart in [1, 2, 3, 5] {
            let mut pad = holding(&map);
            let (mut free_hits, mut free_bars) = (HITS - hits_held * bars_held as usize, BARS - bars_held as usize);
            for id in (0..bars_held).step_by(apart) {
                expect(pads, &mut pad, &Call::Erase { id }, fits(hits_held as u64, 0), "erased");
                (free_hits, free_bars) = (free_hits + hits_held, free_bars + 1);
            }
            let more = Call::save(900, 100, &grid(free_hits + 1, 100));
            expect(pads, &mut pad, &more, full, "one more than the gaps have");
            let all = Call::save(900, 100, &grid(free_hits, 100));
            expect(pads, &mut pad, &all, fits(free_hits as u64, 0), "all the gaps at once");
            for id in 0..free_bars as u32 - 1 {
                expect(pads, &mut pad, &Call::save(901 + id, 0, &[]), fits(0, 0), "as many bars as were erased");
            }
            expect(pads, &mut pad, &Call::save(2000, 0, &[]), full, "and one more");
            pads.hold(&pad);
        }
    }
}

/// 256 bars, of which some are erased and as many saved.
fn bars_again(pads: &mut Pads) {
    let mut pad = holding(&bars(0..BARS as u32, 0));
    for id in [7, 9, 255] {
        expect(pads, &mut pad, &Call::Erase { id }, Reply::accepted(0, 0), "one of 256 bars erased");
    }
    for id in [9, 400, 7] {
        expect(pads, &mut pad, &Call::save(id, 3, &[(0, 2, 127)]), Reply::accepted(1, 0), "256 bars again");
    }
    expect(pads, &mut pad, &Call::save(255, 3, &[]), refused(19, 0, 0), "257 bars");
}

/// Slices of other lengths, and every damage, where all calls but the counter answer 20 whatever else is wrong.
fn no_pads(pads: &mut Pads) {
    let mut random = Random::new(20);
    let random = &mut random;
    let three: Map = [(2, vec![(1, 0, 9), (2, 1, 127), (2, 3, 1)]), (4, vec![]), (9, vec![(0, 1, 64), (127, 2, 63)])]
        .map(|(id, hits)| (id, Bar { length: 4, hits }))
        .into();
    for map in [Map::new(), three.clone(), bars(0..256, 32), bars(3..4, HITS), bars(0..200, 9)] {
        let ids = [2, 4, 9, 3, 77];
        let words = holding(&map).words;
        for length in [0, 1, 2, 3, 4, 5, 100, WORDS - 1, WORDS + 1, 2 * WORDS] {
            let mut other = words.clone();
            other.resize(length, 0);
            let mut pad = Pad::of(other);
            (0..20).for_each(|_| each_on_broken(pads, random, &mut pad, &map, &ids));
        }
        for (place, (kind, said)) in KINDS.iter().enumerate() {
            for _ in 0..40 {
                let Some((words, known)) = damaged(random, &map, &words, *kind) else { break };
                let mut pad = Pad::of(words);
                let before = pads.tally.total();
                match (known, pad.held.broken) {
                    (Known::Broken, None) => pads.stray(format!("{said}: the model takes it")),
                    (Known::SameMap | Known::SameButVelocities, Some(_)) => pads.stray(format!("{said}: the model refuses it")),
                    (_, Some(_)) => each_on_broken(pads, random, &mut pad, &map, &ids),
                    (_, None) => drop(pads.run(&mut pad, &Call::Erase { id: 2 })),
                }
                pads.tally.kinds[place] += pads.tally.total() - before;
            }
        }
    }
}

/// The three lists of a bar read back, each with every room.
fn rooms(pads: &mut Pads) {
    for count in [0, 1, 2, 5, 128, HITS] {
        let map = [(3, Bar { length: 1, hits: vec![(9, 0, 3)] }), (7, Bar { length: 64, hits: grid(count, 64) })];
        let map: Map = map.into_iter().filter(|(id, _)| count < HITS || *id == 7).collect();
        let mut pad = holding(&map);
        let rooms = [0, 1, count.saturating_sub(1), count, count + 1, count + 9];
        for room in (0..216).map(|i| [i / 36, i / 6 % 6, i % 6].map(|i| rooms[i])) {
            let expected = match () {
                () if room[0] < count => refused(13, 1, count as u64),
                () if room[1] < count => refused(13, 2, count as u64),
                () if room[2] < count => refused(13, 3, count as u64),
                () => Reply::accepted(count as u64, 64),
            };
            expect(pads, &mut pad, &Call::Read { id: 7, room }, expected, "read back");
            expect(pads, &mut pad, &Call::Read { id: 8, room }, refused(16, 0, 0), "no such bar");
        }
    }
}

pub fn all(pads: &mut Pads) {
    all_faults(pads);
    edges(pads);
    limits(pads);
    bars_again(pads);
    rooms(pads);
    no_pads(pads);
    long_lists(pads);
}
