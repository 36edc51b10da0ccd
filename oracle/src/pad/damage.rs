//! A pad's words changed in a known way: what must then be told of them, where that is known.

use super::make::place;
use super::model::{Bar, Map, BARS, HITS};
use super::words::{stored, stored_over, WORDS};
use crate::random::Random;

#[derive(Clone, Copy, Debug, PartialEq, Eq)]
pub enum Kind {
    Free,
    IdTwice,
    IdTwiceApart,
    BarsExchanged,
    Sound,
    VelocityZero,
    VelocityHigh,
    VelocityWide,
    NoVelocities,
    OtherVelocities,
    HitTwice,
    HitsExchanged,
    Step,
    Length,
    CountMore,
    CountLess,
    CountMost,
    CountsWrap,
    CountDoubleWraps,
    TotalMore,
    TotalLess,
    TotalMost,
    TotalOther,
    BarsLess,
    BarsMost,
    ManyBars,
    ManyHits,
    Cut,
    Longer,
    Word,
    Moved,
    Random,
}

pub const KINDS: [(Kind, &str); 32] = [
    (Kind::Free, "free words are anything: the same map"),
    (Kind::IdTwice, "an id twice, side by side"),
    (Kind::IdTwiceApart, "an id twice, with bars between"),
    (Kind::BarsExchanged, "two bars exchanged, so that ids do not rise"),
    (Kind::Sound, "a sound of 128 or more"),
    (Kind::VelocityZero, "a velocity of 0"),
    (Kind::VelocityHigh, "a velocity of 128 to 255"),
    (Kind::VelocityWide, "a velocity whose low byte is as before"),
    (Kind::NoVelocities, "all velocities 0, as pads had them before there were any"),
    (Kind::OtherVelocities, "other velocities of 1 to 127: the same map but for them"),
    (Kind::HitTwice, "a hit twice, with one velocity or with two"),
    (Kind::HitsExchanged, "two hits exchanged"),
    (Kind::Step, "a step that is the length, or above"),
    (Kind::Length, "a length that is the highest step, or below"),
    (Kind::CountMore, "a bar's number of hits one more"),
    (Kind::CountLess, "a bar's number of hits one less"),
    (Kind::CountMost, "a bar's number of hits 2^32 - 1"),
    (Kind::CountsWrap, "numbers of hits that add up where sums wrap"),
    (Kind::CountDoubleWraps, "a number of hits whose double is as before where it wraps"),
    (Kind::TotalMore, "the number of all hits one more"),
    (Kind::TotalLess, "the number of all hits one less"),
    (Kind::TotalMost, "the number of all hits 8,193 or 2^32 - 1"),
    (Kind::TotalOther, "the number of all hits any other"),
    (Kind::BarsLess, "the number of bars one less"),
    (Kind::BarsMost, "the number of bars 257 or 2^32 - 1"),
    (Kind::ManyBars, "257 bars, each within the rules"),
    (Kind::ManyHits, "8,193 hits, each within the rules"),
    (Kind::Cut, "cut"),
    (Kind::Longer, "words behind it"),
    (Kind::Word, "some words changed anywhere"),
    (Kind::Moved, "a word taken out or put in"),
    (Kind::Random, "small random words"),
];

/// What must be told of changed words.
#[derive(Clone, Copy, Debug, PartialEq, Eq)]
pub enum Known {
    Broken,
    SameMap,
    SameButVelocities,
    Nothing,
}

/// Where each bar begins, and how many hits it has.
fn places(map: &Map) -> Vec<(usize, usize)> {
    let mut at = 2;
    let mut all = Vec::new();
    for bar in map.values() {
        all.push((at, bar.hits.len()));
        at += 3 + 2 * bar.hits.len();
    }
    all
}

/// So many bars without hits, and one with so many hits if there are any.
fn too_many(bars: usize, hits: usize) -> Vec<u32> {
    let mut map: Map = (0..bars as u32).map(|id| (3 * id, Bar { length: 1, hits: Vec::new() })).collect();
    if hits > 0 {
        let hits = (0..hits as u32).map(|i| ((i / 100) as u8, i % 100, 1 + (i % 127) as u8)).collect();
        map.insert(7, Bar { length: 100, hits });
    }
    stored_over(&map, &[0; WORDS])
}

/// The words of this map, changed; none where this map has nothing that could be changed so.
pub fn damaged(random: &mut Random, map: &Map, free: &[u32], kind: Kind) -> Option<(Vec<u32>, Known)> {
    let mut words = stored_over(map, free);
    let places = places(map);
    let n = places.len();
    let with = |random: &mut Random, least: usize| {
        let some: Vec<(usize, usize)> = places.iter().copied().filter(|place| place.1 >= least).collect();
        (!some.is_empty()).then(|| random.pick(&some))
    };
    let mut known = Known::Broken;
    match kind {
        Kind::Free => {
            let used = stored(map).len();
            words[used..].iter_mut().for_each(|word| *word = random.next() as u32 >> random.below(32));
            known = Known::SameMap;
        }
        Kind::IdTwice if n > 1 => {
            let at = random.below(n - 1);
            words[places[at + 1].0] = words[places[at].0];
        }
        Kind::IdTwiceApart if n > 2 => words[places[n - 1].0] = words[places[random.below(n - 2)].0],
        Kind::BarsExchanged if n > 1 => {
            let at = random.below(n - 1);
            let ((a, _), (b, count)) = (places[at], places[at + 1]);
            words[a..b + 3 + 2 * count].rotate_left(b - a);
        }
        Kind::Sound | Kind::VelocityZero | Kind::VelocityHigh | Kind::VelocityWide | Kind::Step => {
            let (at, count) = with(random, 1)?;
            let hit = at + 3 + 2 * place(random, count);
            let (sound, velocity) = (words[hit] % 256, words[hit] / 256);
            match kind {
                Kind::Sound => words[hit] = random.pick(&[128, 129, 255, sound | 128]) + 256 * velocity,
                Kind::VelocityZero => words[hit] = sound,
                Kind::VelocityHigh => words[hit] = sound + 256 * random.pick(&[128, 129, 255, velocity | 128]),
                Kind::VelocityWide => words[hit] += 65_536 << random.below(16),
                _ => words[hit + 1] = random.pick(&[words[at + 1], words[at + 1].saturating_add(1), u32::MAX]),
            }
        }
        Kind::NoVelocities | Kind::OtherVelocities => {
            with(random, 1)?;
            for (at, count) in &places {
                for hit in (0..*count).map(|i| at + 3 + 2 * i) {
                    let velocity = if kind == Kind::NoVelocities { 0 } else { random.small(1, 127) };
                    words[hit] = words[hit] % 256 + 256 * velocity;
                }
            }
            known = if kind == Kind::NoVelocities { Known::Broken } else { Known::SameButVelocities };
        }
        Kind::HitTwice | Kind::HitsExchanged => {
            let (at, count) = with(random, 2)?;
            let hit = at + 3 + 2 * place(random, count - 1);
            match kind {
                Kind::HitTwice => {
                    let velocity = random.pick(&[words[hit] / 256, 1, 127]);
                    (words[hit + 2], words[hit + 3]) = (words[hit] % 256 + 256 * velocity, words[hit + 1]);
                }
                _ => words[hit..hit + 4].rotate_left(2),
            }
        }
        Kind::Length => {
            let (at, count) = with(random, 1)?;
            let highest = (0..count).map(|i| words[at + 4 + 2 * i]).max()?;
            words[at + 1] = random.pick(&[highest, highest, 0, highest / 2]);
        }
        Kind::CountMore | Kind::CountMost | Kind::CountDoubleWraps => {
            let (at, _) = with(random, 0)?;
            match kind {
                // the next words become a hit: more hits than the pad says
                Kind::CountMore => words[at + 2] += 1,
                Kind::CountMost => words[at + 2] = random.pick(&[u32::MAX, u32::MAX - 1, u32::MAX / 2]),
                _ => words[at + 2] += 1 << 31,
            }
            known = if kind == Kind::CountMore { Known::Nothing } else { Known::Broken };
        }
        Kind::CountLess => {
            let (at, _) = with(random, 1)?;
            words[at + 2] -= 1;
            known = Known::Nothing;
        }
        Kind::CountsWrap if n > 1 => {
            let (a, b) = (random.below(n - 1), n - 1);
            let more = random.pick(&[1 << 31, u32::MAX, 1]);
            words[places[a].0 + 2] = words[places[a].0 + 2].wrapping_add(more);
            words[places[b].0 + 2] = words[places[b].0 + 2].wrapping_sub(more);
            known = if more > 1 && more < u32::MAX { Known::Broken } else { Known::Nothing };
        }
        Kind::TotalMore => words[1] += 1,
        Kind::TotalLess if words[1] > 0 => words[1] -= 1,
        Kind::TotalMost => words[1] = random.pick(&[HITS as u32 + 1, u32::MAX, words[1] + (1 << 31)]),
        Kind::TotalOther => {
            let (few, edge, any) = (random.below(HITS + 1) as u32, random.edge(), random.next() as u32);
            let other = random.pick(&[0, few, few, edge, any]);
            if other == words[1] {
                return None;
            }
            words[1] = other;
        }
        Kind::BarsLess if n > 0 => {
            words[0] -= 1;
            known = if places[n - 1].1 > 0 { Known::Broken } else { Known::Nothing };
        }
        Kind::BarsMost => words[0] = random.pick(&[BARS as u32 + 1, u32::MAX, words[0] + (1 << 31), words[0] + 256 + 1]),
        Kind::ManyBars => words = too_many(BARS + 1, 0),
        Kind::ManyHits => words = too_many(random.below(2), HITS + 1),
        Kind::Cut => {
            let any = random.below(WORDS);
            words.truncate(random.pick(&[0, 1, 2, 3, 4, 5, WORDS / 2, WORDS - 2, WORDS - 1, any]));
        }
        Kind::Longer => words.resize(WORDS + random.pick(&[1, 2, 3, 255, WORDS]), random.pick(&[0, 1, 127])),
        Kind::Word => {
            let used = (2 + 3 * n + 2 * map.values().map(|bar| bar.hits.len()).sum::<usize>() + 4).min(WORDS);
            for _ in 0..random.pick(&[1, 1, 2, 4]) {
                let at = if random.chance(50) { random.below(2) } else { random.below(used) };
                let (edge, any) = (random.edge(), random.next() as u32);
                words[at] = random.pick(&[words[at].wrapping_add(1), words[at].wrapping_sub(1), edge, any]);
            }
            known = Known::Nothing;
        }
        Kind::Moved => {
            let at = random.below((2 + 3 * n + 4).min(WORDS));
            if random.chance(50) {
                words.remove(at);
                words.push(0);
            } else {
                words.insert(at, random.pick(&[0, 1, 2, 127]));
                words.truncate(WORDS);
            }
            known = Known::Nothing;
        }
        Kind::Random => {
            let most = random.pick(&[1, 2, 3, 8, 300]);
            let velocity = random.pick(&[0, 256, 256 * 127]);
            words[..64].iter_mut().for_each(|word| *word = random.small(0, most) + random.pick(&[0, velocity]));
            words[..2].iter_mut().for_each(|word| *word = random.small(0, 3));
            known = Known::Nothing;
        }
        _ => return None,
    }
    Some((words, known))
}
