//! A pad's words by the layout of include/pstp.h: the map that they hold, or the first rule of the layout that they break.

use super::model::{Bar, Hit, Map, BARS, HITS};

pub const WORDS: usize = 17_154;

/// Why words are no pad.
#[derive(Clone, Copy, Debug, PartialEq, Eq)]
pub enum Damage {
    Shorter,
    Longer,
    Bars,
    Hits,
    IdTwice,
    IdFalls,
    Count,
    Sound,
    VelocityZero,
    VelocityHigh,
    VelocityWide,
    HitTwice,
    StepFalls,
    SoundFalls,
    Step,
    Total,
}

pub const DAMAGES: [(Damage, &str); 16] = [
    (Damage::Shorter, "fewer words than a pad has"),
    (Damage::Longer, "more words than a pad has"),
    (Damage::Bars, "over 256 bars"),
    (Damage::Hits, "over 8,192 hits"),
    (Damage::IdTwice, "an id that is the one before"),
    (Damage::IdFalls, "an id below the one before"),
    (Damage::Count, "bars with more hits than the pad's number"),
    (Damage::Sound, "a sound above 127"),
    (Damage::VelocityZero, "a velocity of 0"),
    (Damage::VelocityHigh, "a velocity of 128 to 255"),
    (Damage::VelocityWide, "a velocity of more than a byte"),
    (Damage::HitTwice, "a hit that is the one before, whatever its velocity"),
    (Damage::StepFalls, "a step below the one before, of one sound"),
    (Damage::SoundFalls, "a sound below the one before"),
    (Damage::Step, "a step not below the length"),
    (Damage::Total, "bars with fewer hits than the pad's number"),
];

/// The bars that words hold, as far as they can be read, and the first rule that is broken.
#[derive(Clone, Debug, Default)]
pub struct Held {
    pub map: Map,
    pub broken: Option<Damage>,
    /// the number of all hits as these words had it, right or wrong; 0 where they ended before it
    pub stored: u32,
}

impl Held {
    fn tell(&mut self, fails: bool, damage: Damage) {
        if fails && self.broken.is_none() {
            self.broken = Some(damage);
        }
    }

    pub fn of(words: &[u32]) -> Self {
        let mut held = Held::default();
        held.tell(words.len() < WORDS, Damage::Shorter);
        held.tell(words.len() > WORDS, Damage::Longer);
        let mut rest = words.iter().copied();
        let (bars, hits) = (rest.next().unwrap_or(0), rest.next().unwrap_or(0));
        held.stored = hits;
        held.tell(bars as usize > BARS, Damage::Bars);
        held.tell(hits as usize > HITS, Damage::Hits);
        let (mut remaining, mut before) = (hits, None);
        for _ in 0..bars {
            // only words that are already known to be no pad end here
            let (Some(id), Some(length), Some(count)) = (rest.next(), rest.next(), rest.next()) else { break };
            held.tell(before == Some(id), Damage::IdTwice);
            held.tell(before > Some(id), Damage::IdFalls);
            before = Some(id);
            if count > remaining {
                held.tell(true, Damage::Count);
                return held;
            }
            remaining -= count;
            let hits = held.hits(&mut rest, length, count);
            held.map.entry(id).or_insert(Bar { length, hits });
        }
        held.tell(remaining > 0, Damage::Total);
        held
    }

    /// A hit is two words: sound and 256 times the velocity, then the step.
    fn hits(&mut self, rest: &mut impl Iterator<Item = u32>, length: u32, count: u32) -> Vec<Hit> {
        let mut hits: Vec<Hit> = Vec::new();
        let mut before: Option<(u32, u32)> = None;
        for _ in 0..count {
            let (Some(word), Some(step)) = (rest.next(), rest.next()) else { break };
            let (sound, velocity) = (word % 256, word / 256);
            self.tell(sound > 127, Damage::Sound);
            self.tell(velocity == 0, Damage::VelocityZero);
            self.tell((128..256).contains(&velocity), Damage::VelocityHigh);
            self.tell(velocity > 255, Damage::VelocityWide);
            if let Some(before) = before {
                self.tell(before == (sound, step), Damage::HitTwice);
                self.tell(before.0 == sound && before.1 > step, Damage::StepFalls);
                self.tell(before.0 > sound, Damage::SoundFalls);
            }
            self.tell(step >= length, Damage::Step);
            before = Some((sound, step));
            hits.push((sound.min(127) as u8, step, velocity.clamp(1, 127) as u8));
        }
        hits
    }
}

/// The sum of the bars' numbers of hits, whatever the pad's number is; none where they are no bars, or run over the end.
pub fn counted(words: &[u32]) -> Option<u64> {
    let bars = words.first().filter(|bars| **bars as usize <= BARS)?;
    let (mut sum, mut at) = (0, 2);
    for _ in 0..*bars {
        let count = u64::from(*words.get(at + 2)?);
        (sum, at) = (sum + count, at + 3 + 2 * count as usize);
    }
    (at <= words.len()).then_some(sum)
}

/// The words of a map.
pub fn stored(map: &Map) -> Vec<u32> {
    let mut words = vec![map.len() as u32, super::model::hits_in(map) as u32];
    for (id, bar) in map {
        words.extend([*id, bar.length, bar.hits.len() as u32]);
        words.extend(bar.hits.iter().flat_map(|(sound, step, velocity)| [u32::from(*sound) + 256 * u32::from(*velocity), *step]));
    }
    words
}

/// The words of a map, and behind them what was there.
pub fn stored_over(map: &Map, words: &[u32]) -> Vec<u32> {
    let mut stored = stored(map);
    stored.extend(words.iter().skip(stored.len()));
    stored
}
