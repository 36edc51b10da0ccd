//! A pad as it is ordinarily kept in Rust: a map from id to bar, each with a vector of hits; and the same read from a pad's words and put
//! back. It has the same rules as the library's, and answers the kind of a refusal.
use crate::data::Lists;
use std::collections::BTreeMap;

pub const WORDS: usize = 17_154;
const BARS: usize = 256;
const HITS: usize = 8192;

/// A sound, a step and a velocity.
type Hit = (u8, u32, u8);

/// What a save is handed: sounds, steps and velocities.
pub type Hits<'a> = (&'a [u8], &'a [u32], &'a [u8]);

/// What reading back fills: the same three.
pub type Room = (Vec<u8>, Vec<u32>, Vec<u8>);

#[derive(PartialEq, Eq, Debug)]
struct Bar {
    length: u32,
    hits: Vec<Hit>,
}

#[derive(Default, PartialEq, Eq, Debug)]
pub struct Map {
    bars: BTreeMap<u32, Bar>,
    hits: usize,
}

/// The kind of a refusal.
type Kind = u32;

fn hits_fine(length: u32, hits: &[Hit]) -> Result<(), Kind> {
    if hits.iter().any(|hit| hit.0 > 127) {
        return Err(12);
    }
    if hits.iter().any(|hit| !(1..=127).contains(&hit.2)) {
        return Err(22);
    }
    let rise = hits.windows(2).all(|pair| (pair[0].0, pair[0].1) < (pair[1].0, pair[1].1));
    if !rise || hits.iter().any(|hit| hit.1 >= length) {
        return Err(6);
    }
    Ok(())
}

impl Map {
    pub fn save(&mut self, id: u32, length: u32, (sounds, steps, velocities): Hits) -> Result<usize, Kind> {
        if self.bars.contains_key(&id) {
            return Err(18);
        }
        if sounds.len() != steps.len() || steps.len() != velocities.len() {
            return Err(11);
        }
        let side_by_side = sounds.iter().zip(steps).zip(velocities);
        let hits: Vec<Hit> = side_by_side.map(|((sound, step), velocity)| (*sound, *step, *velocity)).collect();
        hits_fine(length, &hits)?;
        let count = hits.len();
        if self.bars.len() == BARS || self.hits + count > HITS {
            return Err(19);
        }
        self.bars.insert(id, Bar { length, hits });
        self.hits += count;
        Ok(count)
    }

    pub fn erase(&mut self, id: u32) -> Result<usize, Kind> {
        let bar = self.bars.remove(&id).ok_or(16u32)?;
        self.hits -= bar.hits.len();
        Ok(bar.hits.len())
    }

    /// How many hits the bar has, and its length.
    pub fn read(&self, id: u32, (sounds, steps, velocities): &mut Room) -> Result<(usize, u32), Kind> {
        let bar = self.bars.get(&id).ok_or(16u32)?;
        if bar.hits.len() > sounds.len().min(steps.len()).min(velocities.len()) {
            return Err(13);
        }
        for (((hit, sound), step), velocity) in bar.hits.iter().zip(sounds).zip(steps).zip(velocities) {
            (*sound, *step, *velocity) = *hit;
        }
        Ok((bar.hits.len(), bar.length))
    }

    /// The number of all hits, which saving and erasing keep, since 19 asks for it.
    pub fn hits(&self) -> usize {
        self.hits
    }

    /// The same, added up.
    pub fn sum(&self) -> usize {
        self.bars.values().map(|bar| bar.hits.len()).sum()
    }

    /// The writer's lists: bars by id, sounds by number, those without hits left out.
    pub fn lists(&self, names: &[String]) -> Lists {
        let mut postings: Vec<Vec<(u32, Vec<u32>)>> = vec![Vec::new(); 128];
        for (id, bar) in &self.bars {
            for same in bar.hits.chunk_by(|a, b| a.0 == b.0) {
                postings[same[0].0 as usize].push((*id, same.iter().map(|hit| hit.1).collect()));
            }
        }
        let mut lists = Lists::default();
        (lists.ids, lists.lengths) = self.bars.iter().map(|(id, bar)| (*id, bar.length)).unzip();
        for (name, postings) in names.iter().zip(postings).filter(|(_, postings)| !postings.is_empty()) {
            lists.text.extend(name.as_bytes());
            lists.ends.push(lists.text.len() as u32);
            lists.posting_counts.push(postings.len() as u32);
            for (id, steps) in postings {
                lists.posting_ids.push(id);
                lists.position_counts.push(steps.len() as u32);
                lists.positions.extend(steps);
            }
        }
        lists
    }

    /// What a pad's words hold, all of them checked; none if they are no pad.
    pub fn from_words(words: &[u32]) -> Option<Map> {
        let (&[bars, hits], mut rest) = words.split_first_chunk()?;
        if words.len() != WORDS || bars as usize > BARS || hits as usize > HITS {
            return None;
        }
        let mut map = Map::default();
        let mut before = None;
        for _ in 0..bars {
            let (&[id, length, count], behind) = rest.split_first_chunk()?;
            if before >= Some(id) || count as usize > hits as usize - map.hits {
                return None;
            }
            before = Some(id);
            let (own, behind) = behind.split_at(2 * count as usize);
            let hits: Option<Vec<Hit>> =
                own.chunks_exact(2).map(|hit| Some((hit[0] as u8, hit[1], u8::try_from(hit[0] >> 8).ok()?))).collect();
            let hits = hits.filter(|hits| hits_fine(length, hits).is_ok())?;
            map.hits += hits.len();
            map.bars.insert(id, Bar { length, hits });
            rest = behind;
        }
        (map.hits == hits as usize).then_some(map)
    }

    /// Puts the words of the map in front; what is behind them stays.
    pub fn to_words(&self, words: &mut [u32]) {
        (words[0], words[1]) = (self.bars.len() as u32, self.hits as u32);
        let mut at = 2;
        for (id, bar) in &self.bars {
            words[at..at + 3].copy_from_slice(&[*id, bar.length, bar.hits.len() as u32]);
            at += 3;
            for (sound, step, velocity) in &bar.hits {
                (words[at], words[at + 1]) = (*sound as u32 | (*velocity as u32) << 8, *step);
                at += 2;
            }
        }
    }
}
