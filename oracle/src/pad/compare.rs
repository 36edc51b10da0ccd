//! A call on a pad made by the library and by the model, compared: the reply's seven numbers, every lent place, what the counter answers
//! afterwards, and every word of the pad.

use super::call::{Call, Slices};
use super::model::{answer, hits_in, reply, Answer, Change, Map, Told, BARS, HITS};
use super::shrink::Kept;
use super::tally::Tally;
use super::velocities;
use super::words::{stored_over, Held, WORDS};

/// A pad's words, what they hold, and what became of it so far.
#[derive(Clone)]
pub struct Pad {
    pub words: Vec<u32>,
    pub held: Held,
    /// bars erased since it was last full, if it ever was
    pub erased: Option<usize>,
}

impl Pad {
    pub fn of(words: Vec<u32>) -> Self {
        let mut pad = Pad { held: Held::of(&words), words, erased: None };
        pad.erased = pad.is_full().then_some(0);
        pad
    }

    pub fn empty() -> Self {
        Pad::of(vec![0; WORDS])
    }

    /// The words of a map, with these words where it leaves them free.
    pub fn holding(map: &Map, free: &[u32]) -> Self {
        Pad::of(stored_over(map, free))
    }

    pub fn map(&self) -> &Map {
        &self.held.map
    }

    pub fn is_full(&self) -> bool {
        self.map().len() == BARS || hits_in(self.map()) == HITS
    }

    /// What the answer makes of the pad; gives the words from before, if they are others.
    pub fn change(&mut self, told: &Told) -> Option<Vec<u32>> {
        match told.as_ref().map(|answer| &answer.change) {
            Ok(Change::Saved(id, bar)) => drop(self.held.map.insert(*id, bar.clone())),
            Ok(Change::Erased(id)) => {
                self.held.map.remove(id);
                self.erased = if self.map().is_empty() { None } else { self.erased.map(|erased| erased + 1) };
            }
            _ => return None,
        }
        if self.is_full() {
            self.erased = Some(0);
        }
        let after = stored_over(&self.held.map, &self.words);
        Some(std::mem::replace(&mut self.words, after))
    }
}

pub struct Pads {
    slices: Slices,
    pub tally: Tally,
    pub differences: u64,
    pub smallest: Option<Kept>,
    /// where the model itself is not what a worked example, a known damage or the words of a map say
    pub astray: Vec<String>,
    /// the first two pads that differ in velocities alone and are not written out alike
    pub unlike: Option<String>,
}

impl Pads {
    pub fn new() -> Self {
        let (slices, tally) = (Slices::new(), Tally::new());
        Pads { slices, tally, differences: 0, smallest: None, astray: Vec::new(), unlike: None }
    }

    /// Makes the call on these words, which should then be this pad's; says what differs.
    pub fn differs(&mut self, words: &[u32], call: &Call, told: &Told, pad: &Pad) -> Option<String> {
        let expected = reply(told);
        let expected_hits = reply(&answer(&pad.held, &Call::Hits));
        let after = &pad.words[..];
        let ([reply, hits], now) = self.slices.ask(words, call);
        let place = (0..after.len()).find(|i| now[*i] != after[*i]).filter(|_| now != after);
        let changed = place.map(|i| format!("word {i} is {}, the model's {}, before the call {}\n", now[i], after[i], words[i]));
        let nothing = Answer::default();
        let Answer { sounds, steps, velocities, bytes, .. } = told.as_ref().unwrap_or(&nothing);
        let Slices { sounds: s, steps: t, velocities: v, out, given_left, .. } = &self.slices;
        let held = s.holds(sounds) && t.holds(steps) && v.holds(velocities) && out.holds(bytes);
        if reply == expected && hits == expected_hits && held && *given_left && changed.is_none() {
            return None;
        }
        let mut said = format!("the library: {reply:?}\nthe model:   {expected:?}\n");
        if hits != expected_hits && *call != Call::Hits {
            said += &format!("the counter afterwards: {hits:?}\nthe model's:            {expected_hits:?}\n");
        }
        said += &changed.unwrap_or_default();
        if !given_left {
            said += "what is only read is written to\n";
        }
        if !held {
            let lent = (s.now(), t.now(), v.now(), &out.now()[..out.now().len().min(512)]);
            let answer = (sounds, steps, velocities, bytes);
            said += &format!("lent places afterwards: {lent:x?}\nthe model's answer: {answer:x?}\n");
        }
        Some(said)
    }

    /// Makes the call by both, and changes the pad as the model has it.
    pub fn run(&mut self, pad: &mut Pad, call: &Call) -> Told {
        let told = answer(&pad.held, call);
        self.tally.count(pad, call, &told);
        let before = pad.change(&told);
        self.tally.count_after(pad, call, &told);
        let before = before.as_ref().unwrap_or(&pad.words);
        if self.differs(before, call, &told, pad).is_some() {
            self.differences += 1;
            let kept = Kept { words: before.clone(), call: call.clone() };
            if self.smallest.as_ref().is_none_or(|known| kept.size() < known.size()) {
                self.smallest = Some(kept);
            }
        }
        self.whatever_the_velocities(pad, call, &told);
        told
    }

    /// Writes out also from the pad with other velocities, and compares what the library then does with what it did.
    fn whatever_the_velocities(&mut self, pad: &Pad, call: &Call, told: &Told) {
        if !matches!(call, Call::Write { .. }) || pad.held.broken.is_some() || hits_in(pad.map()) == 0 {
            return;
        }
        match velocities::differ(&mut self.slices, &pad.words, pad.map(), call) {
            Some(said) => {
                self.differences += 1;
                self.unlike.get_or_insert(said);
            }
            None => self.tally.count_alike(told),
        }
    }

    /// The model's own words for its map have to hold that map.
    pub fn hold(&mut self, pad: &Pad) {
        let held = Held::of(&pad.words);
        if held.broken != pad.held.broken || held.map != pad.held.map {
            self.stray(format!("the words of {:?} hold {held:?}", pad.held));
        } else {
            self.tally.held += 1;
        }
    }

    /// Keeps what is said of the model, in part where it is long.
    pub fn stray(&mut self, said: String) {
        self.differences += 1;
        self.astray.push(said.chars().take(4000).collect());
        self.astray.sort_by_key(String::len);
        self.astray.truncate(3);
    }
}
