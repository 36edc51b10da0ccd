//! A ranked question put to the library and to the model, compared: the reply's seven numbers and every lent place.

use super::by_steps;
use super::call::phrase_match_ranked;
use super::model::{found, in_room, reply, Found, Lengths};
use super::shrink::shown;
use super::tally::Tally;
use crate::case::{Call, Case, Kept, Room, ENDS};
use crate::compare::{self, opened};
use crate::given::Given;
use crate::lent::Lent;
use crate::random::Random;
use crate::rust::Opened;
use crate::words;

pub struct Ranked {
    lent: [Lent<u32>; 2],
    /// its own, so that the other calls of a seed are the same with ranked questions and without
    random: Random,
    pub tally: Tally,
    pub differences: u64,
    /// as a phrase question, whose room is that of ids and counts
    pub smallest: Option<Kept>,
    /// where the model itself is not what the Rust, the lists handed in, a breaker of lists or a worked answer say
    pub astray: Vec<String>,
}

/// A question and the segment that it is put to.
pub fn question<'a>(segment: &'a [u8], text: &'a [u8], ends: &'a [u32]) -> Case<'a> {
    let mut case = Case::on(Call::Phrase, segment).named(text);
    case.lists[ENDS] = ends;
    case
}

pub fn kept(case: &Case, [ids, counts]: Lengths) -> Kept {
    Kept::new(case, Room { places: [ids, counts, 0], bytes: 0 })
}

pub fn lengths(kept: &Kept) -> Lengths {
    [kept.room.places[0], kept.room.places[1]]
}

impl Ranked {
    pub fn new(seed: u64) -> Self {
        Ranked {
            lent: [Lent::new(), Lent::new()],
            random: Random::new(seed),
            tally: Tally::new(),
            differences: 0,
            smallest: None,
            astray: Vec::new(),
        }
    }

    /// Runs the library with buffers of these lengths; says what differs.
    pub fn differs(&mut self, case: &Case, found: &Found, room: Lengths) -> Option<String> {
        let told = in_room(found, room);
        let expected = reply(told);
        for (buffer, length) in self.lent.iter_mut().zip(room) {
            buffer.lend(length);
        }
        let reply = phrase_match_ranked(case, &mut self.lent);
        let [ids, counts] = told.map_or([&[][..]; 2], |ranking| [&ranking.ids, &ranking.counts]);
        let held = self.lent[0].holds(ids) && self.lent[1].holds(counts);
        if reply == expected && held {
            return None;
        }
        let mut said = format!("the library: {reply:?}\nthe model:   {expected:?}\n");
        if !held {
            let now = self.lent.each_ref().map(|buffer| &buffer.now()[..buffer.now().len().min(256)]);
            said += &format!("ids and counts afterwards: {now:?}\n");
            said += &told.map_or("the model's: as they were\n".to_string(), |_| format!("the model's: {:?}\n", [ids, counts]));
        }
        Some(said)
    }

    pub fn run(&mut self, case: &Case, opened: &Opened, found: &Found, room: Lengths) {
        let difference = self.differs(case, found, room);
        self.tally.count(case, opened, found, room);
        if difference.is_some() {
            self.differences += 1;
            let kept = kept(case, room);
            if self.smallest.as_ref().is_none_or(|known| kept.size() < known.size()) {
                self.smallest = Some(kept);
            }
        }
    }

    /// The model's answer, held against the Rust's plain one: the same refusal, or the same bars listed upward.
    fn held(&mut self, case: &Case, opened: &Opened, plain: &compare::Found) -> Found {
        let found = found(case, opened);
        let same = match (&found, plain) {
            (Ok(ranking), Ok(plain)) => {
                let mut upward = ranking.ids.clone();
                upward.sort_unstable();
                upward == plain.places[0]
            }
            (Err(refused), Err(plain)) => refused == plain,
            _ => false,
        };
        if same {
            self.tally.beside_plain += 1;
        } else {
            let case = shown(&kept(case, [0, 0]));
            self.stray(format!("{case}: the Rust's plain answer is {plain:?}, the model's {found:?}"));
        }
        found
    }

    /// The model's answer against the lists handed in.
    fn hold(&mut self, case: &Case, given: &Given, found: &Found) {
        let Ok(ranking) = found else { return };
        let names: Vec<&[u8]> = words::names(case.text, case.lists[ENDS]).collect();
        let stepped = by_steps::ranking(given, &names);
        if (&stepped.ids, &stepped.counts) == (&ranking.ids, &ranking.counts) {
            self.tally.held += 1;
        } else {
            self.stray(format!("step by step {stepped:?}, the model {ranking:?}: {names:?} over {given:?}"));
        }
    }

    /// Asks with buffers now exactly full, now one of them short, empty or larger.
    pub fn ask(&mut self, case: &Case, opened: &Opened, given: Option<&Given>) -> Found {
        let found = self.held(case, opened, &compare::found(case, opened));
        if let Some(given) = given {
            self.hold(case, given, &found);
        }
        self.by_turns(case, opened, &found);
        found
    }

    fn by_turns(&mut self, case: &Case, opened: &Opened, found: &Found) {
        for _ in 0..self.random.pick(&[1, 1, 1, 2]) {
            let room = some_room(&mut self.random, found);
            self.run(case, opened, found, room);
        }
    }

    /// A phrase question of the other parts, asked ranked as well.
    pub fn beside(&mut self, case: &Case, opened: &Opened, plain: &compare::Found) {
        if case.call == Call::Phrase {
            let found = self.held(case, opened, plain);
            self.by_turns(case, opened, &found);
        }
    }

    /// Asks with buffers that are exactly full, and a third of the time once more with others.
    pub fn ask_full(&mut self, case: &Case, opened: &Opened, given: &Given) {
        let found = self.held(case, opened, &compare::found(case, opened));
        self.hold(case, given, &found);
        self.run(case, opened, &found, full_room(&found));
        if self.random.chance(33) {
            let room = some_room(&mut self.random, &found);
            self.run(case, opened, &found, room);
        }
    }

    /// Asks with each buffer empty, shorter, one short, exactly full and larger, whatever the other one is.
    pub fn every_room(&mut self, case: &Case) -> Found {
        let opened = opened(case.segment);
        let found = self.held(case, &opened, &compare::found(case, &opened));
        let [full, _] = full_room(&found);
        let mut all = vec![0, 1, full / 2, full.saturating_sub(1), full, full + 1, full + 5];
        all.sort_unstable();
        all.dedup();
        for ids in &all {
            for counts in &all {
                self.run(case, &opened, &found, [*ids, *counts]);
            }
        }
        found
    }

    /// Keeps what is said of the model, in part where lists are long.
    pub fn stray(&mut self, said: String) {
        self.differences += 1;
        self.astray.push(said.chars().take(4000).collect());
        self.astray.sort_by_key(String::len);
        self.astray.truncate(3);
    }
}

pub fn full_room(found: &Found) -> Lengths {
    found.as_ref().map_or([0, 0], |ranking| [ranking.ids.len(); 2])
}

fn some_room(random: &mut Random, found: &Found) -> Lengths {
    let Ok(ranking) = found else { return [(); 2].map(|()| random.pick(&[0, 0, 1, 2, 9])) };
    let full = ranking.ids.len();
    let short = full.saturating_sub(1);
    let any = |random: &mut Random| random.below(full + 3);
    let larger = |random: &mut Random| full + 1 + random.below(5);
    match random.below(12) {
        0 | 1 => [full, full],
        2 => [larger(random), larger(random)],
        3 => [full, larger(random)],
        4 => [larger(random), full],
        5 => [short, full],
        6 => [full, short],
        7 => [short, larger(random)],
        8 => [larger(random), short],
        9 => random.pick(&[[0, full], [full, 0], [0, 0], [short, short]]),
        _ => [any(random), any(random)],
    }
}
