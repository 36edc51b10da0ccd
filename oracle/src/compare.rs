//! One call by both, compared: the reply's numbers and every lent place.

use crate::case::{Call, Case, Kept, Room};
use crate::handle::{self, Handles};
use crate::lent::Buffers;
use crate::library;
use crate::random::Random;
use crate::ranked::Ranked;
use crate::reply::{Refusal, Reply};
use crate::rust::{self, Answer, Opened, Refused, Stage};
use crate::sample::Sample;
use crate::sheet::Sheets;
use crate::tally::Tally;
use std::panic::{catch_unwind, AssertUnwindSafe};

pub type Found = Result<Answer, Refused>;

/// A fault of the Rust itself, as a refusal that no call gives.
const FAULT: Refused = (Stage::Arguments, Refusal::of_kind(99));

pub fn found(case: &Case, opened: &Opened) -> Found {
    catch_unwind(AssertUnwindSafe(|| rust::answer(case, opened))).unwrap_or(Err(FAULT))
}

pub fn opened(bytes: &[u8]) -> Opened<'_> {
    catch_unwind(|| Opened::new(bytes)).unwrap_or(Opened { bytes, segment: Err(FAULT) })
}

pub struct Runner {
    lent: Buffers,
    pub tally: Tally,
    pub differences: u64,
    pub smallest: Option<Kept>,
    /// Answers of the Rust that were held against demand 3's rules.
    pub ruled: u64,
    /// Where the Rust's own answer is not what demand 3 or the lists handed in say.
    pub astray: Vec<String>,
    pub sample: Option<Sample>,
    /// The sheets of bars in the same segments.
    pub sheets: Sheets,
    /// The same phrases, asked for the best bars first.
    pub ranked: Ranked,
    /// The handles of the same segments, and the same calls with them.
    pub handles: Handles,
}

impl Runner {
    pub fn new(sample: Option<Sample>, seed: u64) -> Self {
        Runner {
            lent: Buffers::new(),
            tally: Tally::new(),
            differences: 0,
            smallest: None,
            ruled: 0,
            astray: Vec::new(),
            sample,
            sheets: Sheets::new(seed),
            ranked: Ranked::new(seed),
            handles: Handles::new(),
        }
    }

    /// Runs the library with buffers of these lengths, then with each handle of the segment; says what differs first.
    pub fn differs(&mut self, case: &Case, found: &Found, room: Room) -> Option<String> {
        let told = rust::in_room(case, found, room);
        self.lent.lend(room);
        let reply = library::ask(case, &mut self.lent);
        let difference = self.difference(reply, told);
        if difference.is_some() || case.call == Call::Write {
            return difference;
        }
        let handles = match self.handles.of(case.segment) {
            Ok(handles) => handles,
            Err(said) => return Some(said),
        };
        for (name, handle) in handles.into_iter().filter(|_| handle::takes(case.call)) {
            self.lent.lend(room);
            let reply = handle::ask(case, handle, self.lent.places.each_mut().map(|buffer| buffer.raw()));
            if let Some(said) = self.difference(reply, told) {
                return Some(format!("{name}, {handle:?}:\n{said}"));
            }
        }
        None
    }

    /// What differs in the reply and the lent places from what the oracle says.
    fn difference(&self, reply: Reply, told: Result<&Answer, Refused>) -> Option<String> {
        let expected = match told {
            Ok(answer) => Reply::accepted(answer.first, answer.second),
            Err((_, refusal)) => Reply::from(refusal),
        };
        let held = match told {
            Ok(answer) => self.lent.hold(answer.places.each_ref().map(|list| &list[..]), &answer.bytes),
            Err(_) => self.lent.hold([&[]; 3], &[]),
        };
        if reply == expected && held {
            return None;
        }
        let mut said = format!("the library: {reply:?}\nthe oracle:  {expected:?}\n");
        if !held {
            let places = self.lent.places.each_ref().map(|buffer| buffer.now());
            said +=
                &format!("lent places afterwards: {places:x?} {:x?}\nthe oracle's answer: {told:x?}\n", self.lent.bytes.now());
        }
        Some(said)
    }

    pub fn run(&mut self, case: &Case, found: &Found, room: Room) {
        let difference = self.differs(case, found, room);
        let told = rust::in_room(case, found, room);
        self.tally.count(case.call, told);
        self.handles.count(case, told);
        if let Some(sample) = &mut self.sample {
            sample.offer(case, room, told);
        }
        if difference.is_some() {
            self.differences += 1;
            let kept = Kept::new(case, room);
            if self.smallest.as_ref().is_none_or(|known| kept.size() < known.size()) {
                self.smallest = Some(kept);
            }
        }
    }

    /// Asks both, with buffers now exactly full, now one short, empty or larger; gives the Rust's answer.
    pub fn ask(&mut self, random: &mut Random, case: &Case, opened: &Opened) -> Option<Answer> {
        let found = found(case, opened);
        self.run(case, &found, some_room(random, case, &found));
        if random.chance(25) {
            self.run(case, &found, some_room(random, case, &found));
        }
        self.ranked.beside(case, opened, &found);
        found.ok()
    }

    /// Asks both with buffers that are exactly full.
    pub fn ask_full(&mut self, case: &Case, opened: &Opened) -> Option<Answer> {
        let found = found(case, opened);
        self.run(case, &found, full_room(&found));
        self.ranked.beside(case, opened, &found);
        found.ok()
    }

    pub fn stray(&mut self, said: String) {
        self.differences += 1;
        self.astray.push(said);
        self.astray.sort_by_key(String::len);
        self.astray.truncate(3);
    }
}

pub fn full_room(found: &Found) -> Room {
    match found {
        Ok(answer) => Room { places: answer.places.each_ref().map(Vec::len), bytes: answer.bytes.len() },
        Err(_) => Room::default(),
    }
}

fn some_length(random: &mut Random, needed: usize) -> usize {
    match random.below(10) {
        0..=4 => needed,
        5 | 6 => needed + 1 + random.below(4),
        7 | 8 => needed.saturating_sub(1),
        _ => random.below(needed + 2),
    }
}

fn some_room(random: &mut Random, case: &Case, found: &Found) -> Room {
    let needed = full_room(found);
    let mut room = Room::default();
    for i in 0..case.call.buffers() {
        room.places[i] = some_length(random, needed.places[i]);
    }
    if case.call == Call::Write {
        room.bytes = some_length(random, needed.bytes);
    }
    room
}
