//! A sheet asked of the library and of the model, compared: the reply's seven numbers and every lent byte.

use super::call::bar_sheet;
use super::model::{found, in_room, reply, Found, Paper, Why};
use super::read_back::wrong;
use super::tally::Tally;
use crate::given::Given;
use crate::lent::Lent;
use crate::random::Random;
use crate::rust::Opened;

/// A segment, the bar asked for, and the buffer's length.
#[derive(Clone)]
pub struct Kept {
    pub segment: Vec<u8>,
    pub id: u32,
    pub room: usize,
}

impl Kept {
    /// What a smaller one has less of: bytes and places first, then the bytes themselves and the id.
    pub fn size(&self) -> (usize, u64) {
        let weight: u64 = self.segment.iter().map(|byte| u64::from(*byte)).sum();
        (self.segment.len() + self.room, weight + u64::from(self.id))
    }
}

pub struct Sheets {
    lent: Lent<u8>,
    /// its own, so that the other calls of a seed are the same with sheets and without
    random: Random,
    pub tally: Tally,
    pub differences: u64,
    pub smallest: Option<Kept>,
    /// where the model itself is not what a worked sheet, a breaker of lists or the lists handed in say
    pub astray: Vec<String>,
}

impl Sheets {
    pub fn new(seed: u64) -> Self {
        Sheets {
            lent: Lent::new(),
            random: Random::new(seed),
            tally: Tally::new(),
            differences: 0,
            smallest: None,
            astray: Vec::new(),
        }
    }

    /// Runs the library with a buffer of this length; says what differs.
    pub fn differs(&mut self, segment: &[u8], id: u32, found: &Found, room: usize) -> Option<String> {
        let told = in_room(found, room);
        let expected = reply(told);
        self.lent.lend(room);
        let reply = bar_sheet(segment, id, &mut self.lent);
        let held = self.lent.holds(told.map_or(&[], |sheet| sheet.text.as_bytes()));
        if reply == expected && held {
            return None;
        }
        let mut said = format!("the library: {reply:?}\nthe model:   {expected:?}\n");
        if let Err((why, _)) = told {
            said += &format!("why: {why:?}\n");
        }
        if !held {
            let now = String::from_utf8_lossy(&self.lent.now()[..room.min(4096)]).into_owned();
            said += &format!("the buffer afterwards:\n{now:?}\nthe model's:\n");
            said += &told.map_or("as it was\n".to_string(), |sheet| format!("{:?}\n", sheet.text));
        }
        Some(said)
    }

    pub fn run(&mut self, paper: &Paper, id: u32, found: &Found, room: usize) {
        let difference = self.differs(paper.segment(), id, found, room);
        self.tally.count(paper, id, in_room(found, room), room);
        if difference.is_some() {
            self.differences += 1;
            let kept = Kept { segment: paper.segment().to_vec(), id, room };
            if self.smallest.as_ref().is_none_or(|known| kept.size() < known.size()) {
                self.smallest = Some(kept);
            }
        }
    }

    /// Asks with a buffer that is exactly full; where there is no sheet, with a line's places, which have to be left as they were.
    pub fn ask_full(&mut self, paper: &Paper, id: u32) -> Found {
        let found = found(paper, id);
        self.run(paper, id, &found, full_room(&found));
        found
    }

    /// Asks with a buffer now exactly full, now one short, empty or larger.
    pub fn ask(&mut self, paper: &Paper, id: u32) -> Found {
        let found = found(paper, id);
        for _ in 0..self.random.pick(&[1, 1, 1, 2]) {
            let room = some_room(&mut self.random, &found);
            self.run(paper, id, &found, room);
        }
        found
    }

    /// Asks with every sort of buffer: none, short of a line, of the last line or of one byte, full, and larger.
    pub fn every_room(&mut self, paper: &Paper, id: u32) -> Found {
        let found = found(paper, id);
        let full = full_room(&found);
        for room in [0, 1, 80, 81, full.saturating_sub(69), full - 1, full, full + 1, full + 7, 2 * full + 90] {
            self.run(paper, id, &found, room);
        }
        found
    }

    /// Some bars of any segment, in it or not; one if it does not open.
    pub fn some(&mut self, opened: &Opened) {
        let paper = Paper::new(opened);
        for _ in 0..if opened.segment.is_ok() { 3 } else { 1 } {
            let id = some_id(&mut self.random, paper.bars());
            drop(self.ask(&paper, id));
        }
    }

    /// The same where the lists handed in are known, which every sheet has to show.
    pub fn some_of(&mut self, opened: &Opened, given: &Given, count: usize) {
        let paper = Paper::new(opened);
        for _ in 0..count {
            let id = some_id(&mut self.random, paper.bars());
            let found = self.ask(&paper, id);
            self.hold(given, id, &found);
        }
    }

    /// What the model says of a bar, against the lists handed in.
    pub fn hold(&mut self, given: &Given, id: u32, found: &Found) {
        let length = given.documents.iter().find(|document| document.0 == id).map(|document| document.1);
        let said = match (found, length) {
            (Ok(sheet), Some(0..=64)) => wrong(given, id, sheet.text.as_bytes()),
            (Err((Why::UnknownBar, _)), None) | (Err((Why::TooLong, _)), Some(65..)) => None,
            _ => Some(format!("of length {length:?}, but {:?}", found.as_ref().err())),
        };
        match said {
            None => self.tally.held += 1,
            Some(said) => self.stray(format!("bar {id}: {said}, over {given:?}")),
        }
    }

    pub fn stray(&mut self, said: String) {
        self.differences += 1;
        self.astray.push(said);
        self.astray.sort_by_key(String::len);
        self.astray.truncate(3);
    }
}

pub fn full_room(found: &Found) -> usize {
    found.as_ref().map_or(81, |sheet| sheet.text.len())
}

fn some_room(random: &mut Random, found: &Found) -> usize {
    let Ok(sheet) = found else { return random.pick(&[0, 0, 1, 80, 81, 82, 300]) };
    let needed = sheet.text.len();
    match random.below(12) {
        0..=4 => needed,
        5 => needed + 1,
        6 => needed + 1 + random.below(200),
        7 | 8 => needed - 1,
        9 => 0,
        10 => needed - 1 - random.below(80),
        _ => random.below(needed + 2),
    }
}

/// A bar's id, one beside it, or a number where something changes.
fn some_id(random: &mut Random, bars: &[(u32, u32)]) -> u32 {
    if bars.is_empty() || random.chance(8) {
        return random.edge();
    }
    let at = match random.below(8) {
        0 => 0,
        1 => bars.len() - 1,
        _ => random.below(bars.len()),
    };
    bars[at].0.wrapping_add(random.pick(&[0, 0, 0, 0, 0, 0, 0, 0, 0, 0, 1, u32::MAX]))
}
