//! One file put to the library and to the model, compared: the reply's seven numbers and every lent place.

use super::answer::{found, full_room, in_room, reply, Found, Room};
use super::call::{midi_bars, Buffers};
use super::sample::Sample;
use super::tally::Tally;
use crate::random::Random;

/// A file and the lengths of its buffers.
#[derive(Clone)]
pub struct Kept {
    pub file: Vec<u8>,
    pub room: Room,
}

impl Kept {
    /// What a smaller one has less of: bytes and places first, then the bytes themselves.
    pub fn size(&self) -> (usize, u64) {
        let weight = self.file.iter().map(|byte| u64::from(*byte)).sum();
        (self.file.len() + self.room.iter().sum::<usize>(), weight)
    }
}

pub struct Midi {
    lent: Buffers,
    pub tally: Tally,
    pub differences: u64,
    pub smallest: Option<Kept>,
    /// Where the model itself is not what a worked file, its maker or the writer says.
    pub astray: Vec<String>,
    pub sample: Option<Sample>,
}

impl Midi {
    pub fn new(sample: Option<Sample>) -> Self {
        Midi { lent: Buffers::new(), tally: Tally::new(), differences: 0, smallest: None, astray: Vec::new(), sample }
    }

    /// Runs the library with buffers of these lengths; says what differs.
    pub fn differs(&mut self, file: &[u8], found: &Found, room: Room) -> Option<String> {
        let told = in_room(found, room);
        let expected = reply(told);
        self.lent.lend(room);
        let reply = midi_bars(file, &mut self.lent);
        let held = self.lent.hold(told.ok());
        if reply == expected && held {
            return None;
        }
        let mut said = format!("the library: {reply:?}\nthe model:   {expected:?}\n");
        if let Err((why, _)) = told {
            said += &format!("why: {why:?}\n");
        }
        if !held {
            said += &format!("lent places afterwards: {}\nthe model's answer: ", self.lent.shown());
            said += &told.map_or("as they were\n".to_string(), |answer| format!("{:x?} {:x?}\n", answer.flat, answer.velocities));
        }
        Some(said)
    }

    pub fn run(&mut self, file: &[u8], found: &Found, room: Room) {
        let difference = self.differs(file, found, room);
        let told = in_room(found, room);
        self.tally.count(told);
        if let Some(sample) = &mut self.sample {
            sample.offer(file, room, told);
        }
        if difference.is_some() {
            self.differences += 1;
            let kept = Kept { file: file.to_vec(), room };
            if self.smallest.as_ref().is_none_or(|known| kept.size() < known.size()) {
                self.smallest = Some(kept);
            }
        }
    }

    /// Asks with buffers that are exactly full.
    pub fn ask_full(&mut self, file: &[u8]) -> Found {
        let found = found(file);
        self.run(file, &found, full_room(&found));
        found
    }

    /// Asks with buffers now exactly full, now one short, empty or larger; a file that is refused gets any.
    pub fn ask(&mut self, random: &mut Random, file: &[u8]) -> Found {
        let found = found(file);
        for _ in 0..random.pick(&[1, 1, 1, 2]) {
            let room = match &found {
                Ok(answer) => some_room(random, answer.needed()),
                Err(_) => any_room(random),
            };
            self.run(file, &found, room);
        }
        found
    }

    /// Asks with each buffer in turn empty, one short and larger, and with all of them so.
    pub fn every_room(&mut self, file: &[u8]) {
        let found = found(file);
        let full = full_room(&found);
        let other: [fn(usize) -> usize; 4] =
            [|_| 0, |places| places.saturating_sub(1), |places| places + 1, |places| 2 * places + 3];
        for other in other {
            for buffer in 0..full.len() {
                let mut room = full;
                room[buffer] = other(room[buffer]);
                self.run(file, &found, room);
            }
            self.run(file, &found, full.map(other));
        }
    }

    pub fn stray(&mut self, said: String) {
        self.differences += 1;
        self.astray.push(said);
        self.astray.sort_by_key(String::len);
        self.astray.truncate(3);
    }
}

fn some_length(random: &mut Random, needed: usize) -> usize {
    match random.below(8) {
        0..=3 => needed,
        4 => needed + 1 + random.below(4),
        5 | 6 => needed.saturating_sub(1),
        _ => random.below(needed + 2),
    }
}

fn some_room(random: &mut Random, full: Room) -> Room {
    let one = random.below(full.len());
    let mut room = full;
    match random.below(12) {
        0..=2 => {}
        3..=5 => room[one] = room[one].saturating_sub(1),
        6 => room[one] = 0,
        7 => room[one] += random.below(5) + 1,
        8 => room = full.map(|places| places + random.below(4)),
        9 => room[one..].fill(0),
        10 => room[one..].iter_mut().for_each(|places| *places = places.saturating_sub(1)),
        _ => room = full.map(|places| some_length(random, places)),
    }
    room
}

fn any_room(random: &mut Random) -> Room {
    let most = random.pick(&[0, 1, 4, 20]);
    [0; 9].map(|_| random.below(most + 1))
}
