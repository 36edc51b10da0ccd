//! The replay list: some cases of every kind with the oracle's answers, in the format of README.md.

use crate::case::{Call, Case, Room};
use crate::lent::Place;
use crate::reply::Reply;
use crate::rust::{Answer, Refused};
use std::collections::HashMap;

const LONGEST_CASE: usize = 4096;
const LONGEST_LIST: usize = 192;
const LONGEST_BUFFER: usize = 64;
const LONGEST_SEGMENT: usize = 1536;
const LONGEST_TEXT: usize = 512;
const LONGEST_FILE: usize = 2_000_000;

pub struct Sample {
    /// how many cases of one sort are taken
    pub quota: u32,
    taken: HashMap<(u8, bool, [u64; 5]), u32>,
    cases: u32,
    bytes: Vec<u8>,
}

fn fits(case: &Case, room: Room) -> bool {
    case.segment.len() <= LONGEST_SEGMENT
        && case.text.len() <= LONGEST_TEXT
        && case.second.len() <= LONGEST_TEXT
        && case.lists.iter().all(|list| list.len() <= LONGEST_LIST)
        && room.places.iter().all(|places| *places <= LONGEST_BUFFER)
        && room.bytes <= LONGEST_SEGMENT
}

fn put_words(bytes: &mut Vec<u8>, words: &[u32]) {
    bytes.extend(words.iter().flat_map(|word| word.to_le_bytes()));
}

/// A buffer after the call: the answer, and the pattern behind it.
fn filled<T: Place>(answer: &[T], room: usize) -> Vec<T> {
    answer.iter().copied().chain((answer.len()..room).map(T::pattern)).collect()
}

fn record(case: &Case, room: Room, told: Result<&Answer, Refused>) -> Vec<u8> {
    let nothing = Answer::default();
    let (reply, answer) = match told {
        Ok(answer) => (Reply::accepted(answer.first, answer.second), answer),
        Err((_, refusal)) => (Reply::from(refusal), &nothing),
    };
    let mut bytes = vec![case.call as u8, case.ordered.into(), 0, 0];
    put_words(&mut bytes, &[case.number, reply.kind, reply.which]);
    for number in [reply.index, reply.first, reply.second] {
        bytes.extend(number.to_le_bytes());
    }
    for length in [case.segment.len(), case.text.len(), case.second.len(), room.bytes] {
        bytes.extend((length as u32).to_le_bytes());
    }
    for length in case.lists.iter().map(|list| list.len()).chain(room.places) {
        bytes.extend((length as u32).to_le_bytes());
    }
    for part in [case.segment, case.text, case.second, &filled(&answer.bytes, room.bytes)] {
        bytes.extend(part);
    }
    for list in case.lists {
        put_words(&mut bytes, list);
    }
    for (list, places) in answer.places.iter().zip(room.places) {
        put_words(&mut bytes, &filled(list, places));
    }
    let mut record = (bytes.len() as u32).to_le_bytes().to_vec();
    record.extend(bytes);
    record
}

impl Sample {
    pub fn new() -> Self {
        Sample { quota: 0, taken: HashMap::new(), cases: 0, bytes: Vec::new() }
    }

    /// Another part of the run begins: cases of every sort are taken again.
    pub fn begin(&mut self, quota: u32) {
        self.quota = quota;
        self.taken.clear();
    }

    /// Cases are of one sort when call, refusal or answer lengths, and the number of names (up to 4) agree.
    pub fn offer(&mut self, case: &Case, room: Room, told: Result<&Answer, Refused>) {
        let sort = match told {
            Ok(answer) => {
                let spare = (0..3).any(|i| room.places[i] > answer.places[i].len()) || room.bytes > answer.bytes.len();
                [0, answer.first.min(3), answer.second.min(3), case.lists[0].len().min(4) as u64, spare.into()]
            }
            Err((stage, refusal)) => [refusal.kind.into(), refusal.which.into(), stage as u64, refusal.index.min(3), 0],
        };
        let taken = self.taken.entry((case.call as u8, case.ordered, sort)).or_insert(0);
        // the writer's outcomes are few sorts, and each has many ways to come about
        let quota = if case.call == Call::Write { 6 * self.quota } else { self.quota };
        if *taken >= quota || !fits(case, room) {
            return;
        }
        let record = record(case, room, told);
        if record.len() <= LONGEST_CASE && self.bytes.len() + record.len() <= LONGEST_FILE {
            *taken += 1;
            self.cases += 1;
            self.bytes.extend(record);
        }
    }

    pub fn write(&self, file: &str) -> std::io::Result<()> {
        let mut all = b"PSTPCASE".to_vec();
        put_words(&mut all, &[1, self.cases]);
        all.extend(&self.bytes);
        std::fs::write(file, &all)?;
        println!("\nreplay list: {} cases, {} bytes, in {file}", self.cases, all.len());
        Ok(())
    }
}
