//! The replay list of MIDI files: some cases of every clause with the model's answers, in the format of README.md, which has no velocities.

use super::answer::{reply, Room, Told, Why, NUMBERS, TEXT, VELOCITIES};
use super::clause::{Clause, CLAUSES};
use crate::lent::Place;
use std::collections::BTreeMap;

const LONGEST_CASE: usize = 4096;
const LONGEST_FILE: usize = 400;
const LONGEST_BUFFER: usize = 64;
const LONGEST_TEXT: usize = 256;

/// What makes two cases one sort: the reason of a refusal, or bars and sounds up to 3 and whether there was more room.
type Sort = (Option<Why>, [u64; 2], bool);

pub struct Sample {
    /// how many cases of one sort are taken
    quota: u32,
    taken: BTreeMap<Sort, u32>,
    /// each once, in the order in which they came
    cases: Vec<Vec<u8>>,
}

/// A buffer after the call: the answer, and the pattern behind it.
fn filled<T: Place>(answer: &[T], room: usize) -> Vec<T> {
    answer.iter().copied().chain((answer.len()..room).map(T::pattern)).collect()
}

fn fits(file: &[u8], room: Room) -> bool {
    let places = room.iter().enumerate().filter(|(buffer, _)| *buffer != TEXT);
    file.len() <= LONGEST_FILE && room[TEXT] <= LONGEST_TEXT && places.into_iter().all(|(_, places)| *places <= LONGEST_BUFFER)
}

fn record(file: &[u8], room: Room, told: Told) -> Vec<u8> {
    let reply = reply(told);
    let mut bytes = Vec::new();
    for number in [reply.kind, reply.which] {
        bytes.extend(number.to_le_bytes());
    }
    for number in [reply.index, reply.first, reply.second, reply.third, reply.fourth] {
        bytes.extend(number.to_le_bytes());
    }
    for length in [file.len()].iter().chain(&room[..VELOCITIES]) {
        bytes.extend((*length as u32).to_le_bytes());
    }
    bytes.extend(file);
    let answer = told.ok();
    for (buffer, places) in room.into_iter().enumerate().take(VELOCITIES) {
        if let Some((_, list)) = NUMBERS.iter().find(|(number, _)| *number == buffer) {
            let numbers = filled(answer.map_or(&[][..], |answer| &answer.flat.lists[*list]), places);
            bytes.extend(numbers.iter().flat_map(|number| number.to_le_bytes()));
        } else {
            bytes.extend(filled(answer.map_or(&[][..], |answer| &answer.flat.text), places));
        }
    }
    let mut record = (bytes.len() as u32).to_le_bytes().to_vec();
    record.extend(bytes);
    record
}

fn sort(room: Room, told: Told) -> Sort {
    match told {
        Ok(answer) => {
            let reply = answer.reply();
            (None, [reply.first.min(3), reply.second.min(3)], room[..VELOCITIES] != answer.needed()[..VELOCITIES])
        }
        Err((why, _)) => (Some(why), [0; 2], false),
    }
}

impl Sample {
    pub fn new() -> Self {
        Sample { quota: 0, taken: BTreeMap::new(), cases: Vec::new() }
    }

    /// Another part of the run begins: so many cases of every sort are taken, counting those of the parts before.
    pub fn begin(&mut self, quota: u32) {
        self.quota = quota;
    }

    pub fn offer(&mut self, file: &[u8], room: Room, told: Told) {
        // these two come about in more ways than a broken clause does
        let many = matches!(told, Err((Why::NoRoom(_) | Why::File(Clause::TooFar), _)));
        let quota = if many { 2 * self.quota } else { self.quota };
        if self.taken.get(&sort(room, told)).copied().unwrap_or(0) < quota {
            self.take(file, room, told);
        }
    }

    /// Takes a case whatever its sort, unless it is too long or was taken before.
    pub fn take(&mut self, file: &[u8], room: Room, told: Told) {
        let no_velocities = matches!(told, Err((Why::NoRoom(buffer), _)) if buffer as usize == VELOCITIES + 1);
        if no_velocities || !fits(file, room) {
            return;
        }
        let record = record(file, room, told);
        if record.len() <= LONGEST_CASE && !self.cases.contains(&record) {
            *self.taken.entry(sort(room, told)).or_insert(0) += 1;
            self.cases.push(record);
        }
    }

    pub fn write(&self, file: &str) -> std::io::Result<()> {
        let mut all = b"PSTPMIDI".to_vec();
        for number in [1, self.cases.len() as u32] {
            all.extend(number.to_le_bytes());
        }
        all.extend(self.cases.iter().flatten());
        std::fs::write(file, &all)?;
        println!("\nreplay list of MIDI files: {} cases, {} bytes, in {file}", self.cases.len(), all.len());
        let lacks = |clause: Clause| !self.taken.keys().any(|sort| sort.0 == Some(Why::File(clause)));
        for (_, words) in CLAUSES.iter().filter(|(clause, _)| lacks(*clause)) {
            println!("not in the list: {words}");
        }
        Ok(())
    }
}
