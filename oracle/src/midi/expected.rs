//! Expected answers as text, one line each: reply, the lists, and phrases with the bars that they list.

use super::answer::{found, full_room, in_room, reply, sound, Answer, Room, BUFFERS, NUMBERS, TEXT, VELOCITIES};
use super::compare::Midi;
use super::phrases::{self, meeting};
use crate::compare::{opened, Runner};
use crate::reply::Reply;

#[derive(Default)]
pub struct Expected {
    /// the file itself, in hex, where the text has it
    pub file: String,
    /// exactly full where it is not said
    room: Option<Room>,
    /// kind, which, index, then first to fourth
    reply: Vec<u64>,
    /// the lists as they stand in the text; one that it lacks is empty
    lists: [String; 9],
    /// whether the text says velocities; where it does not, the model's alone are compared with the library's
    pub loud: bool,
    /// notes, and the bars that list them
    phrases: Vec<(Vec<u8>, Vec<u32>)>,
}

fn numbers<T: std::str::FromStr>(text: &str) -> Option<Vec<T>> {
    text.split_whitespace().map(|word| word.parse().ok()).collect()
}

/// `n036 n038 : 0 1`, or `: none`.
fn phrase(text: &str) -> Option<(Vec<u8>, Vec<u32>)> {
    let (names, bars) = text.split_once(':')?;
    let notes: Option<Vec<u8>> = names.split_whitespace().map(|name| name.strip_prefix('n')?.parse().ok()).collect();
    let bars = if bars.trim() == "none" { Vec::new() } else { numbers(bars)? };
    Some((notes?, bars))
}

pub fn parsed(text: &str) -> Option<Expected> {
    let mut expected = Expected::default();
    for line in text.lines().map(str::trim).filter(|line| !line.is_empty()) {
        let (key, value) = line.split_once(' ').unwrap_or((line, ""));
        match key {
            "file" => expected.file = value.to_string(),
            "room" => expected.room = Some(numbers(value)?.try_into().ok()?),
            "reply" => expected.reply = numbers(value)?,
            "phrase" => expected.phrases.push(phrase(value)?),
            _ => {
                expected.loud |= key == BUFFERS[VELOCITIES];
                expected.lists[BUFFERS.iter().position(|name| *name == key)?] = value.to_string();
            }
        }
    }
    (expected.reply.len() == 7).then_some(expected)
}

impl Expected {
    /// A refusal, or no hits.
    pub fn empty(&self) -> bool {
        self.reply[6] == 0
    }
}

/// The lists of an answer in the same form.
fn lists(answer: Option<&Answer>, loud: bool) -> [String; 9] {
    let mut lists: [String; 9] = Default::default();
    if let Some(answer) = answer {
        for (buffer, list) in NUMBERS {
            let words: Vec<String> = answer.flat.lists[list].iter().map(u32::to_string).collect();
            lists[buffer] = words.join(" ");
        }
        lists[TEXT] = String::from_utf8_lossy(&answer.flat.text).into();
        if loud {
            let words: Vec<String> = answer.velocities.iter().map(u8::to_string).collect();
            lists[VELOCITIES] = words.join(" ");
        }
    }
    lists
}

fn digits(reply: Reply) -> Vec<u64> {
    vec![reply.kind.into(), reply.which.into(), reply.index, reply.first, reply.second, reply.third, reply.fourth]
}

/// The model has to say what is expected, and the library what the model says.
pub fn check(midi: &mut Midi, runner: &mut Runner, what: &str, file: &[u8], expected: &Expected) {
    midi.tally.files += 1;
    let found = found(file);
    let room = expected.room.unwrap_or(full_room(&found));
    let told = in_room(&found, room);
    if let Some(sample) = &mut midi.sample {
        sample.take(file, room, told);
    }
    midi.run(file, &found, room);
    if expected.room.is_none() {
        midi.every_room(file);
    }
    let said = lists(told.ok(), expected.loud);
    if digits(reply(told)) != expected.reply || said != expected.lists {
        midi.stray(format!("{what}: the model says {:?} {said:?}", reply(told)));
    }
    let Ok(answer) = told else { return };
    midi.tally.loud_as_expected += u64::from(expected.loud);
    let Some(written) = runner.ask_full(&answer.flat.case(), &opened(&[])) else {
        return midi.stray(format!("{what}: the writer refuses the lists"));
    };
    midi.tally.written += 1;
    let segment = opened(&written.bytes);
    runner.sheets.some(&segment);
    for (notes, bars) in &expected.phrases {
        midi.tally.phrases += 1;
        let said = phrases::ask(runner, &segment, &answer.hits, notes);
        if said.is_err() || meeting(&answer.hits, notes) != *bars {
            let names: String = notes.iter().map(|note| sound(*note)).collect();
            midi.stray(format!("{what}: phrase {names} is expected in {bars:?}; {said:?}"));
        }
    }
}
