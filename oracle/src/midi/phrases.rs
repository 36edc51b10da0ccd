//! Phrases put to an imported and written file, held against the file's own notes.

use super::answer::{sound, Answer};
use super::model::{Hit, Hits, BAR_LENGTH};
use crate::case::{Call, Case, Kept, Room, ENDS};
use crate::compare::{opened, Runner};
use crate::random::Random;
use crate::reshape::given_of;
use crate::rust::Opened;
use std::collections::BTreeSet;

/// The bars in which the file's own notes meet a phrase: some start has note i on step start + i, all within the bar.
pub fn meeting(hits: &Hits, phrase: &[u8]) -> Vec<u32> {
    let bars: BTreeSet<u32> = hits.keys().map(|hit| hit.bar).collect();
    let meets = |bar: u32, start: u32| {
        let steps = (start..).zip(phrase);
        !phrase.is_empty() && steps.into_iter().all(|(position, note)| hits.contains_key(&Hit { note: *note, bar, position }))
    };
    bars.into_iter().filter(|bar| (0..BAR_LENGTH).any(|start| meets(*bar, start))).collect()
}

/// Notes on steps one after the other from some hit on, over a bar line too, or any notes.
fn some_phrase(random: &mut Random, hits: &[Hit]) -> Vec<u8> {
    let any = random.small(0, 127) as u8;
    let Some(last) = hits.len().checked_sub(1) else { return vec![any] };
    let from = hits[random.below(last + 1)];
    let length = random.pick(&[1, 2, 2, 2, 3, 3, 4, 6]);
    let step = |hit: &Hit| u64::from(hit.bar) * u64::from(BAR_LENGTH) + u64::from(hit.position);
    let mut phrase = Vec::new();
    for i in 0..length {
        let there: Vec<u8> = hits.iter().filter(|hit| step(hit) == step(&from) + i).map(|hit| hit.note).collect();
        match there[..] {
            _ if random.chance(5) => phrase.push(hits[random.below(last + 1)].note),
            [] => break,
            _ => phrase.push(random.pick(&there)),
        }
    }
    match random.below(20) {
        0 => phrase.push(any),
        1 => phrase.reverse(),
        2 => phrase = vec![from.note; random.pick(&[2, 16, 17])],
        _ => {}
    }
    if phrase.is_empty() {
        phrase.push(from.note);
    }
    phrase
}

/// Asks library and Rust; both have to list the bars that meet the phrase.
pub fn ask(runner: &mut Runner, opened: &Opened, hits: &Hits, phrase: &[u8]) -> Result<(), String> {
    let text: String = phrase.iter().map(|note| sound(*note)).collect();
    let ends: Vec<u32> = (1..=phrase.len() as u32).map(|i| 4 * i).collect();
    let mut case = Case::on(Call::Phrase, opened.bytes).named(text.as_bytes());
    case.lists[ENDS] = &ends;
    let ids = runner.ask_full(&case, opened).map(|mut answer| std::mem::take(&mut answer.places[0]));
    let meeting = meeting(hits, phrase);
    if ids.as_ref() == Some(&meeting) {
        return Ok(());
    }
    Err(format!("phrase {text}: {ids:?}, but the file's own notes meet it in {meeting:?}"))
}

/// Writes an accepted import, which the writer has to accept, and asks some phrases.
pub fn written_and_asked(runner: &mut Runner, random: &mut Random, answer: &Answer, count: usize) -> Result<usize, String> {
    let Some(written) = runner.ask_full(&answer.flat.case(), &opened(&[])) else {
        return Err("the writer refuses the lists".to_string());
    };
    let segment = opened(&written.bytes);
    if let Some(given) = given_of(&Kept::new(&answer.flat.case(), Room::default())) {
        runner.sheets.some_of(&segment, &given, 1);
    }
    // a phrase is looked for among few hits only, which keeps long files quick
    let all: Vec<Hit> = answer.hits.keys().take(400).copied().collect();
    for _ in 0..count {
        let phrase = some_phrase(random, &all);
        ask(runner, &segment, &answer.hits, &phrase)?;
    }
    Ok(count)
}
