//! One round of random files: one that keeps to the rules, written and asked, and some that may break one.

use super::compare::Midi;
use super::made::Made;
use super::make::made;
use super::model::Hit;
use super::phrases::written_and_asked;
use super::spoil::{spoiled, Known};
use crate::compare::Runner;
use crate::random::Random;
use crate::reply::Refusal;
use crate::show::hex;
use std::collections::BTreeSet;

/// More bars than this are written seldom, which keeps the run quick.
const MANY_BARS: u64 = 2000;

fn keeping(midi: &mut Midi, runner: &mut Runner, random: &mut Random, made: &Made) {
    let file = made.file();
    midi.tally.files += 1;
    let found = midi.ask(random, &file);
    let read = found.as_ref().map_or_else(|broken| Err(Refusal::from(*broken)), |answer| Ok(answer.hits.keys().copied()));
    let read: Result<BTreeSet<Hit>, Refusal> = read.map(Iterator::collect);
    match made.hits() {
        Some(hits) if read.as_ref() != Ok(&hits) => return midi.stray(format!("{}: struck were {hits:?}", hex(&file))),
        None if read.as_ref() != Err(&Refusal::of_kind(15)) => return midi.stray(format!("{}: a hit is too far", hex(&file))),
        _ => midi.tally.read_as_made += 1,
    }
    let Ok(answer) = found else { return };
    let loud = made.loud();
    if !loud.beside(&answer) {
        return midi.stray(format!("{}: the velocities are not as the notes were struck", hex(&file)));
    }
    midi.tally.count_made(made, &loud, &answer.velocities);
    if answer.reply().first <= MANY_BARS || random.chance(5) {
        match written_and_asked(runner, random, &answer, 2) {
            Ok(phrases) => {
                midi.tally.written += 1;
                midi.tally.phrases += phrases as u64;
            }
            Err(said) => midi.stray(format!("{}: {said}", hex(&file))),
        }
    }
}

fn breaking(midi: &mut Midi, random: &mut Random, made: &Made) {
    let (file, known): (Vec<u8>, Known) = spoiled(random, made);
    midi.tally.files += 1;
    let found = midi.ask(random, &file);
    let (Some((kind, index)), Some(_)) = (known, made.hits()) else { return };
    match found.map_err(Refusal::from) {
        Err(refusal) if refusal == Refusal::new(kind, 0, index) => midi.tally.refused_as_spoiled += 1,
        other => midi.stray(format!("{}: {kind} {index} is known, the model says {:?}", hex(&file), other.map(|_| "accepted"))),
    }
}

pub fn round(midi: &mut Midi, runner: &mut Runner, random: &mut Random) {
    let made = made(random);
    keeping(midi, runner, random, &made);
    for _ in 0..3 {
        breaking(midi, random, &made);
    }
}
