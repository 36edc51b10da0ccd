//! Phrases put to a pad that was written out, held against the map's own hits.

use super::compare::Pads;
use super::model::{given_of, place, Bar, Map};
use crate::case::{Call, Case, ENDS};
use crate::compare::{opened, Runner};
use crate::questions::ends_of;
use crate::random::Random;
use crate::words::names;

/// The bars whose own hits meet a phrase of sounds: some start has sound i on start + i.
fn meeting(map: &Map, phrase: &[u8]) -> Vec<u32> {
    let has = |bar: &Bar, sound: u8, step: u64| {
        u32::try_from(step).is_ok_and(|step| bar.hits.binary_search_by_key(&(sound, step), place).is_ok())
    };
    let fits = |bar: &Bar, start: u32| (0u64..).zip(phrase).all(|(i, sound)| has(bar, *sound, u64::from(start) + i));
    let meets = |bar: &Bar| bar.hits.iter().any(|hit| fits(bar, hit.1));
    map.iter().filter(|(_, bar)| !phrase.is_empty() && meets(bar)).map(|(id, _)| *id).collect()
}

/// Sounds that stand on steps one after the other in some bar, or any sounds with hits.
fn some_phrase(random: &mut Random, map: &Map) -> Vec<u8> {
    let hits: Vec<(&Bar, u8, u32)> = map.values().flat_map(|bar| bar.hits.iter().map(move |hit| (bar, hit.0, hit.1))).collect();
    let Some(last) = hits.len().checked_sub(1) else { return Vec::new() };
    let (bar, first, start) = hits[random.below(last + 1)];
    let mut phrase = vec![first];
    for i in 1..random.pick(&[1, 2, 2, 3, 4, 8]) {
        let there: Vec<u8> = bar.hits.iter().filter(|hit| start.checked_add(i) == Some(hit.1)).map(|hit| hit.0).collect();
        match there[..] {
            _ if random.chance(5) => phrase.push(hits[random.below(last + 1)].1),
            [] => break,
            _ => phrase.push(random.pick(&there)),
        }
    }
    match random.below(12) {
        0 => phrase.reverse(),
        1 => phrase = vec![first; random.pick(&[2, 3, 17])],
        _ => {}
    }
    phrase
}

/// The bytes that were written for a map: the library's own writer has to write the same for its lists, and of some phrases library and
/// Rust have to list the bars that meet them.
pub fn ask(pads: &mut Pads, runner: &mut Runner, random: &mut Random, map: &Map, text: &[u8], ends: &[u32], bytes: &[u8]) {
    let all: Vec<&[u8]> = names(text, ends).collect();
    let segment = opened(bytes);
    let plain = runner.ask_full(&given_of(map, text, ends).flat().case(), &opened(&[]));
    if plain.is_none_or(|plain| plain.bytes != bytes) {
        pads.stray(format!("the writer writes otherwise for the lists of {map:?}"));
    }
    pads.tally.written += 1;
    for _ in 0..3 {
        let phrase = some_phrase(random, map);
        let named: Vec<&[u8]> = phrase.iter().map(|sound| all[usize::from(*sound)]).collect();
        let (text, ends) = (named.concat(), ends_of(&named));
        let mut case = Case::on(Call::Phrase, bytes).named(&text);
        case.lists[ENDS] = &ends;
        let ids = runner.ask_full(&case, &segment).map(|mut answer| std::mem::take(&mut answer.places[0]));
        let meeting = meeting(map, &phrase);
        if ids.as_ref() == Some(&meeting) {
            pads.tally.phrases += 1;
        } else {
            pads.stray(format!("phrase {phrase:?}: {ids:?}, but the map's own hits meet it in {meeting:?}: {map:?}"));
        }
    }
}
