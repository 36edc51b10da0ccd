//! A case as text, tried, and made smaller for as long as it differs.

use super::call::{Call, Lists, CALLS};
use super::compare::{Pad, Pads};
use super::model::{answer, reply, Map, Told};
use super::words::{stored_over, WORDS};
use crate::show::{hex, join, numbers, unhex};
use std::ops::Range;
use std::process::ExitCode;
use std::time::{Duration, Instant};

const LONGEST: Duration = Duration::from_secs(60);
/// More elements are not printed.
const LARGEST_SHOWN: usize = 20_000;

/// The pad's words before the call, and the call.
#[derive(Clone)]
pub struct Kept {
    pub words: Vec<u32>,
    pub call: Call,
}

fn sum(numbers: &[u32]) -> u64 {
    numbers.iter().map(|number| u64::from(*number)).sum()
}

/// The elements of a call's lists and rooms; its numbers and bytes added up.
fn weight(call: &Call) -> (usize, u64) {
    match call {
        Call::Save { id, length, lists } => {
            let bytes = lists.sounds.iter().chain(&lists.velocities).map(|byte| u64::from(*byte)).sum::<u64>();
            (lists.lengths().iter().sum(), bytes + sum(&lists.steps) + u64::from(*length) + u64::from(*id))
        }
        Call::Erase { id } => (0, u64::from(*id)),
        Call::Read { id, room } => (room.iter().sum(), u64::from(*id)),
        Call::Write { text, ends, room } => (text.len() + ends.len() + room, 0),
        Call::Hits => (0, 0),
    }
}

impl Kept {
    /// What a smaller one has less of: words that are not 0, elements and calls before the counter first, then the numbers themselves.
    pub fn size(&self) -> (usize, u64) {
        let (elements, numbers) = weight(&self.call);
        let set = self.words.iter().filter(|word| **word != 0).count() + usize::from(self.call != Call::Hits);
        (set + elements + self.words.len().abs_diff(WORDS), sum(&self.words) + numbers)
    }
}

/// As it is pasted after `--pad-case`: zeros at the end of the pad are left out; of a case that no command line holds, the lengths.
pub fn shown(words: &[u32], call: &Call) -> String {
    let set = words.iter().rposition(|word| *word != 0).map_or(0, |last| last + 1);
    let mut said = format!("call={} words={} pad={}", CALLS[call.number()], words.len(), join(&words[..set]));
    said += &match call {
        _ if weight(call).0 > LARGEST_SHOWN => return format!("{}, lists and rooms of {} places", said, weight(call).0),
        Call::Save { id, length, lists: Lists { sounds, steps, velocities } } => {
            let lists = [join(sounds), join(steps), join(velocities)];
            format!(" id={id} length={length} sounds={} steps={} velocities={}", lists[0], lists[1], lists[2])
        }
        Call::Erase { id } => format!(" id={id}"),
        Call::Read { id, room } => format!(" id={id} room={}", join(room)),
        Call::Write { text, ends, room } => format!(" text={} ends={} room={room}", hex(text), join(ends)),
        Call::Hits => String::new(),
    };
    format!("--pad-case '{said}'")
}

fn parsed(line: &str) -> Option<Kept> {
    let value =
        |key: &str| line.split_whitespace().filter_map(|word| word.split_once('=')).find(|(k, _)| *k == key).map(|(_, v)| v);
    let number = |key: &str| value(key)?.parse::<u32>().ok();
    let mut words = numbers(value("pad").unwrap_or(""))?;
    words.resize(number("words").map_or(WORDS, |n| n as usize), 0);
    let call = match value("call")? {
        "pad_save" => {
            let (sounds, steps) = (numbers(value("sounds").unwrap_or(""))?, numbers(value("steps").unwrap_or(""))?);
            let velocities = numbers(value("velocities").unwrap_or(""))?;
            Call::Save { id: number("id")?, length: number("length")?, lists: Lists { sounds, steps, velocities } }
        }
        "pad_erase" => Call::Erase { id: number("id")? },
        "pad_read" => Call::Read { id: number("id")?, room: numbers::<usize>(value("room")?)?.try_into().ok()? },
        "pad_write" => {
            let (text, ends) = (unhex(value("text").unwrap_or(""))?, numbers(value("ends").unwrap_or(""))?);
            Call::Write { text, ends, room: value("room")?.parse().ok()? }
        }
        "pad_hits" => Call::Hits,
        _ => return None,
    };
    Some(Kept { words, call })
}

/// What the model says, and what differs.
fn tried(pads: &mut Pads, kept: &Kept) -> (Told, Option<String>) {
    let mut pad = Pad::of(kept.words.clone());
    let told = answer(&pad.held, &kept.call);
    let before = pad.change(&told);
    let said = pads.differs(before.as_ref().unwrap_or(&pad.words), &kept.call, &told, &pad);
    (told, said)
}

pub fn differs(pads: &mut Pads, kept: &Kept) -> Option<String> {
    tried(pads, kept).1
}

/// Tries one pasted case.
pub fn one_case(line: &str) -> ExitCode {
    let Some(kept) = parsed(line) else {
        eprintln!("not a call on a pad: {line}");
        return ExitCode::from(2);
    };
    let (told, said) = tried(&mut Pads::new(), &kept);
    match &told {
        Ok(answer) => println!("the model: {answer:?}"),
        Err(refused) => println!("the model: refused, {:?}", refused.failing),
    }
    println!("as a reply: {:?}", reply(&told));
    match said {
        None => {
            println!("no difference");
            ExitCode::SUCCESS
        }
        Some(said) => {
            print!("{said}");
            ExitCode::FAILURE
        }
    }
}

/// Parts of a list, larger ones first.
fn parts(length: usize, sizes: &[usize]) -> Vec<Range<usize>> {
    let of = |size: &usize| (0..length).step_by(*size).map(|from| from..(from + size).min(length)).collect::<Vec<_>>();
    sizes.iter().flat_map(of).collect()
}

/// Smaller maps: without some bars, or without some hits of one.
fn smaller_maps(map: &Map) -> impl Iterator<Item = Map> + '_ {
    let ids: Vec<u32> = map.keys().copied().collect();
    let fewer_bars = parts(ids.len(), &[128, 32, 8, 2, 1]).into_iter().map(move |part| {
        let mut smaller = map.clone();
        smaller.retain(|id, _| !ids[part.clone()].contains(id));
        smaller
    });
    let cuts = map.iter().flat_map(|(id, bar)| parts(bar.hits.len(), &[512, 64, 8, 1]).into_iter().map(|part| (*id, part)));
    let fewer_hits = cuts.map(|(id, part)| {
        let mut smaller = map.clone();
        drop(smaller.get_mut(&id).expect("it is there").hits.drain(part));
        smaller
    });
    fewer_bars.chain(fewer_hits)
}

/// Fewer words that are not 0: of a pad, by what it holds; of other words, by their places.
fn smaller_words(pad: &Pad) -> impl Iterator<Item = Vec<u32>> + '_ {
    let words = &pad.words;
    let maps = pad.held.broken.is_none().then(|| smaller_maps(pad.map()));
    let held = maps.into_iter().flatten().flat_map(|map| [stored_over(&map, &[0; WORDS]), stored_over(&map, words)]);
    let zeros = parts(words.len(), &[4096, 512, 64, 8, 1]).into_iter().map(|part| {
        let mut smaller = words.clone();
        smaller[part].fill(0);
        smaller
    });
    std::iter::once(vec![0; words.len()]).chain(held).chain(zeros)
}

fn smaller_calls(call: &Call) -> Vec<Call> {
    let lower = |id: u32| [0, 1, id / 2, id.saturating_sub(1)];
    let mut all = vec![Call::Hits];
    match call {
        Call::Save { id, length, lists } => {
            for part in parts(lists.lengths().into_iter().max().unwrap_or(0), &[4096, 256, 16, 1]) {
                let mut lists = lists.clone();
                let [sounds, steps, velocities] = lists.lengths().map(|n| part.start.min(n)..part.end.min(n));
                drop((lists.sounds.drain(sounds), lists.steps.drain(steps), lists.velocities.drain(velocities)));
                all.push(Call::Save { id: *id, length: *length, lists });
            }
            for at in 0..lists.velocities.len().min(256) {
                let mut lists = lists.clone();
                lists.velocities[at] = 1;
                all.push(Call::Save { id: *id, length: *length, lists });
            }
            all.extend(lower(*id).map(|id| Call::Save { id, length: *length, lists: lists.clone() }));
            all.extend(lower(*length).map(|length| Call::Save { id: *id, length, lists: lists.clone() }));
        }
        Call::Erase { id } => all.extend(lower(*id).map(|id| Call::Erase { id })),
        Call::Read { id, room } => {
            all.extend(lower(*id).map(|id| Call::Read { id, room: *room }));
            for buffer in 0..room.len() {
                let mut room = *room;
                room[buffer] = room[buffer].saturating_sub(1);
                all.push(Call::Read { id: *id, room });
            }
        }
        Call::Write { text, ends, room } => {
            for room in [0, room / 2, room.saturating_sub(1)] {
                all.push(Call::Write { text: text.clone(), ends: ends.clone(), room });
            }
        }
        Call::Hits => {}
    }
    all
}

/// Made smaller for at most so long as `LONGEST` says.
pub fn shrunk(pads: &mut Pads, mut kept: Kept) -> Kept {
    let until = Instant::now() + LONGEST;
    'again: while weight(&kept.call).0 <= LARGEST_SHOWN {
        let pad = Pad::of(kept.words.clone());
        let words = smaller_words(&pad).map(|words| Kept { words, call: kept.call.clone() });
        let calls = smaller_calls(&kept.call).into_iter().map(|call| Kept { words: kept.words.clone(), call });
        for smaller in words.chain(calls) {
            if smaller.size() < kept.size() && differs(pads, &smaller).is_some() {
                kept = smaller;
                continue 'again;
            }
            if Instant::now() > until {
                break;
            }
        }
        break;
    }
    kept
}
