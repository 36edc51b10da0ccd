//! A pad as document 02's wishes 6, 7 and 9 have it: a plain map from id to bar, and what saving, erasing, reading back, writing out and
//! the counter answer of it. Writing out is the Rust's writer for the map's lists; all else is written here.

use super::call::{Call, Lists};
use super::words::Held;
use crate::compare::{found, opened};
use crate::given::{Given, Posting, Term};
use crate::reply::{Refusal, Reply};
use crate::words;
use std::collections::BTreeMap;

pub const BARS: usize = 256;
pub const HITS: usize = 8192;
pub const SOUNDS: usize = 128;
pub const LARGEST: usize = 16_777_216;
/// No segment has fewer bytes.
const SMALLEST_SEGMENT: usize = 72;

/// A sound, a step and a velocity; the order of hits is by sound, then step.
pub type Hit = (u8, u32, u8);

/// What the order of hits, equal hits and the written bytes go by.
pub fn place(hit: &Hit) -> (u8, u32) {
    (hit.0, hit.1)
}

#[derive(Clone, Debug, Default, PartialEq, Eq)]
pub struct Bar {
    pub length: u32,
    pub hits: Vec<Hit>,
}

pub type Map = BTreeMap<u32, Bar>;

pub fn hits_in(map: &Map) -> usize {
    map.values().map(|bar| bar.hits.len()).sum()
}

/// Whether each sound has hits in some bar.
pub fn used(map: &Map) -> [bool; SOUNDS] {
    let mut used = [false; SOUNDS];
    for (sound, ..) in map.values().flat_map(|bar| &bar.hits) {
        used[usize::from(*sound)] = true;
    }
    used
}

/// What a call can fail, in no order.
#[derive(Clone, Copy, Debug, PartialEq, Eq)]
pub enum Test {
    Broken,
    Held,
    LongList,
    Lengths,
    Sound,
    Velocity,
    Order,
    Step,
    Full,
    Unknown,
    Sounds,
    Steps,
    Velocities,
    LongText,
    LongEnds,
    EndsCount,
    EndsFall,
    EndsLast,
    NotUtf8,
    Empty,
    NotRising,
    Out,
    /// the Rust's writer refuses otherwise than document 01's words have it: no call gives this
    Strange,
}

/// Everything that a call fails, as far as it can be told: the first is the refusal.
#[derive(Debug)]
pub struct Refused {
    pub failing: Vec<Test>,
    pub refusal: Refusal,
}

impl Refused {
    fn by(failing: Vec<Test>, needed: usize) -> Self {
        let refusal = match failing[0] {
            Test::Broken => Refusal::of_kind(20),
            Test::Held => Refusal::of_kind(18),
            Test::LongList | Test::Sound | Test::LongText | Test::LongEnds => Refusal::of_kind(12),
            Test::Lengths | Test::EndsCount | Test::EndsFall | Test::EndsLast => Refusal::of_kind(11),
            Test::Velocity => Refusal::of_kind(22),
            Test::Order => Refusal::new(6, 20, 0),
            Test::Step => Refusal::new(6, 21, 0),
            Test::Full => Refusal::of_kind(19),
            Test::Unknown => Refusal::of_kind(16),
            Test::Sounds | Test::Out => Refusal::new(13, 1, needed as u64),
            Test::Steps => Refusal::new(13, 2, needed as u64),
            Test::Velocities => Refusal::new(13, 3, needed as u64),
            Test::NotUtf8 => Refusal::of_kind(10),
            Test::Empty => Refusal::new(6, 6, 0),
            Test::NotRising => Refusal::new(6, 16, 0),
            Test::Strange => Refusal::of_kind(99),
        };
        Refused { failing, refusal }
    }
}

/// What becomes of the map.
#[derive(Debug, Default)]
pub enum Change {
    #[default]
    Nothing,
    Saved(u32, Bar),
    Erased(u32),
}

/// What an accepted call answers, and what stands in front of the lent lists.
#[derive(Debug, Default)]
pub struct Answer {
    pub first: u64,
    pub second: u64,
    pub sounds: Vec<u8>,
    pub steps: Vec<u32>,
    pub velocities: Vec<u8>,
    pub bytes: Vec<u8>,
    pub change: Change,
}

pub type Told = Result<Answer, Refused>;

pub fn reply(told: &Told) -> Reply {
    match told {
        Ok(answer) => Reply::accepted(answer.first, answer.second),
        Err(refused) => refused.refusal.into(),
    }
}

fn failed(tests: &[(Test, bool)]) -> Vec<Test> {
    tests.iter().filter(|(_, fails)| *fails).map(|(test, _)| *test).collect()
}

/// Each over all hits before the next; 19 goes by the numbers held and by nothing else.
fn save_fails(map: &Map, id: u32, length: u32, Lists { sounds, steps, velocities }: &Lists) -> Vec<Test> {
    let places = || sounds.iter().zip(steps);
    let lengths = [sounds.len(), steps.len(), velocities.len()];
    failed(&[
        (Test::Held, map.contains_key(&id)),
        (Test::LongList, lengths.iter().any(|length| *length > LARGEST)),
        (Test::Lengths, lengths.iter().any(|length| *length != lengths[0])),
        (Test::Sound, sounds.iter().any(|sound| *sound > 127)),
        (Test::Velocity, velocities.iter().any(|velocity| !(1..=127).contains(velocity))),
        (Test::Order, places().zip(places().skip(1)).any(|(hit, next)| hit >= next)),
        (Test::Step, steps.iter().any(|step| *step >= length)),
        (Test::Full, map.len() >= BARS || hits_in(map) + sounds.len() > HITS),
    ])
}

fn read_fails(map: &Map, id: u32, room: [usize; 3]) -> (Vec<Test>, usize) {
    let Some(bar) = map.get(&id) else { return (vec![Test::Unknown], 0) };
    let needed = bar.hits.len();
    let tests = [Test::Sounds, Test::Steps, Test::Velocities];
    (tests.into_iter().zip(room).filter(|(_, places)| needed > *places).map(|(test, _)| test).collect(), needed)
}

/// 12 and 11, which look at all of the names.
fn names_fail(text: &[u8], ends: &[u32]) -> Vec<Test> {
    failed(&[
        (Test::LongText, text.len() > LARGEST),
        (Test::LongEnds, ends.len() > LARGEST),
        (Test::EndsCount, ends.len() != SOUNDS),
        (Test::EndsFall, ends.windows(2).any(|pair| pair[0] > pair[1])),
        (Test::EndsLast, ends.last().is_some_and(|end| *end as usize != text.len())),
    ])
}

/// What the writer refuses of the names of sounds with hits, name by name.
fn used_names_fail(given: &Given) -> Vec<Test> {
    let mut failing = Vec::new();
    let mut before: Option<&[u8]> = None;
    for Term { name, .. } in &given.terms {
        let tests = [
            (Test::NotUtf8, std::str::from_utf8(name).is_err()),
            (Test::Empty, name.is_empty()),
            (Test::NotRising, before.is_some_and(|before| before >= &name[..])),
        ];
        failing.extend(failed(&tests));
        before = Some(name);
    }
    failing
}

/// The map's lists: bars by rising id, sounds by rising number, those without hits left out. They have no velocities.
pub fn given_of(map: &Map, text: &[u8], ends: &[u32]) -> Given {
    let mut terms = Vec::new();
    for (sound, name) in (0u8..).zip(words::names(text, ends)) {
        let mut postings = Vec::new();
        for (id, bar) in map {
            let positions: Vec<u32> = bar.hits.iter().filter(|hit| hit.0 == sound).map(|hit| hit.1).collect();
            if !positions.is_empty() {
                postings.push(Posting { id: *id, positions });
            }
        }
        if !postings.is_empty() {
            terms.push(Term { name: name.to_vec(), postings });
        }
    }
    Given { documents: map.iter().map(|(id, bar)| (*id, bar.length)).collect(), terms }
}

fn write(map: &Map, text: &[u8], ends: &[u32], room: usize) -> Told {
    let mut failing = names_fail(text, ends);
    if failing.is_empty() {
        let given = given_of(map, text, ends);
        failing = used_names_fail(&given);
        let written = found(&given.flat().case(), &opened(&[]));
        let refusal = written.as_ref().err().map(|(_, refusal)| *refusal);
        if refusal != failing.first().map(|_| Refused::by(failing.clone(), 0).refusal) {
            return Err(Refused::by(vec![Test::Strange], 0));
        }
        if let Ok(written) = written {
            let needed = written.bytes.len();
            if needed > room {
                return Err(Refused::by(vec![Test::Out], needed));
            }
            return Ok(Answer { first: needed as u64, bytes: written.bytes, ..Answer::default() });
        }
    }
    if room < SMALLEST_SEGMENT {
        failing.push(Test::Out);
    }
    Err(Refused::by(failing, 0))
}

/// What else is wrong with a call on words that are no pad, as far as these can be read.
fn beside_broken(map: &Map, call: &Call) -> Vec<Test> {
    match call {
        Call::Save { id, length, lists } => save_fails(map, *id, *length, lists),
        Call::Erase { id } => failed(&[(Test::Unknown, !map.contains_key(id))]),
        Call::Read { id, room } => read_fails(map, *id, *room).0,
        Call::Write { text, ends, room } => {
            let mut failing = names_fail(text, ends);
            if failing.is_empty() {
                failing = used_names_fail(&given_of(map, text, ends));
            }
            failing.extend(failed(&[(Test::Out, *room < SMALLEST_SEGMENT)]));
            failing
        }
        Call::Hits => Vec::new(),
    }
}

/// Every save and erasure keeps the stored total equal to the sum over the bars held, and refused calls leave it. Words that are no pad
/// were not made so, and it is what they have.
fn counter(held: &Held) -> u64 {
    match held.broken {
        None => hits_in(&held.map) as u64,
        Some(_) => held.stored.into(),
    }
}

/// The whole answer: the counter's, which alone does not test for 20; else 20 before all else, then the map's.
pub fn answer(held: &Held, call: &Call) -> Told {
    let map = &held.map;
    if held.broken.is_some() && *call != Call::Hits {
        return Err(Refused::by([vec![Test::Broken], beside_broken(map, call)].concat(), 0));
    }
    match call {
        Call::Save { id, length, lists } => {
            let failing = save_fails(map, *id, *length, lists);
            if !failing.is_empty() {
                return Err(Refused::by(failing, 0));
            }
            let bar = Bar { length: *length, hits: lists.hits() };
            Ok(Answer { first: bar.hits.len() as u64, change: Change::Saved(*id, bar), ..Answer::default() })
        }
        Call::Erase { id } => match map.get(id) {
            None => Err(Refused::by(vec![Test::Unknown], 0)),
            Some(bar) => Ok(Answer { first: bar.hits.len() as u64, change: Change::Erased(*id), ..Answer::default() }),
        },
        Call::Read { id, room } => {
            let (failing, needed) = read_fails(map, *id, *room);
            if !failing.is_empty() {
                return Err(Refused::by(failing, needed));
            }
            let bar = &map[id];
            let Lists { sounds, steps, velocities } = Lists::of(&bar.hits);
            Ok(Answer { first: needed as u64, second: bar.length.into(), sounds, steps, velocities, ..Answer::default() })
        }
        Call::Write { text, ends, room } => write(map, text, ends, *room),
        Call::Hits => Ok(Answer { first: counter(held), ..Answer::default() }),
    }
}
