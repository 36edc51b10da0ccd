//! All read calls and questions on one segment.

use crate::case::{Call, Case, ENDS};
use crate::compare::Runner;
use crate::given::Given;
use crate::random::Random;
use crate::rules::{self, Rule};
use crate::rust::Opened;
use crate::words;

/// What the questions are made of: the names and ids that a segment has or had, and the lists it was written from.
pub struct Pool<'a> {
    pub names: Vec<&'a [u8]>,
    pub ids: Vec<u32>,
    pub given: Option<&'a Given>,
}

impl<'a> Pool<'a> {
    pub fn of(given: &'a Given, written: bool) -> Self {
        Pool {
            names: given.terms.iter().map(|term| &term.name[..]).collect(),
            ids: given.documents.iter().map(|document| document.0).collect(),
            given: written.then_some(given),
        }
    }

    pub fn name(&self, random: &mut Random) -> Vec<u8> {
        if self.names.is_empty() || random.chance(12) {
            return random.pick(&["", "zz", "\u{e9}x", "A", "kic"]).into();
        }
        let mut name = random.pick(&self.names).to_vec();
        match random.below(60) {
            0 => name.push(b'x'),
            1 => name.truncate(name.len() - 1),
            2 => name.push(random.pick(&[0x80, 0xC0, 0xC3, 0xED, 0xF5, 0xFF])),
            _ => {}
        }
        name
    }

    pub fn id(&self, random: &mut Random) -> u32 {
        if self.ids.is_empty() || random.chance(20) {
            return random.edge();
        }
        let id = random.pick(&self.ids);
        id.wrapping_add(random.pick(&[0, 0, 0, 0, 1, u32::MAX]))
    }

    pub fn window(random: &mut Random) -> u32 {
        match random.below(8) {
            0 => random.edge(),
            1 => random.small(0, 40),
            _ => random.small(1, 6),
        }
    }

    /// One to eight names, sometimes none or very many.
    pub fn several(&self, random: &mut Random) -> Vec<Vec<u8>> {
        let count = match random.below(100) {
            0 => 0,
            1 => random.pick(&[9, 64, 127, 128, 129, 130]),
            2..=11 => 1,
            12..=49 => 2,
            50..=74 => 3,
            _ => random.below(5) + 4,
        };
        let different = if random.chance(10) { count.max(1) } else { random.below(4) + 1 };
        let few: Vec<Vec<u8>> = (0..different).map(|_| self.name(random)).collect();
        (0..count).map(|_| few[random.below(few.len())].clone()).collect()
    }

    /// Names that stand on consecutive positions of some document.
    pub fn planted(&self, random: &mut Random) -> Vec<Vec<u8>> {
        let mut names = Vec::new();
        let Some(given) = self.given else { return names };
        if given.terms.is_empty() {
            return names;
        }
        let term = &given.terms[random.below(given.terms.len())];
        let posting = &term.postings[random.below(term.postings.len())];
        let mut position = random.pick(&posting.positions);
        let most = if random.chance(15) { 130 } else { random.below(8) + 1 };
        for _ in 0..most {
            let here: Vec<&[u8]> =
                self.names.iter().copied().filter(|name| given.own(name, posting.id).contains(&position)).collect();
            if here.is_empty() {
                break;
            }
            names.push(random.pick(&here).to_vec());
            position = position.saturating_add(1);
        }
        names
    }
}

/// Where each name ends in the text of all of them.
pub fn ends_of(names: &[impl AsRef<[u8]>]) -> Vec<u32> {
    let lengths = names.iter().map(|name| name.as_ref().len() as u32);
    lengths
        .scan(0, |end, length| {
            *end += length;
            Some(*end)
        })
        .collect()
}

/// Names as a text with ends, now and then ends that do not fit.
pub fn text_of(random: &mut Random, names: &[Vec<u8>]) -> (Vec<u8>, Vec<u32>) {
    let mut text = names.concat();
    let mut ends = ends_of(names);
    if random.chance(4) {
        let at = random.below(ends.len() + 1);
        match random.below(6) {
            0 => ends.insert(at, random.edge()),
            1 => ends.truncate(ends.len().saturating_sub(1)),
            2 => text.push(b'x'),
            3 => text.truncate(text.len().saturating_sub(1)),
            4 => ends.iter_mut().skip(at).take(1).for_each(|end| *end = end.wrapping_sub(1)),
            _ => ends.reverse(),
        }
    }
    (text, ends)
}

/// The Rust's answer to a question, against demand 3's rules over the lists handed in.
fn follow_rules(runner: &mut Runner, given: &Given, case: &Case, answer: &[u32]) {
    let names: Vec<&[u8]> = match case.call {
        Call::Near => vec![case.text, case.second],
        _ => words::names(case.text, case.lists[ENDS]).collect(),
    };
    let rule = match case.call {
        Call::Phrase => Rule::Phrase,
        Call::NearTerms if case.ordered => Rule::Ordered(case.number),
        _ => Rule::Unordered(case.number),
    };
    runner.ruled += 1;
    let met = if rules::speaks_of(rule, names.len()) { rules::meeting(given, &names, rule) } else { Vec::new() };
    if met != answer {
        runner.stray(format!("demand 3 gives {met:?}, the Rust {answer:?}: {rule:?} {names:?} over {given:?}"));
    }
}

pub fn put(runner: &mut Runner, random: &mut Random, case: &Case, opened: &Opened, given: Option<&Given>) {
    let answer = runner.ask(random, case, opened);
    if let (Some(given), Some(answer)) = (given, answer) {
        follow_rules(runner, given, case, &answer.places[0]);
    }
}

pub fn put_full(runner: &mut Runner, case: &Case, opened: &Opened, given: &Given) {
    if let Some(answer) = runner.ask_full(case, opened) {
        follow_rules(runner, given, case, &answer.places[0]);
    }
}

fn question(runner: &mut Runner, random: &mut Random, call: Call, opened: &Opened, pool: &Pool) {
    let names = if call == Call::Phrase && random.chance(40) { pool.planted(random) } else { pool.several(random) };
    let (text, ends) = text_of(random, &names);
    let mut case = Case::on(call, opened.bytes).named(&text).numbered(Pool::window(random));
    case.lists[ENDS] = &ends;
    case.ordered = random.chance(50);
    if call == Call::Phrase {
        (case.number, case.ordered) = (0, false);
    }
    put(runner, random, &case, opened, pool.given);
}

fn near(runner: &mut Runner, random: &mut Random, opened: &Opened, pool: &Pool) {
    let (a, b) = (pool.name(random), pool.name(random));
    let case = Case { second: &b, ..Case::on(Call::Near, opened.bytes).named(&a).numbered(Pool::window(random)) };
    put(runner, random, &case, opened, pool.given);
}

fn named(runner: &mut Runner, random: &mut Random, call: Call, opened: &Opened, pool: &Pool) {
    let name = pool.name(random);
    let id = if call == Call::Positions { pool.id(random) } else { 0 };
    runner.ask(random, &Case::on(call, opened.bytes).named(&name).numbered(id), opened);
}

/// One call of the given kind.
pub fn one(runner: &mut Runner, random: &mut Random, call: Call, opened: &Opened, pool: &Pool) {
    match call {
        Call::Open | Call::DocumentLengths => {
            runner.ask(random, &Case::on(call, opened.bytes), opened);
        }
        Call::DocumentLen => {
            let id = pool.id(random);
            runner.ask(random, &Case::on(call, opened.bytes).numbered(id), opened);
        }
        Call::Near => near(runner, random, opened, pool),
        Call::Phrase | Call::NearTerms => question(runner, random, call, opened, pool),
        _ => named(runner, random, call, opened, pool),
    }
}

/// Every call, the questions more often. A segment that does not open gets fewer.
pub fn all(runner: &mut Runner, random: &mut Random, opened: &Opened, pool: &Pool) {
    use Call::*;
    const READ: [Call; 10] =
        [Open, DocumentLengths, DocumentLen, Df, DocsWithTerm, TermPostings, Positions, Phrase, Near, NearTerms];
    const MORE: [Call; 14] = [
        DocumentLen,
        DocumentLen,
        Df,
        DocsWithTerm,
        TermPostings,
        Positions,
        Positions,
        Phrase,
        Phrase,
        Phrase,
        Near,
        NearTerms,
        NearTerms,
        NearTerms,
    ];
    for call in READ {
        one(runner, random, call, opened, pool);
    }
    if opened.segment.is_ok() {
        for call in MORE {
            one(runner, random, call, opened, pool);
        }
    }
}
