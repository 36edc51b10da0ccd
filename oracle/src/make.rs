//! Lists that the writer accepts: few or many documents and terms, numbers at the widths' edges and at the ends of u32.

use crate::given::{Given, Posting, Term};
use crate::random::Random;

const NAMES: [&str; 22] = [
    "a",
    "aa",
    "ab",
    "abc",
    "b",
    "ba",
    "c",
    "kick",
    "kicks",
    "snare",
    "tom",
    "hat",
    "\u{0}",
    "\u{7f}",
    "\u{80}",
    "\u{e9}",
    "\u{7ff}",
    "\u{800}",
    "\u{ffff}",
    "\u{10000}",
    "\u{10ffff}",
    "\u{65e5}\u{672c}",
];

pub fn given(random: &mut Random) -> Given {
    if random.below(300) == 0 {
        return wide(random);
    }
    let medium = random.chance(4);
    let documents = documents(random, medium);
    let terms = terms(random, &documents, medium);
    Given { documents, terms }
}

/// More terms than a question can name, standing side by side.
fn wide(random: &mut Random) -> Given {
    let documents: Vec<(u32, u32)> = ids(random, 3).into_iter().map(|id| (id, 300)).collect();
    let mut terms = Vec::new();
    for i in 0..random.small(100, 150) {
        let mut postings = Vec::new();
        for (id, _) in &documents {
            let mut positions = vec![i, random.small(0, 299)];
            positions.sort();
            positions.dedup();
            if random.chance(98) {
                postings.push(Posting { id: *id, positions });
            }
        }
        if !postings.is_empty() {
            terms.push(Term { name: vec![b'A' + (i / 16) as u8, b'a' + (i % 16) as u8], postings });
        }
    }
    Given { documents, terms }
}

fn documents(random: &mut Random, medium: bool) -> Vec<(u32, u32)> {
    let count = if medium { random.pick(&[20, 60, 600]) } else { random.pick(&[0, 1, 1, 2, 2, 3, 4, 6]) };
    let small = random.chance(60);
    ids(random, count).into_iter().map(|id| (id, length(random, small))).collect()
}

pub fn ids(random: &mut Random, count: usize) -> Vec<u32> {
    let style = random.below(4);
    let mut ids = Vec::with_capacity(count);
    let mut id = match style {
        0 => random.small(0, 3),
        1 => random.edge(),
        2 => random.next() as u32,
        _ => u32::MAX - count as u32 * 3 - random.small(0, 2),
    };
    for _ in 0..count {
        ids.push(id);
        let gap = if style == 1 || style == 2 { random.edge().max(1) } else { random.small(1, 3) };
        match id.checked_add(gap) {
            Some(next) => id = next,
            None => break,
        }
    }
    if style == 3 && random.chance(50) && ids.last().is_some_and(|last| *last < u32::MAX) {
        ids.push(u32::MAX);
    }
    ids
}

fn length(random: &mut Random, small: bool) -> u32 {
    match random.below(10) {
        0 => random.small(0, 2),
        1 if !small => u32::MAX,
        1..=3 if !small => random.edge(),
        4 if !small => random.next() as u32,
        _ => random.small(1, 24),
    }
}

fn name(random: &mut Random) -> Vec<u8> {
    match random.below(20) {
        0 => vec![b'x'; random.pick(&[63, 127, 128, 129, 200])],
        1..=4 => (0..random.below(4) + 1).map(|_| random.pick(b"ab")).collect(),
        _ => random.pick(&NAMES).into(),
    }
}

fn terms(random: &mut Random, documents: &[(u32, u32)], medium: bool) -> Vec<Term> {
    let count = if medium { random.below(12) } else { random.pick(&[0, 1, 1, 2, 2, 3, 3, 4, 5]) };
    let mut names: Vec<Vec<u8>> = (0..count).map(|_| name(random)).collect();
    names.sort();
    names.dedup();
    let dense = random.pick(&[30, 60, 100]);
    let mut terms = Vec::with_capacity(names.len());
    for name in names {
        let mut postings = Vec::new();
        for (id, length) in documents {
            if *length > 0 && random.chance(dense) {
                postings.push(Posting { id: *id, positions: positions(random, *length, medium) });
            }
        }
        if !postings.is_empty() {
            terms.push(Term { name, postings });
        }
    }
    terms
}

/// Rising positions below the length, at least one.
fn positions(random: &mut Random, length: u32, medium: bool) -> Vec<u32> {
    let most = if medium { 120 } else { 6 };
    let count = random.below(most) + 1;
    let mut positions: Vec<u32> = match random.below(6) {
        0 => (0..count).map(|_| random.edge()).filter(|p| *p < length).collect(),
        1 => (0..count as u32).map(|i| length - 1 - i.min(length - 1)).collect(),
        2 => (0..(count as u32).min(length)).collect(),
        3 => (0..count).map(|_| random.below(length as usize) as u32).collect(),
        _ => (0..count).map(|_| random.below(length.min(3 * most as u32) as usize) as u32).collect(),
    };
    positions.sort();
    positions.dedup();
    if positions.is_empty() {
        positions.push(random.below(length as usize) as u32);
    }
    positions
}
