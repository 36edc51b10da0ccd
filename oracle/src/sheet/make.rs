//! Bars for paper: lengths up to 64 and just past it, and names whose twelfth character is in every sort of place.

use crate::given::{Given, Posting, Term};
use crate::make;
use crate::random::Random;

/// Characters of one to four bytes: letters, signs, controls, combining marks, and the ends of each width.
const CHARACTERS: [char; 26] = [
    'a',
    'b',
    'z',
    ' ',
    '~',
    '?',
    '\u{0}',
    '\n',
    '\u{1f}',
    '\u{7f}',
    '\u{80}',
    '\u{9f}',
    '\u{a0}',
    '\u{e9}',
    '\u{301}',
    '\u{3b1}',
    '\u{7ff}',
    '\u{800}',
    '\u{20e3}',
    '\u{65e5}',
    '\u{d7ff}',
    '\u{e000}',
    '\u{ffff}',
    '\u{10000}',
    '\u{1f941}',
    '\u{10ffff}',
];

fn name(random: &mut Random) -> String {
    let length = match random.below(10) {
        0..=3 => random.small(1, 10),
        4..=7 => random.small(11, 13),
        8 => random.small(14, 40),
        _ => random.pick(&[1, 12, 128, 300]),
    };
    let few: Vec<char> = (0..random.below(4) + 1).map(|_| random.pick(&CHARACTERS)).collect();
    (0..length).map(|_| random.pick(&few)).collect()
}

fn length(random: &mut Random) -> u32 {
    match random.below(20) {
        0 => 0,
        1 => 1,
        2..=5 => 16,
        6 => 63,
        7..=9 => 64,
        10 => 65,
        11 => random.pick(&[66, 127, 128, 255, 256, 65_536, u32::MAX - 1, u32::MAX]),
        _ => random.small(2, 62),
    }
}

/// Steps below the length: few or many, the last one often.
fn steps(random: &mut Random, length: u32) -> Vec<u32> {
    let most = length.min(70);
    let mut steps: Vec<u32> = match random.below(6) {
        0 => (0..most).collect(),
        1 => vec![length - 1],
        2 => (0..most).filter(|_| random.chance(50)).collect(),
        3 => (0..most).step_by(random.pick(&[2, 3, 4, 8])).collect(),
        _ => (0..random.below(6) + 1).map(|_| random.below(length as usize) as u32).collect(),
    };
    if steps.is_empty() || random.chance(30) {
        steps.push(length - 1);
    }
    steps.sort();
    steps.dedup();
    steps
}

pub fn given(random: &mut Random) -> Given {
    let many = random.below(200) == 0;
    let bars = random.pick(&[1, 1, 2, 2, 3, 4, 6, 12]);
    let documents: Vec<(u32, u32)> = make::ids(random, bars).into_iter().map(|id| (id, length(random))).collect();
    let count = if many { random.pick(&[100, 129, 600]) } else { random.pick(&[0, 1, 1, 2, 2, 3, 3, 4, 6, 9]) };
    let mut names: Vec<Vec<u8>> = (0..count).map(|_| name(random).into_bytes()).collect();
    names.sort();
    names.dedup();
    let dense = random.pick(&[20, 50, 80, 100]);
    let mut terms = Vec::with_capacity(names.len());
    for name in names {
        let mut postings = Vec::new();
        for (id, length) in &documents {
            if *length > 0 && random.chance(dense) {
                postings.push(Posting { id: *id, positions: steps(random, *length) });
            }
        }
        if !postings.is_empty() {
            terms.push(Term { name, postings });
        }
    }
    Given { documents, terms }
}
