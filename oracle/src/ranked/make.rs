//! Bars in which phrases fit often and equally often: few sounds, runs of steps, the ends of u32.

use crate::given::{Given, Posting, Term};
use crate::make;
use crate::random::Random;

const NAMES: [&str; 5] = ["a", "b", "kick", "snare", "\u{65e5}\u{672c}"];

/// Some bars; as many as a binary tree has, and one beside that, or very many.
fn bars(random: &mut Random) -> usize {
    match random.below(40) {
        0..=19 => random.below(9) + 1,
        20..=29 => random.below(40) + 1,
        30..=37 => random.pick(&[7, 8, 15, 16, 17, 31, 32, 33, 63, 64, 65]),
        38 => random.below(300) + 1,
        _ => random.pick(&[0, 1, 2, 3]),
    }
}

fn length(random: &mut Random, long: bool) -> u32 {
    match random.below(20) {
        0 => 0,
        1 => random.small(1, 3),
        2..=9 if long => random.pick(&[u32::MAX, u32::MAX, u32::MAX - 1, 1 << 31, 1 << 20]),
        2 => random.small(100, 400),
        _ => random.small(4, 24),
    }
}

/// Steps in which a sound stands on its own neighbours: runs, some of many, every so many, at the bar's end.
fn steps(random: &mut Random, length: u32, most: u32) -> Vec<u32> {
    let (near, from) = (length.min(most), if random.chance(25) { length - length.min(most) } else { 0 });
    let run = random.small(1, near);
    let mut steps: Vec<u32> = match random.below(8) {
        0..=2 => (0..run).collect(),
        3 => (near - run..near).collect(),
        4 => (0..near).step_by(random.pick(&[1, 2, 3])).collect(),
        5 => vec![random.small(0, near - 1)],
        _ => {
            let dense = random.pick(&[30, 60, 90]);
            (0..near).filter(|_| random.chance(dense)).collect()
        }
    };
    if steps.is_empty() {
        steps.push(near - 1);
    }
    steps.iter().map(|step| from + step).collect()
}

pub fn given(random: &mut Random) -> Given {
    let long = random.chance(15);
    let most = random.pick(&[4, 6, 12, 24, 200]);
    let bars = bars(random);
    let documents: Vec<(u32, u32)> = make::ids(random, bars).into_iter().map(|id| (id, length(random, long))).collect();
    let dense = random.pick(&[60, 90, 100]);
    let mut terms = Vec::new();
    for name in &NAMES[..random.pick(&[1, 1, 2, 2, 3, 5])] {
        let mut postings = Vec::new();
        for (id, length) in documents.iter().filter(|document| document.1 > 0) {
            if random.chance(dense) {
                postings.push(Posting { id: *id, positions: steps(random, *length, most) });
            }
        }
        if !postings.is_empty() {
            terms.push(Term { name: name.as_bytes().to_vec(), postings });
        }
    }
    Given { documents, terms }
}
