//! Whole small spaces: every step of every length, every set of steps, every character, every end of a name around the cut.

use super::compare::Sheets;
use super::model::Paper;
use super::written;
use crate::compare::opened;
use crate::given::{Given, Posting, Term};

fn term(name: &str, id: u32, positions: Vec<u32>) -> Term {
    Term { name: name.into(), postings: vec![Posting { id, positions }] }
}

/// The sheet of bar 1, exactly full, held against the lists.
fn ask(sheets: &mut Sheets, given: &Given) {
    let segment = written(given);
    let opened = opened(&segment);
    let found = sheets.ask_full(&Paper::new(&opened), 1);
    sheets.hold(given, 1, &found);
}

/// Every length up to 66 with a hit on every step alone and on every step but that one; every set of steps of up to 10.
fn steps(sheets: &mut Sheets) {
    for length in 0..=66u32 {
        ask(sheets, &Given { documents: vec![(1, length)], terms: Vec::new() });
        for step in 0..length {
            let others: Vec<u32> = (0..length).filter(|other| *other != step).collect();
            let mut terms = vec![term("a", 1, vec![step])];
            if !others.is_empty() {
                terms.push(term("b", 1, others));
            }
            ask(sheets, &Given { documents: vec![(1, length)], terms });
        }
    }
    for length in 1..=10u32 {
        for set in 1..1u32 << length {
            let positions = (0..length).filter(|step| set >> step & 1 == 1).collect();
            ask(sheets, &Given { documents: vec![(0, 99), (1, length), (2, 99)], terms: vec![term("a", 1, positions)] });
        }
    }
}

fn sheet_of(sheets: &mut Sheets, names: impl Iterator<Item = String>) {
    let terms: Vec<Term> = names.zip(0..).map(|(name, i)| term(&name, 1, vec![i % 3])).collect();
    if !terms.is_empty() {
        ask(sheets, &Given { documents: vec![(1, 3)], terms });
    }
}

/// Every character: alone, as the twelfth of thirteen, and as the thirteenth; these two in part, unless the whole is asked for.
fn characters(sheets: &mut Sheets, whole: bool) {
    let all: Vec<char> = ('\0'..=char::MAX).collect();
    let eleven = "e".repeat(11);
    for (turn, some) in all.chunks(256).enumerate() {
        sheet_of(sheets, some.iter().map(char::to_string));
        if whole || turn < 16 || turn % 16 == 0 {
            sheet_of(sheets, some.iter().map(|c| format!("{eleven}{c}z")));
            sheet_of(sheets, some.iter().map(|c| format!("{eleven}z{c}")));
        }
    }
}

/// Every end of up to five characters of one to four bytes, behind nine: names of 9 to 14 characters.
fn endings(sheets: &mut Sheets) {
    const TELLING: [char; 5] = ['a', '\u{1}', '\u{e9}', '\u{65e5}', '\u{1f941}'];
    for before in ["a", "\u{e9}", "\u{1f941}"] {
        let mut names = Vec::new();
        for length in 0..=5u32 {
            for choice in 0..TELLING.len().pow(length) {
                let end = (0..length).map(|i| TELLING[choice / TELLING.len().pow(i) % TELLING.len()]);
                names.push(before.repeat(9) + &end.collect::<String>());
            }
        }
        names.sort();
        for some in names.chunks(64) {
            sheet_of(sheets, some.iter().cloned());
        }
    }
}

pub fn all(sheets: &mut Sheets, whole: bool) {
    steps(sheets);
    characters(sheets, whole);
    endings(sheets);
}
