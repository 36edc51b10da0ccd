//! What was asked and what was reached.

use crate::case::{Call, CALLS};
use crate::rust::{Answer, Refused, Stage};

const STAGES: [(Stage, &str); 6] = [
    (Stage::Arguments, "arguments"),
    (Stage::Opening, "opening"),
    (Stage::Entry, "an entry"),
    (Stage::List, "a list"),
    (Stage::Writing, "writing"),
    (Stage::Room, "room"),
];

pub const OPENING: &[(u32, u32)] = &[
    (1, 1),
    (1, 2),
    (1, 3),
    (1, 4),
    (1, 5),
    (2, 0),
    (3, 0),
    (4, 0),
    (5, 2),
    (5, 3),
    (5, 4),
    (5, 5),
    (6, 1),
    (6, 2),
    (6, 3),
    (6, 4),
    (6, 5),
    (7, 4),
    (8, 0),
];
pub const ENTRY: &[(u32, u32)] = &[(1, 3), (1, 5), (6, 2), (6, 6), (6, 7), (6, 8), (10, 0)];
pub const LIST: &[(u32, u32)] = &[(5, 6), (6, 9), (6, 10), (6, 11), (6, 12), (6, 13), (6, 14), (7, 5), (8, 0), (9, 0)];
const WRITING: &[(u32, u32)] =
    &[(6, 6), (6, 8), (6, 10), (6, 11), (6, 15), (6, 16), (6, 17), (6, 18), (6, 19), (6, 20), (6, 21), (10, 0)];
const NAME: &[(u32, u32)] = &[(10, 0), (12, 0)];
const QUESTION: &[(u32, u32)] = &[(10, 0), (11, 0), (12, 0)];
const LISTS: &[(u32, u32)] = &[(11, 0), (12, 0)];

/// Every refusal that a call can give at a stage, by document 01.
fn possible(call: Call, stage: Stage) -> &'static [(u32, u32)] {
    match (call, stage) {
        (Call::Write, Stage::Arguments) => LISTS,
        (Call::Write, Stage::Writing) => WRITING,
        (Call::Write, Stage::Room) => &[(13, 1)],
        (Call::Write, _) | (_, Stage::Writing) => &[],
        (_, Stage::Opening) => OPENING,
        (_, Stage::Entry) => ENTRY,
        (Call::Open | Call::DocumentLen, _) => &[],
        (Call::DocumentLengths, Stage::Room) => &[(13, 1), (13, 2)],
        (Call::DocumentLengths, _) => &[],
        (Call::Phrase | Call::NearTerms, Stage::Arguments) => QUESTION,
        (_, Stage::Arguments) => NAME,
        (Call::Df, _) => &[],
        (_, Stage::List) => LIST,
        (Call::TermPostings, Stage::Room) => &[(13, 1), (13, 2), (13, 3)],
        (_, Stage::Room) => &[(13, 1)],
    }
}

/// Numbers of document 01 that no input reaches, and why.
const NEVER: &[(&str, &str)] = &[
    ("1 6", "a list's range is tested against the section postings, and is 1 5"),
    ("5 1", "the header has no checksum"),
    ("7 1, 7 2, 7 3, 7 6", "these hold no stored numbers; a number of a list is the section postings', 7 5"),
    ("11 of calls with single names", "a single name has no ends"),
    ("the Rust's other reasons", "overflows of 64 bits that lists within document 01's limits cannot reach"),
];

const KINDS: usize = 14;
const WHICHES: usize = 22;

pub struct Tally {
    pub calls: [u64; 11],
    accepted: [u64; 11],
    /// accepted with a first number that is not 0
    found: [u64; 11],
    reached: Vec<u64>,
    strange: u64,
}

fn slot(call: Call, stage: Stage, kind: u32, which: u32) -> usize {
    (((call as usize - 1) * STAGES.len() + stage as usize) * KINDS + kind as usize) * WHICHES + which as usize
}

impl Tally {
    pub fn new() -> Self {
        Tally {
            calls: [0; 11],
            accepted: [0; 11],
            found: [0; 11],
            reached: vec![0; 11 * STAGES.len() * KINDS * WHICHES],
            strange: 0,
        }
    }

    pub fn total(&self) -> u64 {
        self.calls.iter().sum()
    }

    pub fn count(&mut self, call: Call, told: Result<&Answer, Refused>) {
        let place = call as usize - 1;
        self.calls[place] += 1;
        match told {
            Ok(answer) => {
                self.accepted[place] += 1;
                self.found[place] += u64::from(answer.first > 0);
            }
            Err((stage, r)) if possible(call, stage).contains(&(r.kind, r.which)) => {
                self.reached[slot(call, stage, r.kind, r.which)] += 1;
            }
            Err(_) => self.strange += 1,
        }
    }

    /// Prints everything; answers how many refusals were not reached.
    pub fn print(&self) -> usize {
        println!("\ncalls, how many were accepted, and how many of these with an answer that is not empty:");
        for (call, name) in CALLS {
            let place = call as usize - 1;
            println!("{name:28}{:>12}{:>12}{:>12}", self.calls[place], self.accepted[place], self.found[place]);
        }
        println!("{:28}{:>12}", "all", self.total());
        println!("\nrefusals reached, as kind which x times:");
        let mut missing = 0;
        for (call, name) in CALLS {
            println!("{name}");
            for (stage, said) in STAGES {
                let all = possible(call, stage);
                if all.is_empty() {
                    continue;
                }
                let count = |(kind, which): &(u32, u32)| self.reached[slot(call, stage, *kind, *which)];
                let told: Vec<String> = all.iter().map(|r| format!("{} {} x {}", r.0, r.1, count(r))).collect();
                println!("  {said}: {}", told.join(", "));
                missing += all.iter().filter(|r| count(r) == 0).count();
            }
        }
        println!("\nnever reached, whatever is handed in:");
        for (what, why) in NEVER {
            println!("  {what}: {why}");
        }
        println!("\nrefusals that document 01 names and this run did not reach: {missing}");
        if self.strange > 0 {
            println!("refusals of the oracle that document 01 does not name at their place: {}", self.strange);
        }
        missing
    }
}
