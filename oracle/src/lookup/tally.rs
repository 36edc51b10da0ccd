//! What was looked up, and what was reached.

use super::model::{Lists, Test, Told};
use super::seen::{Facts, CLAUSES};

/// The tests in their order.
const TESTS: [(Test, &str); 4] =
    [(Test::LongIds, "12 of ids"), (Test::LongLengths, "12 of lengths"), (Test::Shape, "11"), (Test::NotRising, "21")];

pub struct Tally {
    pub calls: u64,
    known_ids: u64,
    absent: u64,
    refused: [u64; TESTS.len()],
    together: [[u64; TESTS.len()]; TESTS.len()],
    seen: [u64; CLAUSES.len()],
    longest: usize,
    /// answers of the model that were held against what the maker of the lists knows
    pub known: u64,
    /// answers of the model that were held against `document_len` of a segment, the library's and the Rust's
    pub of_segments: u64,
}

impl Tally {
    pub fn new() -> Self {
        Tally {
            calls: 0,
            known_ids: 0,
            absent: 0,
            refused: [0; TESTS.len()],
            together: [[0; TESTS.len()]; TESTS.len()],
            seen: [0; CLAUSES.len()],
            longest: 0,
            known: 0,
            of_segments: 0,
        }
    }

    pub fn count(&mut self, lists: &Lists, id: u32, told: &Told) {
        self.calls += 1;
        match told {
            Ok(Some(_)) => self.known_ids += 1,
            Ok(None) => self.absent += 1,
            Err(refused) => {
                let first = refused.failing[0] as usize;
                self.refused[first] += 1;
                for other in &refused.failing[1..] {
                    self.together[first][*other as usize] += 1;
                }
            }
        }
        self.longest = self.longest.max(lists.ids.len());
        let facts = Facts::new(lists, id, told);
        for (count, (_, seen)) in self.seen.iter_mut().zip(CLAUSES) {
            *count += u64::from(seen(&facts));
        }
    }

    /// Prints everything; answers how many clauses were not reached.
    pub fn print(&self) -> usize {
        let Tally { calls, known_ids, absent, longest, .. } = self;
        println!("\nlength_of: {calls} calls, {known_ids} with a length, {absent} absent; longest list: {longest} ids");
        println!("held against what the maker of the lists knows: {}", self.known);
        println!("held against document_len of a segment, the library's and the Rust's: {}", self.of_segments);
        let mut missing = self.print_refusals();
        println!("calls that had:");
        for ((said, _), count) in CLAUSES.iter().zip(self.seen) {
            println!("  {said:60}{count:>12}");
            if count == 0 {
                missing.push(said.to_string());
            }
        }
        if self.known == 0 {
            missing.push("lists of which the maker knows the answer".to_string());
        }
        if self.of_segments == 0 {
            missing.push("lists of a segment".to_string());
        }
        println!("of length_of this run did not reach: {}", missing.len());
        for said in &missing {
            println!("  {said}");
        }
        missing.len()
    }

    /// Each refusal, and what else failed with it; gives those that were not reached.
    fn print_refusals(&self) -> Vec<String> {
        let mut missing = Vec::new();
        for (place, (first, words)) in TESTS.iter().enumerate() {
            let count = self.refused[*first as usize];
            let mut said = format!("  {words} x {count}");
            if count == 0 {
                missing.push(words.to_string());
            }
            for (i, (other, other_words)) in TESTS[place + 1..].iter().enumerate() {
                let count = self.together[*first as usize][*other as usize];
                said += if i == 0 { ", together with " } else { ", " };
                said += &format!("{other_words} x {count}");
                if count == 0 {
                    missing.push(format!("{words} together with {other_words}"));
                }
            }
            println!("{said}");
        }
        missing
    }
}
