//! What files were put to the call, and what was reached.

use super::answer::{Told, Why, BUFFERS};
use super::clause::CLAUSES;
use super::loud::{self, Loud};
use super::made::{Made, TRAITS};

pub struct Tally {
    pub files: u64,
    pub calls: u64,
    accepted: u64,
    /// accepted with a hit
    found: u64,
    clauses: [u64; CLAUSES.len()],
    no_room: [u64; BUFFERS.len()],
    traits: [u64; TRAITS.len()],
    /// what notes on one step of a made file had
    loud: [u64; loud::CLAUSES.len()],
    /// made files with several hits, whose velocities in the file's order are not the list's
    reordered: u64,
    /// accepted files whose velocities are those of a text worked out by hand, or by another program's notes
    pub loud_as_expected: u64,
    /// made files whose hits the model reads as they were struck
    pub read_as_made: u64,
    /// spoiled files that the model refuses as the change tells
    pub refused_as_spoiled: u64,
    /// imports that were written
    pub written: u64,
    /// phrases held against the file's own notes
    pub phrases: u64,
}

impl Tally {
    pub fn new() -> Self {
        Tally {
            files: 0,
            calls: 0,
            accepted: 0,
            found: 0,
            clauses: [0; CLAUSES.len()],
            no_room: [0; BUFFERS.len()],
            traits: [0; TRAITS.len()],
            loud: [0; loud::CLAUSES.len()],
            reordered: 0,
            loud_as_expected: 0,
            read_as_made: 0,
            refused_as_spoiled: 0,
            written: 0,
            phrases: 0,
        }
    }

    pub fn count(&mut self, told: Told) {
        self.calls += 1;
        match told {
            Ok(answer) => {
                self.accepted += 1;
                self.found += u64::from(!answer.hits.is_empty());
            }
            Err((Why::File(clause), _)) => self.clauses[clause as usize] += 1,
            Err((Why::NoRoom(buffer), _)) => self.no_room[buffer as usize - 1] += 1,
        }
    }

    /// What stood in a made file that is accepted.
    pub fn count_made(&mut self, made: &Made, loud: &Loud, velocities: &[u8]) {
        let sums = self.traits.iter_mut().chain(&mut self.loud);
        for (sum, count) in sums.zip(made.traits.into_iter().chain(loud.counts())) {
            *sum += count;
        }
        self.reordered += u64::from(!made.struck.iter().map(|struck| &struck.velocity).eq(velocities));
    }

    /// Prints everything; answers how many clauses were not reached.
    pub fn print(&self) -> usize {
        println!(
            "\nmidi_bars: {} files, {} calls, {} accepted, {} of these with hits",
            self.files, self.calls, self.accepted, self.found
        );
        println!("made files whose hits the model reads as they were struck: {}", self.read_as_made);
        println!("spoiled files that the model refuses as the change tells: {}", self.refused_as_spoiled);
        println!("imports written: {}, phrases held against the file's own notes: {}", self.written, self.phrases);
        println!("accepted files whose velocities were known otherwise: {}", self.loud_as_expected);
        println!("\nmade files that are accepted had:");
        let mut missing = Vec::new();
        let loud = loud::CLAUSES.iter().map(|(words, _)| *words).zip(self.loud);
        let order = ("files whose velocities in the file's order are not the list's", self.reordered);
        for (words, count) in TRAITS.iter().map(|(_, words)| *words).zip(self.traits).chain(loud).chain([order]) {
            println!("  {words:60}{count:>12}");
            if count == 0 {
                missing.push(words.to_string());
            }
        }
        println!("\nrefusals reached, clause by clause:");
        let clauses = CLAUSES.iter().map(|(_, words)| words.to_string());
        let buffers = (1..).zip(BUFFERS).map(|(place, name)| format!("13 {place}, no room in {name}"));
        let counts = self.clauses.iter().chain(&self.no_room);
        for (words, count) in clauses.chain(buffers).zip(counts) {
            println!("  {words:60}{count:>12}");
            if *count == 0 {
                missing.push(words);
            }
        }
        println!("\nclauses that this run did not reach: {}", missing.len());
        for words in &missing {
            println!("  {words}");
        }
        missing.len()
    }
}
