//! What was asked of pads, and what was reached.

use super::call::{Call, CALLS};
use super::compare::Pad;
use super::damage::KINDS;
use super::model::{answer, Test, Told};
use super::seen::{Facts, TABLES};
use super::words::{Damage, DAMAGES};

use Test::*;

const N: usize = CALLS.len();

/// The tests of each call in their order; of the names of sounds with hits any can come first, and the counter has none.
const TESTS: [&[Test]; N] = [
    &[Broken, Held, LongList, Lengths, Sound, Velocity, Order, Step, Full],
    &[Broken, Unknown],
    &[Broken, Unknown, Sounds, Steps, Velocities],
    &[Broken, LongText, LongEnds, EndsCount, EndsFall, EndsLast, NotUtf8, Empty, NotRising, Out],
    &[],
];

const NAMES: [Test; 3] = [NotUtf8, Empty, NotRising];
const SHAPE: [Test; 5] = [LongText, LongEnds, EndsCount, EndsFall, EndsLast];

fn words(test: Test) -> &'static str {
    match test {
        Broken => "20",
        Held => "18",
        LongList => "12 of a list",
        Lengths => "11",
        Sound => "12 of a sound",
        Velocity => "22",
        Order => "6 20",
        Step => "6 21",
        Full => "19",
        Unknown => "16",
        Sounds => "13 1",
        Steps => "13 2",
        Velocities => "13 3",
        LongText => "12 of the text",
        LongEnds => "12 of the ends",
        EndsCount => "11 of their number",
        EndsFall => "11 of ends that fall",
        EndsLast => "11 of the last end",
        NotUtf8 => "10",
        Empty => "6 6",
        NotRising => "6 16",
        Out => "13 1",
        Strange => "99",
    }
}

/// Whether both can fail and be told, the first of them being the refusal.
fn meet(first: Test, other: Test) -> bool {
    let unknown = first == Unknown && [Sounds, Steps, Velocities].contains(&other);
    // without their shape the text has no names
    let unnamed = SHAPE.contains(&first) && NAMES.contains(&other);
    !unknown && !unnamed
}

/// The pairs of tests of a call that can fail together, the first in front.
fn pairs(call: usize) -> Vec<(Test, Test)> {
    let tests = TESTS[call];
    let mut all = Vec::new();
    for (i, first) in tests.iter().enumerate() {
        for (j, other) in tests.iter().enumerate() {
            let behind = j > i || (i != j && NAMES.contains(first) && NAMES.contains(other));
            if behind && meet(*first, *other) {
                all.push((*first, *other));
            }
        }
    }
    all
}

fn print_counts(counts: impl Iterator<Item = (&'static str, u64)>, missing: &mut Vec<String>) {
    for (said, count) in counts {
        println!("  {said:80}{count:>12}");
        if count == 0 {
            missing.push(said.to_string());
        }
    }
}

const COUNT: usize = Strange as usize + 1;

pub struct Tally {
    pub calls: [u64; N],
    accepted: [u64; N],
    refused: [[u64; COUNT]; N],
    together: Vec<[[u64; COUNT]; COUNT]>,
    damages: [[u64; N]; DAMAGES.len()],
    /// by call, how often the counter was asked after it, after an accepted one and after a refused one; itself it is asked alone
    after: [[u64; 2]; N],
    /// calls on words that were damaged in a known way
    pub kinds: [u64; KINDS.len()],
    /// by call, the clauses of its tables
    seen: [Vec<u64>; N],
    /// writing out from two pads that differ in velocities alone, accepted or by what is refused
    alike: [u64; COUNT + 1],
    /// words of the model's that were read again
    pub held: u64,
    /// verdicts of the model that were held against what a damage does
    pub known: u64,
    /// pads written out and asked, and the phrases that were put to them
    pub written: u64,
    pub phrases: u64,
}

impl Tally {
    pub fn new() -> Self {
        Tally {
            calls: [0; N],
            accepted: [0; N],
            refused: [[0; COUNT]; N],
            together: vec![[[0; COUNT]; COUNT]; N],
            damages: [[0; N]; DAMAGES.len()],
            after: [[0; 2]; N],
            kinds: [0; KINDS.len()],
            seen: TABLES.map(|tables| vec![0; tables.concat().len()]),
            alike: [0; COUNT + 1],
            held: 0,
            known: 0,
            written: 0,
            phrases: 0,
        }
    }

    /// The calls, without the counter after each.
    pub fn total(&self) -> u64 {
        self.after.iter().flatten().sum()
    }

    /// Counts a call, before the pad is changed.
    pub fn count(&mut self, pad: &Pad, call: &Call, told: &Told) {
        let number = call.number();
        self.calls[number] += 1;
        match told {
            Ok(_) => self.accepted[number] += 1,
            Err(refused) => {
                let first = refused.failing[0];
                self.refused[number][first as usize] += 1;
                for other in &refused.failing[1..] {
                    self.together[number][first as usize][*other as usize] += 1;
                }
            }
        }
        if let Some(damage) = pad.held.broken {
            self.count_damage(damage, number);
        }
        let facts = Facts::new(pad, call, told);
        for (count, (_, seen)) in self.seen[number].iter_mut().zip(TABLES[number].into_iter().flatten()) {
            *count += u64::from(seen(&facts));
        }
    }

    /// Counts the counter that is asked after a call, of the pad that it left.
    pub fn count_after(&mut self, pad: &Pad, call: &Call, told: &Told) {
        self.after[call.number()][usize::from(told.is_err())] += 1;
        if *call != Call::Hits {
            self.count(pad, &Call::Hits, &answer(&pad.held, &Call::Hits));
        }
    }

    /// Counts two pads with other velocities that were written out alike.
    pub fn count_alike(&mut self, told: &Told) {
        self.alike[told.as_ref().map_or_else(|refused| refused.failing[0] as usize, |_| COUNT)] += 1;
    }

    fn count_damage(&mut self, damage: Damage, call: usize) {
        let place = DAMAGES.iter().position(|(known, _)| *known == damage).expect("every damage is listed");
        self.damages[place][call] += 1;
    }

    /// Prints everything; answers how many clauses were not reached.
    pub fn print(&self) -> usize {
        println!("\npads: {} calls, the counter after each; words of the model's read again: {}", self.total(), self.held);
        println!("verdicts held against a known damage: {}", self.known);
        println!("pads written out and asked: {}, phrases held against the map's own hits: {}", self.written, self.phrases);
        let mut missing = Vec::new();
        for call in 0..N {
            self.print_call(call, &mut missing);
        }
        println!("the counter was asked after accepted calls, after refused ones, and by itself:");
        for (call, [accepted, refused]) in CALLS.iter().zip(self.after) {
            println!("  {call:60}{accepted:>10}{refused:>10}");
            if accepted == 0 || (refused == 0 && *call != "pad_hits") {
                missing.push(format!("the counter after {call}"));
            }
        }
        println!("words that are no pad, by the first rule that they break: save, erase, read, write, the counter");
        for ((_, said), counts) in DAMAGES.iter().zip(self.damages) {
            println!("  {said:60}{}", counts.map(|count| format!("{count:>10}")).concat());
            let none = CALLS.iter().zip(counts).filter(|(_, count)| *count == 0);
            missing.extend(none.map(|(call, _)| format!("{call}: {said}")));
        }
        println!("calls on words that were changed so:");
        print_counts(KINDS.iter().map(|(_, said)| *said).zip(self.kinds), &mut missing);
        println!("pads that differ in velocities alone, written out alike: {} times; and refused alike:", self.alike[COUNT]);
        for test in &TESTS[3][1..] {
            println!("  {:60}{:>10}", words(*test), self.alike[*test as usize]);
        }
        let unseen = TESTS[3][1..].iter().filter(|test| self.alike[**test as usize] == 0);
        missing.extend(unseen.map(|test| format!("{} alike, whatever the velocities", words(*test))));
        if self.alike[COUNT] == 0 {
            missing.push("written out alike, whatever the velocities".to_string());
        }
        println!("calls that had:");
        let clauses = TABLES.iter().flatten().copied().flatten().map(|(said, _)| *said);
        print_counts(clauses.zip(self.seen.iter().flatten().copied()), &mut missing);
        let strange: u64 = self.refused.iter().map(|refused| refused[Strange as usize]).sum();
        if strange > 0 {
            missing.push(format!("the Rust's writer and the words for it differ: {strange}"));
        }
        println!("of the calls on pads this run did not reach: {}", missing.len());
        for said in &missing {
            println!("  {said}");
        }
        missing.len()
    }

    fn print_call(&self, call: usize, missing: &mut Vec<String>) {
        println!("{}: {} calls, {} accepted", CALLS[call], self.calls[call], self.accepted[call]);
        for first in TESTS[call] {
            let count = self.refused[call][*first as usize];
            let mut said = format!("  {} x {count}", words(*first));
            if count == 0 {
                missing.push(format!("{}: {}", CALLS[call], words(*first)));
            }
            let with: Vec<(Test, Test)> = pairs(call).into_iter().filter(|pair| pair.0 == *first).collect();
            for (place, (_, other)) in with.iter().enumerate() {
                let count = self.together[call][*first as usize][*other as usize];
                said += if place == 0 { ", together with " } else { ", " };
                said += &format!("{} x {count}", words(*other));
                if count == 0 {
                    missing.push(format!("{}: {} together with {}", CALLS[call], words(*first), words(*other)));
                }
            }
            println!("{said}");
        }
    }
}
