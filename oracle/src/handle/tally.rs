//! What was asked with handles, and what was reached.

use super::call::TAKING;
use super::expected::Why;
use crate::case::Call;
use crate::rust::{Answer, Refused, Stage};
use crate::tally::LIST;

pub struct Tally {
    /// segments: checked, opened with a list that is refused, not opened
    segments: [u64; 3],
    /// refusals of lists by `check`, in the order of `LIST`
    lists: Vec<u64>,
    /// calls by the handle's level: refused, opened, checked
    calls: Vec<[u64; 3]>,
    accepted: Vec<[u64; 3]>,
    /// refusals of `check` that are those of the list that was broken
    pub broken: u64,
}

impl Tally {
    pub fn new() -> Self {
        Tally {
            segments: [0; 3],
            lists: vec![0; LIST.len()],
            calls: vec![[0; 3]; TAKING.len()],
            accepted: vec![[0; 3]; TAKING.len()],
            broken: 0,
        }
    }

    pub fn segment(&mut self, why: Why) {
        match why {
            None => self.segments[0] += 1,
            Some((Stage::List, r)) => {
                self.segments[1] += 1;
                if let Some(place) = LIST.iter().position(|known| *known == (r.kind, r.which)) {
                    self.lists[place] += 1;
                }
            }
            Some(_) => self.segments[2] += 1,
        }
    }

    pub fn count(&mut self, call: Call, level: u32, told: Result<&Answer, Refused>) {
        let place = TAKING.iter().position(|known| *known == call).expect("it takes a handle");
        let level = (level as usize).min(2);
        self.calls[place][level] += 1;
        self.accepted[place][level] += u64::from(told.is_ok());
    }

    pub fn print(&self) {
        let [checked, opened, refused] = self.segments;
        println!("\nhandles of segments: {checked} checked, {opened} opened with a list that is refused, {refused} not opened");
        let lists: Vec<String> = LIST.iter().zip(&self.lists).map(|(r, n)| format!("{} {} x {n}", r.0, r.1)).collect();
        println!("lists that check refused: {}", lists.join(", "));
        println!("of these held against the list that was broken: {}", self.broken);
        println!("calls with a handle by its level, and how many were accepted:");
        println!(
            "{:28}{:>12}{:>12}{:>12}{:>12}{:>12}{:>12}",
            "", "checked", "accepted", "opened", "accepted", "refused", "accepted"
        );
        let mut all = 0;
        for (call, (calls, accepted)) in TAKING.iter().zip(self.calls.iter().zip(&self.accepted)) {
            print!("{:28}", call.name());
            for level in [2, 1, 0] {
                print!("{:>12}{:>12}", calls[level], accepted[level]);
            }
            println!();
            all += calls.iter().sum::<u64>();
        }
        println!("{:28}{all:>12}", "all");
        let missing = self.lists.iter().filter(|n| **n == 0).count()
            + self.segments.iter().filter(|n| **n == 0).count()
            + self.accepted.iter().flatten().filter(|n| **n == 0).count();
        println!("sorts of handles, refused lists and accepted calls of these tables that this run did not reach: {missing}");
    }
}
