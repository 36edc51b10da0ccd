//! The handles of the segment that is asked, so that each call can be made with them as well.

use super::call::{check, open_once, takes, Handle};
use super::expected;
use super::tally::Tally;
use crate::case::Case;
use crate::rust::{Answer, Refused};

/// The last segment's handles; a segment gets many questions in a row.
pub struct Handles {
    segment: Option<Vec<u8>>,
    /// by `check` and by `open_once`
    both: [Handle; 2],
    wrong: Option<String>,
    pub tally: Tally,
}

impl Handles {
    pub fn new() -> Self {
        Handles { segment: None, both: [Handle::default(); 2], wrong: None, tally: Tally::new() }
    }

    /// The handles of a segment, with the names of the calls that made them; or what is wrong with them.
    pub fn of(&mut self, segment: &[u8]) -> Result<[(&'static str, Handle); 2], String> {
        if self.segment.as_deref() != Some(segment) {
            self.segment = Some(segment.to_vec());
            self.both = [check(segment), open_once(segment)];
            let (expected, why) = expected::handles(segment);
            self.tally.segment(why);
            self.wrong = (self.both != expected)
                .then(|| format!("check and open_once: {:?}\nthe oracle:          {expected:?}\n", self.both));
        }
        match &self.wrong {
            Some(said) => Err(said.clone()),
            None => Ok([("with check's handle", self.both[0]), ("with open_once's handle", self.both[1])]),
        }
    }

    /// Counts a call that was made with both handles.
    pub fn count(&mut self, case: &Case, told: Result<&Answer, Refused>) {
        if takes(case.call) {
            for handle in self.both {
                self.tally.count(case.call, handle.level, told);
            }
        }
    }
}
