//! A lookup by the library and by the model, compared: the reply's seven numbers, and that the lists stay as they were.

use super::call::Slices;
use super::make::{Known, Made};
use super::model::{answer, reply, Lists, Told};
use super::shrink::{shown, Kept};
use super::tally::Tally;
use crate::reply::Reply;

pub struct Lookups {
    slices: Slices,
    pub tally: Tally,
    pub differences: u64,
    pub smallest: Option<Kept>,
    /// where the model itself is not what a worked answer, the maker of lists, a segment or the Rust say
    pub astray: Vec<String>,
}

impl Lookups {
    pub fn new() -> Self {
        Lookups { slices: Slices::new(), tally: Tally::new(), differences: 0, smallest: None, astray: Vec::new() }
    }

    /// Asks the library; says what differs.
    pub fn differs(&mut self, lists: &Lists, id: u32, told: &Told) -> Option<String> {
        let expected = reply(told);
        let (reply, left) = self.slices.ask(lists, id);
        if reply == expected && left {
            return None;
        }
        let mut said = format!("the library: {reply:?}\nthe model:   {expected:?}\n");
        if !left {
            said += "what is only read is written to\n";
        }
        Some(said)
    }

    pub fn run(&mut self, lists: &Lists, id: u32) -> Told {
        let told = answer(lists, id);
        self.tally.count(lists, id, &told);
        if self.differs(lists, id, &told).is_some() {
            self.differences += 1;
            let size = Kept::size_of(lists, id);
            if self.smallest.as_ref().is_none_or(|known| size < Kept::size_of(&known.lists, known.id)) {
                self.smallest = Some(Kept { lists: lists.clone(), id });
            }
        }
        told
    }

    /// The model has to say these numbers, and the library what the model says.
    pub fn expect(&mut self, lists: &Lists, id: u32, expected: Reply) {
        let said = reply(&self.run(lists, id));
        if said != expected {
            self.stray(format!("{}: the model says {said:?} instead of {expected:?}", shown(lists, id)));
        }
    }

    /// The model has to say what the maker of the lists knows.
    pub fn ask(&mut self, made: &Made, id: u32) {
        let told = self.run(&made.lists, id);
        let known = match &made.known {
            Known::Rising(lengths) => {
                Reply::accepted(lengths.contains_key(&id).into(), lengths.get(&id).copied().unwrap_or(0).into())
            }
            Known::Refused(refusal) => Reply::from(*refusal),
            Known::Nothing => return,
        };
        if reply(&told) == known {
            self.tally.known += 1;
        } else {
            self.stray(format!("{}: {known:?} is known, the model says {told:?}", shown(&made.lists, id)));
        }
    }

    /// Keeps what is said of the model, in part where it is long.
    pub fn stray(&mut self, said: String) {
        self.differences += 1;
        self.astray.push(said.chars().take(4000).collect());
        self.astray.sort_by_key(String::len);
        self.astray.truncate(3);
    }
}
