//! A lookup as document 02's wish 8 has it, over lists of a caller. It passes over the lists and makes no use of their order.

use crate::reply::{Refusal, Reply};

pub const LARGEST: usize = 16_777_216;

/// The two lists that are handed in.
#[derive(Clone, Debug, Default, PartialEq, Eq)]
pub struct Lists {
    pub ids: Vec<u32>,
    pub lengths: Vec<u32>,
}

/// What a lookup can fail, in the order in which it is tested.
#[derive(Clone, Copy, Debug, PartialEq, Eq)]
pub enum Test {
    LongIds,
    LongLengths,
    Shape,
    NotRising,
}

/// Everything that a lookup fails: the first is the refusal.
#[derive(Clone, Debug, PartialEq, Eq)]
pub struct Refused {
    pub failing: Vec<Test>,
    pub refusal: Refusal,
}

/// The length beside the asked id, or none.
pub type Told = Result<Option<u32>, Refused>;

/// The place from 0 of the first id that is not above the one before it.
pub fn first_not_above(ids: &[u32]) -> Option<usize> {
    (1..ids.len()).find(|place| ids[*place] <= ids[*place - 1])
}

fn beside(lists: &Lists, id: u32) -> Option<u32> {
    lists.ids.iter().zip(&lists.lengths).find(|(known, _)| **known == id).map(|(_, length)| *length)
}

pub fn answer(lists: &Lists, id: u32) -> Told {
    let not_above = first_not_above(&lists.ids);
    let tests = [
        (Test::LongIds, lists.ids.len() > LARGEST),
        (Test::LongLengths, lists.lengths.len() > LARGEST),
        (Test::Shape, lists.ids.len() != lists.lengths.len()),
        (Test::NotRising, not_above.is_some()),
    ];
    let failing: Vec<Test> = tests.into_iter().filter(|(_, fails)| *fails).map(|(test, _)| test).collect();
    let refusal = match (failing.first(), not_above) {
        (None, _) => return Ok(beside(lists, id)),
        (Some(Test::LongIds | Test::LongLengths), _) => Refusal::of_kind(12),
        (Some(Test::Shape), _) => Refusal::of_kind(11),
        (Some(Test::NotRising), place) => Refusal::new(21, 0, place.map_or(0, |place| place as u64)),
    };
    Err(Refused { failing, refusal })
}

pub fn reply(told: &Told) -> Reply {
    match told {
        Ok(length) => Reply::accepted(length.is_some().into(), length.unwrap_or(0).into()),
        Err(refused) => refused.refusal.into(),
    }
}
