//! Answers worked out by hand from document 02.

use super::compare::Lookups;
use super::make::not_rising;
use super::model::Lists;
use crate::reply::{Refusal, Reply};

const MIDDLE: u32 = 1 << 31;
const LAST: u32 = u32::MAX;

fn known(length: u32) -> Reply {
    Reply::accepted(1, length.into())
}

fn absent() -> Reply {
    Reply::accepted(0, 0)
}

fn falls(place: usize) -> Reply {
    not_rising(place).into()
}

fn unequal() -> Reply {
    Refusal::of_kind(11).into()
}

pub fn all(lookups: &mut Lookups) {
    let mut expect = |ids: &[u32], lengths: &[u32], id: u32, expected: Reply| {
        lookups.expect(&Lists { ids: ids.to_vec(), lengths: lengths.to_vec() }, id, expected);
    };
    // the length beside the id; absent exactly where the list lacks it
    expect(&[3, 7], &[16, 12], 7, known(12));
    expect(&[3, 7], &[16, 12], 3, known(16));
    for lacking in [0, 2, 4, 5, 6, 8, 12, 16, LAST] {
        expect(&[3, 7], &[16, 12], lacking, absent());
    }
    expect(&[], &[], 0, absent());
    expect(&[], &[], 7, absent());
    expect(&[0], &[0], 0, known(0));
    expect(&[0], &[5], 1, absent());
    expect(&[LAST], &[LAST], LAST, known(LAST));
    // a length of 0 is a length
    expect(&[3, 7], &[0, 12], 3, known(0));
    expect(&[3, 7], &[16, 0], 7, known(0));
    // the whole list is tested, whatever is asked
    for id in [3, 7, 9, 5, 0, LAST] {
        expect(&[3, 7, 7, 9], &[1, 2, 3, 4], id, falls(2));
        expect(&[3, 7, 9, 8], &[1, 2, 3, 4], id, falls(3));
        expect(&[7, 3, 9, 10], &[1, 2, 3, 4], id, falls(1));
        expect(&[3, 7, 5, 4], &[1, 2, 3, 4], id, falls(2));
    }
    // an id that is above the one before it is none such, though it is below an earlier one
    expect(&[5, 1, 2, 2], &[1, 2, 3, 4], 2, falls(1));
    expect(&[9, 9], &[1, 1], 9, falls(1));
    expect(&[0, 0], &[1, 1], 9, falls(1));
    // ids have no sign
    expect(&[MIDDLE - 1, MIDDLE], &[4, 6], MIDDLE, known(6));
    expect(&[MIDDLE, MIDDLE - 1], &[4, 6], MIDDLE, falls(1));
    expect(&[1, LAST], &[4, 6], 1, known(4));
    expect(&[LAST, 0], &[4, 6], 0, falls(1));
    // 11 before 21 and before the lookup
    expect(&[3, 7], &[16], 3, unequal());
    expect(&[3], &[16, 12], 3, unequal());
    expect(&[], &[16], 3, unequal());
    expect(&[3], &[], 3, unequal());
    expect(&[7, 7], &[16], 7, unequal());
    expect(&[7, 3], &[16, 12, 1], 3, unequal());
}
