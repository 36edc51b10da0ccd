//! Ranked answers worked out by hand from document 02, with their digits.

use super::compare::{question, Ranked};
use super::model::{found, in_room, reply, Lengths};
use crate::bars::{bars, term};
use crate::compare::opened;
use crate::given::Given;
use crate::questions::ends_of;
use crate::reply::{Refusal, Reply};
use crate::sheet::written;

/// Ids and counts, or the numbers of a refusal.
pub type Expected<'a> = Result<(&'a [u32], &'a [u32]), (u32, u32, u64)>;

/// The model has to say this in this room, and the library in every room what the model says.
pub fn expect(ranked: &mut Ranked, segment: &[u8], names: &[&str], room: Option<Lengths>, expected: Expected) {
    let (text, ends) = (names.concat().into_bytes(), ends_of(names));
    let case = question(segment, &text, &ends);
    let found = found(&case, &opened(segment));
    let room = room.unwrap_or_else(|| expected.map_or([3, 3], |(ids, counts)| [ids.len(), counts.len()]));
    let told = in_room(&found, room);
    let digits = match expected {
        Ok((ids, _)) => Reply::accepted(ids.len() as u64, 0),
        Err((kind, which, index)) => Refusal::new(kind, which, index).into(),
    };
    let lists = told.ok().map(|ranking| (&ranking.ids[..], &ranking.counts[..]));
    if reply(told) != digits || lists != expected.ok() {
        ranked.stray(format!("{names:?}, room {room:?}: {told:?} instead of {expected:?}"));
    }
    ranked.run(&case, &opened(segment), &found, room);
    drop(ranked.every_room(&case));
}

/// Bars with one sound: a phrase of it twice fits three times in bar 1, once in each of the others.
fn four_bars() -> Given {
    Given {
        documents: vec![(1, 8), (2, 8), (4, 8), (9, 8)],
        terms: vec![term("a", &[(1, &[0, 1, 2, 3]), (2, &[0, 1]), (4, &[1, 2, 4]), (9, &[0, 2, 4, 5])])],
    }
}

pub fn all(ranked: &mut Ranked) {
    let two = written(&bars());
    expect(ranked, &two, &["kick"], None, Ok((&[3, 7], &[3, 1])));
    expect(ranked, &two, &["snare"], None, Ok((&[3, 7], &[2, 2])));
    expect(ranked, &two, &["kick", "snare"], None, Ok((&[7], &[1])));
    expect(ranked, &two, &["kick", "snare"], Some([0, 0]), Err((13, 1, 1)));
    expect(ranked, &two, &["kick", "snare"], Some([1, 0]), Err((13, 2, 1)));
    expect(ranked, &two, &["kick", "snare"], Some([0, 1]), Err((13, 1, 1)));
    expect(ranked, &two, &["kick", "snare", "snare"], None, Ok((&[7], &[1])));
    expect(ranked, &two, &["snare", "snare"], None, Ok((&[7], &[1])));
    expect(ranked, &two, &["kick", "tom"], Some([0, 0]), Ok((&[], &[])));
    expect(ranked, &two, &[], Some([0, 0]), Ok((&[], &[])));
    expect(ranked, &two[..71], &[], None, Err((1, 1, 0)));

    let four = written(&four_bars());
    expect(ranked, &four, &["a", "a"], None, Ok((&[1, 2, 4, 9], &[3, 1, 1, 1])));
    expect(ranked, &four, &["a", "a"], Some([4, 3]), Err((13, 2, 4)));
    expect(ranked, &four, &["a", "a"], Some([3, 4]), Err((13, 1, 4)));
    expect(ranked, &four, &["a"], None, Ok((&[1, 9, 4, 2], &[4, 4, 3, 2])));
    expect(ranked, &four, &["a", "a", "a"], None, Ok((&[1], &[2])));
    expect(ranked, &four, &["a", "a", "a", "a"], None, Ok((&[1], &[1])));
    expect(ranked, &four, &["a"; 5], None, Ok((&[], &[])));
}
