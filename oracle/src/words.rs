//! What document 01 adds to the Rust: refusals of lists that do not fit together, are too large, or are not UTF-8.

use crate::case::{Case, ENDS, IDS, LENGTHS, POSITIONS, POSITION_COUNTS, POSTING_COUNTS, POSTING_IDS};
use crate::reply::Refusal;

const LARGEST_LIST: usize = 16_777_216;
const LARGEST_QUESTION: usize = 128;

pub const NOT_UTF8: Refusal = Refusal::of_kind(10);
const SHAPE: Refusal = Refusal::of_kind(11);
const TOO_LARGE: Refusal = Refusal::of_kind(12);

fn not_too_large(large: bool) -> Result<(), Refusal> {
    if large {
        Err(TOO_LARGE)
    } else {
        Ok(())
    }
}

fn in_shape(fits: bool) -> Result<(), Refusal> {
    if fits {
        Ok(())
    } else {
        Err(SHAPE)
    }
}

fn utf8(name: &[u8]) -> Result<&str, Refusal> {
    std::str::from_utf8(name).map_err(|_| NOT_UTF8)
}

/// The ends rise or stay, and the last one is the text's length; without ends the text is empty.
fn ends_fit(text: &[u8], ends: &[u32]) -> bool {
    let rise = ends.windows(2).all(|pair| pair[0] <= pair[1]);
    rise && ends.last().map_or(0, |end| *end as usize) == text.len()
}

/// The names of a text, one for each end.
pub fn names<'a>(text: &'a [u8], ends: &'a [u32]) -> impl Iterator<Item = &'a [u8]> {
    let starts = std::iter::once(0).chain(ends.iter().copied());
    starts.zip(ends).map(|(start, end)| &text[start as usize..*end as usize])
}

/// One name of a call that takes one, or both of `near_match`.
pub fn single_names<const N: usize>(given: [&[u8]; N]) -> Result<[&str; N], Refusal> {
    not_too_large(given.iter().any(|name| name.len() > LARGEST_LIST))?;
    let mut names = [""; N];
    for (name, bytes) in names.iter_mut().zip(given) {
        *name = utf8(bytes)?;
    }
    Ok(names)
}

/// The names of a question.
pub fn question<'a>(case: &Case<'a>) -> Result<Vec<&'a str>, Refusal> {
    let (text, ends) = (case.text, case.lists[ENDS]);
    not_too_large(text.len() > LARGEST_LIST || ends.len() > LARGEST_QUESTION)?;
    in_shape(ends_fit(text, ends))?;
    names(text, ends).map(utf8).collect()
}

fn add_up(counts: &[u32], next: &[u32]) -> bool {
    counts.iter().map(|count| u64::from(*count)).sum::<u64>() == next.len() as u64
}

/// The writer's lists are not too large and fit together.
pub fn writer_lists(case: &Case) -> Result<(), Refusal> {
    let lists = &case.lists;
    not_too_large(case.text.len() > LARGEST_LIST || lists.iter().any(|list| list.len() > LARGEST_LIST))?;
    in_shape(
        lists[IDS].len() == lists[LENGTHS].len()
            && ends_fit(case.text, lists[ENDS])
            && lists[ENDS].len() == lists[POSTING_COUNTS].len()
            && add_up(lists[POSTING_COUNTS], lists[POSTING_IDS])
            && lists[POSTING_IDS].len() == lists[POSITION_COUNTS].len()
            && add_up(lists[POSITION_COUNTS], lists[POSITIONS]),
    )
}

/// No room: the first buffer that is shorter than its part of the answer.
pub fn room(needed: &[usize], lent: &[usize]) -> Result<(), Refusal> {
    for (i, (needed, lent)) in needed.iter().zip(lent).enumerate() {
        if needed > lent {
            return Err(Refusal::new(13, i as u32 + 1, *needed as u64));
        }
    }
    Ok(())
}
