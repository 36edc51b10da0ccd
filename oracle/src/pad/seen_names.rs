//! What writing a pad out can have, clause by clause.

use super::call::Call;
use super::model::{used, Test, BARS, HITS, LARGEST, SOUNDS};
use super::seen::{Clause, Facts};
use crate::words::names;

/// The text, its ends and the buffer's length.
fn given<'a>(f: &Facts<'a>) -> (&'a [u8], &'a [u32], usize) {
    match f.call {
        Call::Write { text, ends, room } => (text, ends, *room),
        _ => (&[], &[], 0),
    }
}

/// The names that have their shape, each with whether its sound has hits.
fn each<'a>(f: &Facts<'a>) -> Vec<(&'a [u8], bool)> {
    let (text, ends, _) = given(f);
    let shapeless = [Test::Broken, Test::LongText, Test::LongEnds, Test::EndsCount, Test::EndsFall, Test::EndsLast];
    if shapeless.iter().any(|test| f.refused(*test)) {
        return Vec::new();
    }
    names(text, ends).zip(used(f.pad.map())).collect()
}

fn used_names<'a>(f: &Facts<'a>) -> Vec<&'a [u8]> {
    each(f).into_iter().filter(|(_, used)| *used).map(|(name, _)| name).collect()
}

fn is_utf8(name: &[u8]) -> bool {
    std::str::from_utf8(name).is_ok()
}

/// Some name of a sound without hits is so.
fn unused(f: &Facts, is: impl Fn(&[u8]) -> bool) -> bool {
    f.ok() && each(f).iter().any(|(name, used)| !used && is(name))
}

/// A name of a sound without hits and the one before it, of a sound with hits, are so.
fn unused_behind(f: &Facts, is: impl Fn(&[u8], &[u8]) -> bool) -> bool {
    f.ok() && each(f).windows(2).any(|pair| pair[0].1 && !pair[1].1 && is(pair[0].0, pair[1].0))
}

fn sounds(f: &Facts) -> usize {
    if f.ok() {
        used(f.pad.map()).iter().filter(|used| **used).count()
    } else {
        0
    }
}

fn written(f: &Facts) -> usize {
    f.told.as_ref().map_or(0, |answer| answer.bytes.len())
}

/// Of a letter of two bytes the first ends a name, and the second begins the next; both names have hits.
fn cut_letter(f: &Facts) -> bool {
    let all = each(f);
    f.refused(Test::NotUtf8)
        && all.windows(2).any(|pair| pair[0].1 && pair[1].1 && !is_utf8(pair[0].0) && is_utf8(&[pair[0].0, pair[1].0].concat()))
}

fn needed(f: &Facts) -> usize {
    f.told.as_ref().map_or_else(|refused| refused.refusal.index as usize, |answer| answer.bytes.len())
}

pub const WRITE: &[Clause] = &[
    ("written: an empty pad, 72 bytes", |f| f.ok() && f.bars == 0 && written(f) == 72),
    ("written: bars without hits alone", |f| f.ok() && f.bars > 0 && f.hits == 0),
    ("written: a bar without hits beside others", |f| {
        f.ok() && f.hits > 0 && f.pad.map().values().any(|bar| bar.hits.is_empty())
    }),
    ("written: one sound", |f| sounds(f) == 1),
    ("written: all 128 sounds", |f| sounds(f) == SOUNDS),
    ("written: sounds left out between others", |f| {
        let used = each(f);
        f.ok() && used.windows(3).any(|three| three[0].1 && !three[1].1 && three[2].1)
    }),
    ("written: sound 0 and sound 127", |f| f.ok() && each(f).first().is_some_and(|n| n.1) && each(f).last().is_some_and(|n| n.1)),
    ("written: 256 bars", |f| f.ok() && f.bars == BARS),
    ("written: 8,192 hits", |f| f.ok() && f.hits == HITS),
    ("written: id 0 and id 2^32 - 1", |f| f.ok() && f.pad.map().contains_key(&0) && f.pad.map().contains_key(&u32::MAX)),
    ("written: a length of 2^32 - 1", |f| f.ok() && f.pad.map().values().any(|bar| bar.length == u32::MAX)),
    ("written: an unused name that is empty", |f| unused(f, |name| name.is_empty())),
    ("written: an unused name that is not UTF-8", |f| unused(f, |name| !is_utf8(name))),
    ("written: an unused name equal to the used one before it", |f| unused_behind(f, |before, name| before == name)),
    ("written: an unused name below the used one before it", |f| unused_behind(f, |before, name| before > name)),
    ("written: a text of 16,777,216 bytes", |f| f.ok() && given(f).0.len() == LARGEST),
    ("written: a used name of over 1,000,000 bytes", |f| f.ok() && used_names(f).iter().any(|name| name.len() > 1_000_000)),
    ("written: a used name with letters of several bytes", |f| f.ok() && used_names(f).iter().any(|name| !name.is_ascii())),
    ("written: a used name of one byte", |f| f.ok() && used_names(f).iter().any(|name| name.len() == 1)),
    ("written: a buffer exactly full", |f| f.ok() && given(f).2 == written(f)),
    ("written: a buffer with places left", |f| f.ok() && given(f).2 > written(f)),
    ("written: with free words that are not 0", |f| f.free_words()),
    ("write, 12 of a text whose names are all unused", |f| f.refused(Test::LongText) && f.hits == 0),
    ("write, 11 of no ends, the text empty", |f| f.refused(Test::EndsCount) && given(f).1.is_empty() && given(f).0.is_empty()),
    ("write, 11 of no ends, the text not empty", |f| {
        f.refused(Test::EndsCount) && given(f).1.is_empty() && !given(f).0.is_empty()
    }),
    ("write, 11 of 127 ends", |f| f.refused(Test::EndsCount) && given(f).1.len() == 127),
    ("write, 11 of 129 ends", |f| f.refused(Test::EndsCount) && given(f).1.len() == 129),
    ("write, 11 of 16,777,216 ends", |f| f.refused(Test::EndsCount) && given(f).1.len() == LARGEST),
    ("write, 11 of an empty pad", |f| f.refused(Test::EndsFall) && f.bars == 0),
    ("write, 11 of a last end before the text's end", |f| {
        f.refused(Test::EndsLast) && given(f).1.last().is_some_and(|end| (*end as usize) < given(f).0.len())
    }),
    ("write, 11 of a last end behind the text's end", |f| {
        f.refused(Test::EndsLast) && given(f).1.last().is_some_and(|end| *end as usize > given(f).0.len())
    }),
    ("write, 10 of the last used name alone", |f| {
        let names = used_names(f);
        f.refused(Test::NotUtf8) && names.len() > 1 && names[..names.len() - 1].iter().all(|name| is_utf8(name))
    }),
    ("write, 10 of a letter cut in two by an end", cut_letter),
    ("write, 6 6 of sound 0", |f| f.refused(Test::Empty) && each(f).first().is_some_and(|(name, used)| *used && name.is_empty())),
    ("write, 6 6 of all names", |f| f.refused(Test::Empty) && used_names(f).iter().all(|name| name.is_empty())),
    ("write, 6 16 of equal names", |f| f.refused(Test::NotRising) && used_names(f).windows(2).any(|pair| pair[0] == pair[1])),
    ("write, 6 16 of names that fall", |f| f.refused(Test::NotRising) && used_names(f).windows(2).any(|pair| pair[0] > pair[1])),
    ("write, 6 16 with a name of no concern between", |f| {
        f.refused(Test::NotRising) && each(f).windows(3).any(|w| w[0].1 && !w[1].1 && w[2].1 && w[0].0 >= w[2].0)
    }),
    ("write, 13 with no places", |f| f.refused(Test::Out) && given(f).2 == 0),
    ("write, 13 with one place too few", |f| f.refused(Test::Out) && given(f).2 + 1 == needed(f)),
    ("write, 13 of an empty pad", |f| f.refused(Test::Out) && f.bars == 0),
];
