//! What the counter can be asked of, clause by clause.

use super::model::{BARS, HITS};
use super::seen::{Clause, Facts};
use super::words::{counted, WORDS};

fn length(f: &Facts) -> usize {
    f.pad.words.len()
}

fn is_pad(f: &Facts) -> bool {
    f.pad.held.broken.is_none()
}

/// Word 1 of as many words as a pad has.
fn total(f: &Facts) -> Option<u32> {
    (length(f) == WORDS).then(|| f.pad.words[1])
}

/// What the total is above the bars' sum.
fn above(f: &Facts) -> Option<i64> {
    Some(i64::from(total(f)?) - counted(&f.pad.words)? as i64)
}

/// Another number of words, with a total that is not 0.
fn other(f: &Facts, words: usize) -> bool {
    length(f) == words && f.pad.words[1] > 0
}

pub const HITS_ASKED: &[Clause] = &[
    ("counter: an empty pad", |f| is_pad(f) && f.bars == 0),
    ("counter: bars without hits", |f| is_pad(f) && f.bars > 0 && f.hits == 0),
    ("counter: one hit of several bars", |f| is_pad(f) && f.bars > 1 && f.hits == 1),
    ("counter: 256 bars", |f| is_pad(f) && f.bars == BARS),
    ("counter: 8,192 hits of one bar", |f| is_pad(f) && f.bars == 1 && f.hits == HITS),
    ("counter: 8,192 hits of several bars", |f| is_pad(f) && f.bars > 1 && f.hits == HITS),
    ("counter: a pad whose free words are not 0", |f| is_pad(f) && f.free_words()),
    ("counter: the total is one above the sum", |f| above(f) == Some(1)),
    ("counter: the total is one below the sum", |f| above(f) == Some(-1)),
    ("counter: the total is over 1,000 above the sum, but not above 8,192", |f| {
        above(f).is_some_and(|above| above > 1000) && total(f) <= Some(HITS as u32)
    }),
    ("counter: a total of 0, and bars with hits", |f| total(f) == Some(0) && above(f).is_some_and(|above| above < 0)),
    ("counter: a total, and no bars", |f| total(f) > Some(0) && f.pad.words[0] == 0),
    ("counter: a total of 8,193", |f| total(f) == Some(HITS as u32 + 1)),
    ("counter: a total of 2^32 - 1", |f| total(f) == Some(u32::MAX)),
    ("counter: the right total of words that are no pad", |f| !is_pad(f) && above(f) == Some(0) && total(f) > Some(0)),
    ("counter: no words", |f| length(f) == 0),
    ("counter: one word", |f| length(f) == 1 && f.pad.words[0] > 0),
    ("counter: two words", |f| other(f, 2)),
    ("counter: a word fewer than a pad has", |f| other(f, WORDS - 1)),
    ("counter: a word more than a pad has", |f| other(f, WORDS + 1)),
];
