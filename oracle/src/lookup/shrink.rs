//! A case as text, tried, and made smaller for as long as it differs.

use super::call::report_faults;
use super::compare::Lookups;
use super::model::{answer, reply, Lists};
use crate::show::{join, numbers};
use std::ops::Range;
use std::process::ExitCode;
use std::time::{Duration, Instant};

const LONGEST: Duration = Duration::from_secs(60);
/// More elements are not printed.
const LARGEST_SHOWN: usize = 20_000;

#[derive(Clone)]
pub struct Kept {
    pub lists: Lists,
    pub id: u32,
}

impl Kept {
    /// What a smaller one has less of: elements first, then the numbers themselves.
    pub fn size_of(lists: &Lists, id: u32) -> (usize, u64) {
        let sum = |list: &[u32]| list.iter().map(|number| u64::from(*number)).sum::<u64>();
        (lists.ids.len() + lists.lengths.len(), sum(&lists.ids) + sum(&lists.lengths) + u64::from(id))
    }

    fn size(&self) -> (usize, u64) {
        Kept::size_of(&self.lists, self.id)
    }
}

fn is_large(lists: &Lists) -> bool {
    lists.ids.len() + lists.lengths.len() > LARGEST_SHOWN
}

/// As it is pasted after `--lookup-case`; of a case that no command line holds, the numbers of elements.
pub fn shown(lists: &Lists, id: u32) -> String {
    let Lists { ids, lengths } = lists;
    if is_large(lists) {
        return format!("{} ids and {} lengths, asked for {id}", ids.len(), lengths.len());
    }
    format!("--lookup-case 'ids={} lengths={} id={id}'", join(ids), join(lengths))
}

fn parsed(line: &str) -> Option<Kept> {
    let value =
        |key: &str| line.split_whitespace().filter_map(|word| word.split_once('=')).find(|(k, _)| *k == key).map(|(_, v)| v);
    let lists = Lists { ids: numbers(value("ids").unwrap_or(""))?, lengths: numbers(value("lengths").unwrap_or(""))? };
    Some(Kept { lists, id: value("id")?.parse().ok()? })
}

pub fn differs(lookups: &mut Lookups, kept: &Kept) -> Option<String> {
    lookups.differs(&kept.lists, kept.id, &answer(&kept.lists, kept.id))
}

/// Tries one pasted case.
pub fn one_case(line: &str) -> ExitCode {
    let Some(kept) = parsed(line) else {
        eprintln!("not a lookup: {line}");
        return ExitCode::from(2);
    };
    report_faults();
    let told = answer(&kept.lists, kept.id);
    println!("the model: {told:?}");
    println!("as a reply: {:?}", reply(&told));
    match differs(&mut Lookups::new(), &kept) {
        None => {
            println!("no difference");
            ExitCode::SUCCESS
        }
        Some(said) => {
            print!("{said}");
            ExitCode::FAILURE
        }
    }
}

/// Parts of a list, larger ones first: halves, then half of that.
fn parts(length: usize) -> impl Iterator<Item = Range<usize>> {
    let sizes = std::iter::successors(Some(length.div_ceil(2)), |size| Some(size / 2).filter(|size| *size > 0));
    sizes
        .filter(|size| *size > 0)
        .flat_map(move |size| (0..length).step_by(size).map(move |from| from..(from + size).min(length)))
}

/// Without a part of the list, as far as it has one.
fn without(list: &[u32], part: &Range<usize>) -> Vec<u32> {
    let (from, to) = (part.start.min(list.len()), part.end.min(list.len()));
    [&list[..from], &list[to..]].concat()
}

/// Fewer elements: of both lists, of ids, of lengths.
fn shorter(kept: &Kept) -> impl Iterator<Item = Kept> + '_ {
    let Lists { ids, lengths } = &kept.lists;
    parts(ids.len().max(lengths.len())).flat_map(move |part| {
        let (fewer_ids, fewer_lengths) = (without(ids, &part), without(lengths, &part));
        let with = |ids: Vec<u32>, lengths: Vec<u32>| Kept { lists: Lists { ids, lengths }, id: kept.id };
        [with(fewer_ids.clone(), fewer_lengths.clone()), with(fewer_ids, lengths.clone()), with(ids.clone(), fewer_lengths)]
    })
}

/// Lower numbers: the asked id, each element, and each id together with the asked one where they are the same.
fn lower(kept: &Kept) -> impl Iterator<Item = Kept> + '_ {
    let less = |number: u32| [0, 1, number / 2, number.saturating_sub(1)];
    let asked = less(kept.id).into_iter().map(|id| Kept { id, ..kept.clone() });
    let n = kept.lists.ids.len();
    let elements = (0..n + kept.lists.lengths.len()).flat_map(move |at| {
        let number = if at < n { kept.lists.ids[at] } else { kept.lists.lengths[at - n] };
        less(number).into_iter().flat_map(move |lower| {
            let mut one = kept.clone();
            *(if at < n { &mut one.lists.ids[at] } else { &mut one.lists.lengths[at - n] }) = lower;
            let asked_too = (at < n && number == kept.id).then(|| Kept { id: lower, ..one.clone() });
            [Some(one), asked_too].into_iter().flatten()
        })
    });
    asked.chain(elements)
}

/// The first smaller case that still differs.
fn smaller(lookups: &mut Lookups, kept: &Kept, until: Instant) -> Option<Kept> {
    let size = kept.size();
    let fewer = shorter(kept).chain(lower(kept)).take_while(|_| Instant::now() < until);
    fewer.filter(|smaller| smaller.size() < size).find(|smaller| differs(lookups, smaller).is_some())
}

/// Made smaller for at most so long as `LONGEST` says.
pub fn shrunk(lookups: &mut Lookups, mut kept: Kept) -> Kept {
    let until = Instant::now() + LONGEST;
    while !is_large(&kept.lists) {
        match smaller(lookups, &kept, until) {
            Some(smaller) => kept = smaller,
            None => break,
        }
    }
    kept
}
