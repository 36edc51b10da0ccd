//! A list broken in one place, with the refusal that document 01's order of decoding then gives.

use crate::damage::encoded;
use crate::given::{Given, Posting};
use crate::parts::Parts;
use crate::random::Random;
use crate::reply::Refusal;

/// A list's numbers in their order: per posting the gap, the count and the gaps of positions.
struct Numbers {
    numbers: Vec<Vec<u8>>,
    /// where each posting's numbers begin
    starts: Vec<usize>,
}

fn gaps(values: impl Iterator<Item = u32>) -> impl Iterator<Item = u32> {
    values.scan(0, |before, value| {
        let gap = value - *before;
        *before = value;
        Some(gap)
    })
}

impl Numbers {
    fn of(postings: &[Posting]) -> Self {
        let (mut numbers, mut starts) = (Vec::new(), Vec::new());
        for (posting, gap) in postings.iter().zip(gaps(postings.iter().map(|posting| posting.id))) {
            starts.push(numbers.len());
            numbers.push(encoded(gap));
            numbers.push(encoded(posting.positions.len() as u32));
            numbers.extend(gaps(posting.positions.iter().copied()).map(encoded));
        }
        Numbers { numbers, starts }
    }

    fn gap(&mut self, posting: usize) -> &mut Vec<u8> {
        &mut self.numbers[self.starts[posting]]
    }

    fn count(&mut self, posting: usize) -> &mut Vec<u8> {
        &mut self.numbers[self.starts[posting] + 1]
    }

    fn position(&mut self, posting: usize, position: usize) -> &mut Vec<u8> {
        &mut self.numbers[self.starts[posting] + 2 + position]
    }
}

const NO_NUMBERS: [&[u8]; 4] =
    [b"\xFF\xFF\xFF\xFF\x10", b"\x80\x80\x80\x80\x80\x00", b"\xFF\xFF\xFF\xFF\x7F", b"\x80\x80\x80\x80\x80"];

/// Breaks the list of a term, all checksums right but where they are what is broken; none where this break cannot be.
pub fn broken(random: &mut Random, parts: &mut Parts, given: &Given, term: usize) -> Option<Refusal> {
    let postings = &given.terms[term].postings;
    let mut list = Numbers::of(postings);
    let (mut df, mut behind, mut wrong) = (postings.len() as u32, Vec::new(), 0);
    let at = random.below(postings.len());
    let Posting { id, positions } = &postings[at];
    let place = random.below(positions.len());
    let (posting, position) = (at as u64, (at + place) as u64);
    let length = given.documents.iter().find(|document| document.0 == *id)?.1;
    let before = |place: usize| positions[place - 1];
    let layout = |reason: u32| Refusal::new(6, reason, 0);
    let refusal = match random.below(13) {
        0 => {
            wrong = 1 << random.below(32);
            Refusal::new(5, 6, 0)
        }
        1 => {
            behind = vec![0; random.below(3) + 1];
            layout(14)
        }
        2 => {
            df += 1;
            Refusal::new(7, 5, postings.len() as u64)
        }
        3 if df > 1 => {
            df -= 1;
            layout(14)
        }
        4 => {
            *list.count(at) = encoded(0);
            layout(11)
        }
        5 if at > 0 => {
            *list.gap(at) = encoded(0);
            layout(9)
        }
        6 => {
            // an id between this posting's bar and the next one that there is, or past the last
            let unknown = id.checked_add(1).filter(|id| given.documents.iter().all(|document| document.0 != *id))?;
            let from = if at > 0 { postings[at - 1].id } else { 0 };
            *list.gap(at) = encoded(unknown - from);
            layout(10)
        }
        7 if at > 0 && postings[at - 1].id > 0 => {
            *list.gap(at) = encoded(u32::MAX);
            Refusal::new(8, 0, posting)
        }
        8 if place > 0 => {
            *list.position(at, place) = encoded(0);
            layout(12)
        }
        9 if place > 0 && before(place) > 0 => {
            *list.position(at, place) = encoded(u32::MAX);
            Refusal::new(9, 0, position)
        }
        10 => {
            *list.position(at, place) = encoded(if place > 0 { length - before(place) } else { length });
            layout(13)
        }
        11 => {
            let number = random.pick(&NO_NUMBERS).to_vec();
            let (there, index) = match random.below(3) {
                0 => (list.gap(at), posting),
                1 => (list.count(at), posting),
                _ => (list.position(at, place), position),
            };
            *there = number;
            Refusal::new(7, 5, index)
        }
        12 => {
            // this posting's last number is missing, and all behind it
            let last = list.starts.get(at + 1).copied().unwrap_or(list.numbers.len());
            list.numbers.truncate(last - 1);
            Refusal::new(7, 5, posting + positions.len() as u64 - 1)
        }
        _ => return None,
    };
    let bytes = [list.numbers.concat(), behind].concat();
    parts.put_list(term, &bytes);
    let entry = &mut parts.entries[term];
    (entry.df, entry.checksum) = (df, crc32fast::hash(&bytes) ^ wrong);
    Some(refusal)
}

/// Every number of a term's list in a longer form: the same list.
pub fn lengthened(random: &mut Random, parts: &mut Parts, given: &Given, term: usize) {
    let mut list = Numbers::of(&given.terms[term].postings);
    for number in list.numbers.iter_mut().filter(|number| number.len() < 5) {
        *number.last_mut().expect("a number has a byte") |= 0x80;
        number.extend(vec![0x80; random.below(5 - number.len())]);
        number.push(0);
    }
    let bytes = list.numbers.concat();
    parts.put_list(term, &bytes);
    parts.entries[term].checksum = crc32fast::hash(&bytes);
}
