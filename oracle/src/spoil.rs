//! Lists that the writer refuses: one to three faults in the nested lists, and in the flat ones.

use crate::case::{ENDS, POSITION_COUNTS, POSTING_COUNTS};
use crate::given::{Flat, Given, Posting, Term};
use crate::random::Random;

pub fn spoiled(random: &mut Random, given: &Given) -> Flat {
    let mut given = given.clone();
    let only_flat = random.chance(35);
    if !only_flat {
        for _ in 0..random.below(3) + 1 {
            spoil(random, &mut given);
        }
    }
    let mut flat = given.flat();
    if only_flat || random.chance(10) {
        for _ in 0..random.below(2) + 1 {
            bend(random, &mut flat);
        }
    }
    flat
}

fn swap<T>(random: &mut Random, list: &mut [T]) {
    if list.len() > 1 {
        let at = random.below(list.len() - 1);
        list.swap(at, at + 1);
    }
}

fn repeat<T: Clone>(random: &mut Random, list: &mut Vec<T>) {
    if !list.is_empty() {
        let at = random.below(list.len());
        list.insert(at, list[at].clone());
    }
}

fn shorten<T>(list: &mut Vec<T>) {
    list.truncate(list.len().saturating_sub(1));
}

fn some<'a, T>(random: &mut Random, list: &'a mut [T]) -> Option<&'a mut T> {
    let n = list.len();
    if n == 0 {
        None
    } else {
        Some(&mut list[random.below(n)])
    }
}

fn some_posting<'a>(random: &mut Random, given: &'a mut Given) -> Option<&'a mut Posting> {
    let term = some(random, &mut given.terms)?;
    some(random, &mut term.postings)
}

fn spoil_term(random: &mut Random, term: &mut Term) {
    match random.below(9) {
        0 => term.name.clear(),
        1 => term.postings.clear(),
        2 => term.name.push(random.pick(&[0x80, 0xC3, 0xFF])),
        3 => term.name = random.pick(&[&b"\xC0\x80"[..], b"\xED\xA0\x80", b"\xF4\x90\x80\x80", b"\xE2\x82", b"\xFF"]).to_vec(),
        4 => swap(random, &mut term.postings),
        5 => repeat(random, &mut term.postings),
        6 => term.postings.reverse(),
        7 => shorten(&mut term.name),
        _ => term.name.insert(0, random.pick(b"\0az")),
    }
}

fn spoil_posting(random: &mut Random, posting: &mut Posting) {
    match random.below(7) {
        0 => posting.id = random.edge(),
        1 => posting.id = posting.id.wrapping_add(random.pick(&[1, u32::MAX])),
        2 => posting.positions.clear(),
        3 => swap(random, &mut posting.positions),
        4 => repeat(random, &mut posting.positions),
        5 => posting.positions.push(random.edge()),
        _ => posting.positions.reverse(),
    }
}

fn spoil(random: &mut Random, given: &mut Given) {
    match random.below(10) {
        0 => swap(random, &mut given.documents),
        1 => repeat(random, &mut given.documents),
        2 => some(random, &mut given.documents).into_iter().for_each(|document| document.1 = document.1.wrapping_sub(1)),
        3 => swap(random, &mut given.terms),
        4 => repeat(random, &mut given.terms),
        5 | 6 => {
            if let Some(at) = given.terms.len().checked_sub(1).map(|last| random.below(last + 1)) {
                spoil_term(random, &mut given.terms[at]);
            }
        }
        _ => {
            let edit = random.next();
            if let Some(posting) = some_posting(random, given) {
                spoil_posting(&mut Random::new(edit), posting);
            }
        }
    }
}

/// Lists that no longer fit together, or fit only if sums wrapped at 2^32, or fit in another way.
fn bend(random: &mut Random, flat: &mut Flat) {
    let which = random.below(flat.lists.len());
    let at = random.below(flat.lists[which].len() + 1);
    match random.below(8) {
        0 => flat.lists[which].insert(at, random.edge()),
        1 => shorten(&mut flat.lists[which]),
        2 => flat.lists[which].iter_mut().skip(at).take(1).for_each(|x| *x = x.wrapping_add(1)),
        3 => flat.lists[which].iter_mut().skip(at).take(1).for_each(|x| *x = x.wrapping_sub(1)),
        4 | 5 => {
            let counts = &mut flat.lists[random.pick(&[POSTING_COUNTS, POSITION_COUNTS, ENDS])];
            if counts.len() > 1 {
                let (i, j) = (random.below(counts.len()), random.below(counts.len()));
                let much = random.pick(&[1, 2, 1 << 31, u32::MAX, u32::MAX - 1]);
                counts[i] = counts[i].wrapping_add(much);
                counts[j] = counts[j].wrapping_sub(much);
            }
        }
        6 => flat.text.push(b'x'),
        _ => shorten(&mut flat.text),
    }
}
