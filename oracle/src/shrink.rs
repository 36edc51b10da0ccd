//! A differing case made smaller, step by step, for as long as it differs.

use crate::case::{Call, Kept, ENDS};
use crate::compare::{found, opened, Runner};
use crate::given::Given;
use crate::parts::Parts;
use crate::reshape::given_of;

fn differs(runner: &mut Runner, kept: &Kept) -> bool {
    let case = kept.case();
    let opened = opened(case.segment);
    runner.differs(&case, &found(&case, &opened), kept.room).is_some()
}

/// Smaller numbers to try for one.
fn less(number: u64) -> Vec<u64> {
    let mut all = vec![0, 1, number / 2, number.saturating_sub(1)];
    all.retain(|smaller| *smaller < number);
    all.dedup();
    all
}

/// The writer's lists with one document, term, posting or position less, or one number smaller.
pub fn smaller_given(given: &Given) -> Vec<Given> {
    let mut all = Vec::new();
    let mut try_with = |edit: &dyn Fn(&mut Given)| {
        let mut smaller = given.clone();
        edit(&mut smaller);
        all.push(smaller);
    };
    for d in 0..given.documents.len() {
        try_with(&|g| {
            g.documents.remove(d);
        });
        let id = given.documents[d].0;
        for n in less(id.into()) {
            try_with(&|g| g.documents[d].0 = n as u32);
            // the same document in every posting
            try_with(&|g| {
                g.documents[d].0 = n as u32;
                let postings = g.terms.iter_mut().flat_map(|term| &mut term.postings);
                postings.filter(|posting| posting.id == id).for_each(|posting| posting.id = n as u32);
            });
        }
        for n in less(given.documents[d].1.into()) {
            try_with(&|g| g.documents[d].1 = n as u32);
        }
    }
    for (t, term) in given.terms.iter().enumerate() {
        try_with(&|g| {
            g.terms.remove(t);
        });
        try_with(&|g| {
            g.terms[t].name.pop();
        });
        try_with(&|g| g.terms[t].name = vec![b'a' + t as u8 % 26]);
        for (p, posting) in term.postings.iter().enumerate() {
            try_with(&|g| {
                g.terms[t].postings.remove(p);
            });
            for n in less(posting.id.into()) {
                try_with(&|g| g.terms[t].postings[p].id = n as u32);
            }
            for (q, position) in posting.positions.iter().enumerate() {
                try_with(&|g| {
                    g.terms[t].postings[p].positions.remove(q);
                });
                for n in less((*position).into()) {
                    try_with(&|g| g.terms[t].postings[p].positions[q] = n as u32);
                }
            }
        }
    }
    all
}

fn smaller_writes(kept: &Kept) -> Vec<Kept> {
    let mut all = Vec::new();
    if let Some(given) = given_of(kept) {
        for smaller in smaller_given(&given) {
            let flat = smaller.flat();
            all.push(Kept { text: flat.text, lists: flat.lists, ..kept.clone() });
        }
    }
    all
}

/// One element less in any list, for lists that do not fit together.
fn smaller_lists(kept: &Kept) -> Vec<Kept> {
    let mut all = Vec::new();
    for list in 0..kept.lists.len() {
        for at in 0..kept.lists[list].len() {
            let mut smaller = kept.clone();
            smaller.lists[list].remove(at);
            all.push(smaller);
            for n in less(kept.lists[list][at].into()) {
                let mut smaller = kept.clone();
                smaller.lists[list][at] = n as u32;
                all.push(smaller);
            }
        }
    }
    all
}

/// A question with one name less.
fn fewer_names(kept: &Kept) -> Vec<Kept> {
    let mut all = Vec::new();
    let ends = &kept.lists[ENDS];
    for at in 0..ends.len() {
        let (start, end) = (if at == 0 { 0 } else { ends[at - 1] }, ends[at]);
        if start > end || end as usize > kept.text.len() {
            return all;
        }
        let mut smaller = kept.clone();
        smaller.text.drain(start as usize..end as usize);
        smaller.lists[ENDS].remove(at);
        smaller.lists[ENDS].iter_mut().skip(at).for_each(|later| *later -= (end - start).min(*later));
        all.push(smaller);
    }
    all
}

/// A segment with an entry or a byte less, or a smaller byte, its checksums made right again; and one that is merely shorter.
pub fn smaller_segments(segment: &[u8]) -> Vec<Vec<u8>> {
    let mut segments = Vec::new();
    if let Some(parts) = Parts::of(segment) {
        for at in 0..parts.entries.len() {
            let mut smaller = parts.clone();
            smaller.entries.remove(at);
            smaller.terms = smaller.terms.saturating_sub(1);
            segments.push(smaller.bytes());
        }
        for (section, length) in [parts.names.len(), parts.metadata.len(), parts.postings.len()].into_iter().enumerate() {
            for at in 0..length {
                for sign in [true, false] {
                    let mut smaller = parts.clone();
                    match section {
                        0 => smaller.cut_name(at),
                        1 => drop(smaller.metadata.drain(at..=at)),
                        _ => smaller.cut_list(at),
                    }
                    if sign {
                        smaller.sign_lists();
                    }
                    segments.push(smaller.bytes());
                }
            }
        }
        let sections: [fn(&mut Parts) -> &mut Vec<u8>; 3] = [|p| &mut p.names, |p| &mut p.metadata, |p| &mut p.postings];
        for section in sections {
            for at in 0..section(&mut parts.clone()).len() {
                let mut lower = parts.clone();
                section(&mut lower)[at] /= 2;
                lower.sign_lists();
                segments.push(lower.bytes());
            }
        }
    }
    for at in (0..segment.len()).rev() {
        segments.push(segment[..at].to_vec());
        let mut lower = segment.to_vec();
        lower[at] = 0;
        segments.push(lower);
    }
    segments
}

fn smaller_rest(kept: &Kept) -> Vec<Kept> {
    let mut all = Vec::new();
    for n in less(kept.number.into()) {
        all.push(Kept { number: n as u32, ..kept.clone() });
    }
    for buffer in 0..3 {
        for n in less(kept.room.places[buffer] as u64) {
            let mut smaller = kept.clone();
            smaller.room.places[buffer] = n as usize;
            all.push(smaller);
        }
    }
    for n in less(kept.room.bytes as u64) {
        let mut smaller = kept.clone();
        smaller.room.bytes = n as usize;
        all.push(smaller);
    }
    for at in 0..kept.text.len() {
        let mut smaller = kept.clone();
        smaller.text.remove(at);
        all.push(smaller);
    }
    for at in 0..kept.second.len() {
        let mut smaller = kept.clone();
        smaller.second.remove(at);
        all.push(smaller);
    }
    all
}

/// Everything to try for a case.
pub fn candidates(kept: &Kept) -> Vec<Kept> {
    let mut all = smaller_rest(kept);
    if kept.call == Call::Write {
        all.extend(smaller_writes(kept));
    } else {
        all.extend(fewer_names(kept));
        all.extend(smaller_segments(&kept.segment).into_iter().map(|segment| Kept { segment, ..kept.clone() }));
    }
    all.extend(smaller_lists(kept));
    all
}

/// Whether trying everything would take too long.
pub fn is_large(kept: &Kept) -> bool {
    kept.size().0 > 20_000
}

pub fn shrunk(runner: &mut Runner, mut kept: Kept) -> Kept {
    'again: while !is_large(&kept) {
        for smaller in candidates(&kept) {
            if smaller.size() < kept.size() && differs(runner, &smaller) {
                kept = smaller;
                continue 'again;
            }
        }
        break;
    }
    kept
}
