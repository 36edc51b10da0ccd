//! Any handle with any bytes: handles of other segments, with numbers changed, and made up; segments whole, damaged, cut and scratched,
//! with checksums made right again or not.

use super::call::{check, open_once, Handle, CHECKED, OPENED, REFUSED, TAKING};
use super::inside::{shown, Inside};
use crate::case::{Call, Case, Kept, Room, ENDS};
use crate::compare::{found, opened};
use crate::damage::damaged;
use crate::given::Given;
use crate::make;
use crate::parts::{signed, Parts};
use crate::questions::{text_of, Pool};
use crate::random::Random;
use crate::sheet::lengthened;
use crate::show;
use std::process::ExitCode;

/// Handles of earlier segments that are kept.
const EARLIER: usize = 64;

/// How a handle came about.
#[derive(Clone, Copy)]
enum Source {
    Own,
    Other,
    Changed,
    MadeUp,
}

const SOURCES: [(Source, &str); 4] = [
    (Source::Own, "of these bytes before the damage"),
    (Source::Other, "of another segment"),
    (Source::Changed, "with numbers changed"),
    (Source::MadeUp, "made up"),
];

pub struct Any {
    inside: Inside,
    earlier: Vec<Handle>,
    pub calls: u64,
    /// by source: calls, accepted ones, ones with an answer that is not empty, and those whose handle was the bytes' own
    sources: [[u64; 4]; 4],
    pub differences: u64,
    smallest: Option<(Kept, Handle, bool)>,
}

impl Any {
    pub fn new() -> Self {
        Any { inside: Inside::new(), earlier: Vec::new(), calls: 0, sources: [[0; 4]; 4], differences: 0, smallest: None }
    }

    /// One segment and what becomes of it, each asked with many handles.
    pub fn round(&mut self, random: &mut Random) {
        let given = make::given(random);
        let Ok(written) = found(&given.flat().case(), &opened(&[])) else { return };
        let mut whole = written.bytes;
        if random.chance(30) {
            whole = in_longer_forms(random, &whole, &given);
        }
        let own = [check(&whole), open_once(&whole)];
        let pool = Pool::of(&given, true);
        for _ in 0..8 {
            let bytes = some_bytes(random, &whole);
            for call in TAKING {
                let mut kept = some_case(random, call, &pool);
                kept.segment = bytes.clone();
                let (source, handle) = self.some_handle(random, own, whole.len());
                self.run(random, &kept, source, handle);
            }
        }
        for handle in own {
            if self.earlier.len() < EARLIER {
                self.earlier.push(handle);
            } else {
                self.earlier[random.below(EARLIER)] = handle;
            }
        }
    }

    fn some_handle(&self, random: &mut Random, own: [Handle; 2], len: usize) -> (Source, Handle) {
        let own = random.pick(&own);
        let other = if self.earlier.is_empty() { own } else { random.pick(&self.earlier) };
        match random.below(10) {
            0..=2 => (Source::Own, own),
            3 | 4 => (Source::Other, other),
            5..=8 => {
                let mut handle = if random.chance(80) { own } else { other };
                for _ in 0..random.below(3) + 1 {
                    change(random, &mut handle, len);
                }
                (Source::Changed, handle)
            }
            _ => (Source::MadeUp, made_up(random, len)),
        }
    }

    fn run(&mut self, random: &mut Random, kept: &Kept, source: Source, handle: Handle) {
        let at_end = random.chance(75);
        let (reply, said) = self.inside.ask(kept, handle, at_end);
        self.calls += 1;
        let of_segment = [check(&kept.segment), open_once(&kept.segment)].contains(&handle);
        let [calls, accepted, filled, own] = &mut self.sources[source as usize];
        *calls += 1;
        *accepted += u64::from(reply.kind == 0);
        *filled += u64::from(reply.first > 0);
        *own += u64::from(of_segment);
        if said.is_some() {
            self.differences += 1;
            if self.smallest.as_ref().is_none_or(|(known, ..)| kept.size() < known.size()) {
                self.smallest = Some((kept.clone(), handle, at_end));
            }
        }
    }

    pub fn print(&self) {
        println!("\nany handle with any bytes, by how the handle came about:");
        println!("{:34}{:>12}{:>12}{:>12}{:>12}", "", "calls", "accepted", "not empty", "bytes' own");
        for (source, name) in SOURCES {
            let [calls, accepted, filled, own] = self.sources[source as usize];
            println!("{name:34}{calls:>12}{accepted:>12}{filled:>12}{own:>12}");
        }
        println!("{:34}{:>12}", "all", self.calls);
    }
}

/// The same lists, some in longer forms of their numbers.
fn in_longer_forms(random: &mut Random, written: &[u8], given: &Given) -> Vec<u8> {
    let mut parts = Parts::of(written).expect("a written segment comes apart");
    for term in 0..given.terms.len() {
        if random.chance(50) {
            lengthened(random, &mut parts, given, term);
        }
    }
    parts.bytes()
}

/// The segment whole or in some way not.
fn some_bytes(random: &mut Random, whole: &[u8]) -> Vec<u8> {
    let mut bytes = match random.below(10) {
        0 | 1 => return whole.to_vec(),
        2..=5 => return damaged(random, whole),
        6 => return whole[..random.below(whole.len() + 1)].to_vec(),
        7 => [whole, &whole[..random.below(whole.len() + 1)]].concat(),
        _ => whole.to_vec(),
    };
    for _ in 0..random.below(4) + 1 {
        // behind the header more often: there the handle says where things are
        let from = if random.chance(80) { 72.min(bytes.len() - 1) } else { 0 };
        let at = from + random.below(bytes.len() - from);
        let byte = random.below(256) as u8;
        bytes[at] = random.pick(&[0, 1, 0x7F, 0x80, 0xFF, byte, byte]);
    }
    if random.chance(50) {
        bytes = signed(&bytes);
    }
    bytes
}

/// A number near something that matters: 0, the segment's end, the ends of 32 and 64 bits.
fn telling(random: &mut Random, len: usize) -> usize {
    let from = random.pick(&[0, 1, 72, 104, len / 2, len, len, len, u32::MAX as usize, usize::MAX, usize::MAX / 2, 1 << 32]);
    let near = random.pick(&[0, 0, 1, 2, 31, 32, 33, 72]);
    if random.chance(50) {
        from.wrapping_add(near)
    } else {
        from.wrapping_sub(near)
    }
}

fn change(random: &mut Random, handle: &mut Handle, len: usize) {
    let near = random.pick(&[1, 2, 3, 32, usize::MAX, usize::MAX - 1, usize::MAX - 31]);
    let far = random.chance(30);
    let number = telling(random, len);
    let changed = |old: usize| if far { number } else { old.wrapping_add(near) };
    match random.below(10) {
        0 => handle.level = random.pick(&[REFUSED, OPENED, CHECKED, CHECKED, 3, u32::MAX]),
        1 => handle.documents = changed(handle.documents as usize) as u32,
        2 => handle.terms = changed(handle.terms as usize) as u32,
        3 => handle.names = changed(handle.names),
        4 => handle.metadata = changed(handle.metadata),
        5 => handle.lists = changed(handle.lists),
        // a directory of an entry more or less
        6 => (handle.terms, handle.names) = (handle.terms.wrapping_sub(1), handle.names.wrapping_sub(32)),
        7 => (handle.terms, handle.names) = (handle.terms.wrapping_add(1), handle.names.wrapping_add(32)),
        8 => {
            handle.metadata = handle.metadata.wrapping_add(near);
            handle.lists = handle.lists.wrapping_add(near);
        }
        _ => (handle.kind, handle.which, handle.spare) = (random.edge(), random.edge(), random.edge()),
    }
}

/// Numbers that fit together or not.
fn made_up(random: &mut Random, len: usize) -> Handle {
    let level = random.pick(&[OPENED, CHECKED]);
    if random.chance(30) {
        let [names, metadata, lists] = [(); 3].map(|()| telling(random, len));
        return Handle { level, documents: random.edge(), terms: random.edge(), names, metadata, lists, ..Handle::default() };
    }
    let terms = random.below(6);
    let names = 72 + 32 * terms;
    let rest = len.saturating_sub(names);
    let mut cuts = [random.below(rest + 1), random.below(rest + 1)];
    cuts.sort_unstable();
    let documents = random.pick(&[0, 1, 2, 5, 100, u32::MAX]);
    let [metadata, lists] = cuts.map(|cut| names + cut);
    Handle { level, documents, terms: terms as u32, names, metadata, lists, ..Handle::default() }
}

fn some_case(random: &mut Random, call: Call, pool: &Pool) -> Kept {
    let mut kept = Kept::new(&Case::on(call, &[]), Room::default());
    match call {
        Call::Phrase | Call::NearTerms => {
            let names = if random.chance(50) { pool.planted(random) } else { pool.several(random) };
            (kept.text, kept.lists[ENDS]) = text_of(random, &names);
            (kept.number, kept.ordered) = (Pool::window(random), random.chance(50));
        }
        Call::Near => {
            (kept.text, kept.second) = (pool.name(random), pool.name(random));
            kept.number = Pool::window(random);
        }
        Call::DocumentLen => kept.number = pool.id(random),
        _ => (kept.text, kept.number) = (pool.name(random), pool.id(random)),
    }
    for place in 0..call.buffers() {
        kept.room.places[place] = random.pick(&[0, 1, 2, 5, 17, 64, 500, 3000]);
    }
    kept
}

/// Tries one pasted case, at the end and at the beginning of its pages.
pub fn one_case(line: &str) -> ExitCode {
    let Some((kept, handle)) = parsed(line) else {
        eprintln!("not a case with a handle: {line}");
        return ExitCode::from(2);
    };
    super::inside::report_faults();
    let mut inside = Inside::new();
    for at_end in [true, false] {
        let (reply, said) = inside.ask(&kept, handle, at_end);
        println!("the library: {reply:?}");
        if let Some(said) = said {
            print!("{said}");
            return ExitCode::FAILURE;
        }
    }
    println!("nothing is wrong");
    ExitCode::SUCCESS
}

fn parsed(line: &str) -> Option<(Kept, Handle)> {
    let (mine, others): (Vec<&str>, Vec<&str>) = line.split_whitespace().partition(|word| word.starts_with("handle="));
    let [mine] = mine[..] else { return None };
    let numbers: Vec<u64> = mine["handle=".len()..].split(',').map(|number| number.parse().ok()).collect::<Option<_>>()?;
    let [kind, which, index, level, documents, terms, spare, names, metadata, lists] = numbers[..] else { return None };
    let handle = Handle {
        kind: kind.try_into().ok()?,
        which: which.try_into().ok()?,
        index,
        level: level.try_into().ok()?,
        documents: documents.try_into().ok()?,
        terms: terms.try_into().ok()?,
        spare: spare.try_into().ok()?,
        names: names as usize,
        metadata: metadata as usize,
        lists: lists as usize,
    };
    let kept = show::parsed(&others.join(" "))?;
    TAKING.contains(&kept.call).then_some((kept, handle))
}

/// Prints what is wrong, the smallest case.
pub fn conclude(any: &mut Any) {
    println!("differences with any handle: {}", any.differences);
    if let Some((kept, handle, at_end)) = any.smallest.take() {
        println!("smallest: --handle-case '{}'", shown(&kept, handle));
        print!("{}", any.inside.ask(&kept, handle, at_end).1.unwrap_or_default());
    }
}
