//! A differing case as text, and made smaller for as long as it differs.

use super::compare::{full_room, Kept, Sheets};
use super::model::{found, in_room, reply, Found, Paper};
use super::written;
use crate::compare::opened;
use crate::damage::encoded;
use crate::given::{Given, Posting, Term};
use crate::parts::Parts;
use crate::show::{hex, unhex};
use crate::shrink::{smaller_given, smaller_segments};
use std::process::ExitCode;

const LARGEST_SHRUNK: usize = 20_000;

/// As it is pasted after `--sheet-case`; of a segment that no command line holds, the length.
pub fn shown(kept: &Kept) -> String {
    let Kept { segment, id, room } = kept;
    if segment.len() > LARGEST_SHRUNK {
        return format!("a segment of {} bytes, id={id} room={room}", segment.len());
    }
    format!("--sheet-case '{} id={id} room={room}'", hex(segment))
}

fn found_in(segment: &[u8], id: u32) -> Found {
    let opened = opened(segment);
    let paper = Paper::new(&opened);
    found(&paper, id)
}

/// Hex, then id= and room=; without room the buffer is exactly full.
fn parsed(line: &str) -> Option<Kept> {
    let (mut segment, mut id, mut room) = (Vec::new(), 0, None);
    for word in line.split_whitespace() {
        match word.split_once('=') {
            None => segment.extend(unhex(word)?),
            Some(("id", value)) => id = value.parse().ok()?,
            Some(("room", value)) => room = Some(value.parse().ok()?),
            Some(_) => return None,
        }
    }
    let room = room.unwrap_or_else(|| full_room(&found_in(&segment, id)));
    Some(Kept { segment, id, room })
}

/// Tries one pasted case.
pub fn one_case(line: &str) -> ExitCode {
    let Some(kept) = parsed(line) else {
        eprintln!("not a segment in hex with id= and room=: {line}");
        return ExitCode::from(2);
    };
    let found = found_in(&kept.segment, kept.id);
    match &found {
        Ok(sheet) => print!("the model:\n{}", sheet.text),
        Err((why, _)) => println!("the model: refused, {why:?}"),
    }
    println!("as a reply: {:?}", reply(in_room(&found, kept.room)));
    match Sheets::new(1).differs(&kept.segment, kept.id, &found, kept.room) {
        None => {
            println!("no difference");
            ExitCode::SUCCESS
        }
        Some(said) => {
            print!("{said}");
            ExitCode::FAILURE
        }
    }
}

/// The lists of a segment whose every list can be decoded.
pub fn given_of(paper: &Paper) -> Option<Given> {
    let mut terms = Vec::new();
    for sound in &paper.sounds {
        let postings = sound.list.as_ref().ok()?.iter();
        let postings = postings.map(|posting| Posting { id: posting.doc_id, positions: posting.positions.clone() });
        terms.push(Term { name: sound.name.clone().into_bytes(), postings: postings.collect() });
    }
    paper.opened.segment.is_ok().then(|| Given { documents: paper.bars().to_vec(), terms })
}

/// The same lists with a character less in a name.
fn shorter_names(given: &Given) -> Vec<Given> {
    let mut all = Vec::new();
    for (place, term) in given.terms.iter().enumerate() {
        let name: Vec<char> = String::from_utf8_lossy(&term.name).chars().collect();
        for at in 0..name.len() {
            let mut smaller = given.clone();
            smaller.terms[place].name = [&name[..at], &name[at + 1..]].concat().iter().collect::<String>().into_bytes();
            all.push(smaller);
        }
    }
    all
}

/// The same segment with a bar less in its metadata; the lists stay as they are.
fn fewer_bars(segment: &[u8], bars: &[(u32, u32)]) -> Vec<Vec<u8>> {
    let Some(parts) = Parts::of(segment) else { return Vec::new() };
    let without = |at: usize| {
        let (mut metadata, mut before) = (Vec::new(), 0);
        for (_, (id, length)) in bars.iter().enumerate().filter(|(place, _)| *place != at) {
            metadata.extend(encoded(id - before));
            metadata.extend(encoded(*length));
            before = *id;
        }
        Parts { metadata, documents: bars.len() as u32 - 1, ..parts.clone() }.bytes()
    };
    (0..bars.len()).map(without).collect()
}

/// Smaller segments, and the bar to ask for: the same id, or that of the bar in the same place.
fn candidates(kept: &Kept) -> Vec<(Vec<u8>, u32)> {
    let opened = opened(&kept.segment);
    let paper = Paper::new(&opened);
    let place = paper.bars().iter().position(|bar| bar.0 == kept.id);
    let mut all: Vec<(Vec<u8>, u32)> = [0, kept.id / 2, kept.id.saturating_sub(1)].map(|id| (kept.segment.clone(), id)).to_vec();
    if let Some(given) = given_of(&paper) {
        for smaller in smaller_given(&given).into_iter().chain(shorter_names(&given)) {
            let segment = written(&smaller);
            let moved = place.and_then(|place| smaller.documents.get(place)).map(|document| (segment.clone(), document.0));
            all.extend(moved);
            all.push((segment, kept.id));
        }
    }
    let segments = fewer_bars(&kept.segment, paper.bars()).into_iter().chain(smaller_segments(&kept.segment));
    all.extend(segments.map(|segment| (segment, kept.id)));
    all
}

pub fn shrunk(sheets: &mut Sheets, mut kept: Kept) -> Kept {
    'again: while kept.segment.len() <= LARGEST_SHRUNK {
        for room in [0, kept.room / 2, kept.room.saturating_sub(1)] {
            let smaller = Kept { room, ..kept.clone() };
            if room < kept.room && sheets.differs(&kept.segment, kept.id, &found_in(&kept.segment, kept.id), room).is_some() {
                kept = smaller;
                continue 'again;
            }
        }
        for (segment, id) in candidates(&kept) {
            let found = found_in(&segment, id);
            let full = full_room(&found);
            for room in [full, full - 1, full + 1, kept.room] {
                let smaller = Kept { segment: segment.clone(), id, room };
                if smaller.size() < kept.size() && sheets.differs(&segment, id, &found, room).is_some() {
                    kept = smaller;
                    continue 'again;
                }
            }
        }
        break;
    }
    kept
}
