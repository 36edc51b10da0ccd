//! The sheet of a bar, from the words of document 02's wish 3. Opening and decoding are the Rust's; order and drawing are written here.

use crate::numbers::refusal;
use crate::parts::Parts;
use crate::reply::{Refusal, Reply};
use crate::rust::{Opened, Stage};
use postings::positional::raw::RawPositionalPosting;
use std::panic::{catch_unwind, AssertUnwindSafe};

const WIDTH: usize = 80;
const NUMBER: usize = 10;
pub const NAME: usize = 12;
pub const STEPS: u32 = 64;
const HITS: usize = 4;

/// Where a refusal came from.
#[derive(Clone, Copy, Debug, PartialEq, Eq)]
pub enum Why {
    Opening(Stage),
    UnknownBar,
    TooLong,
    List,
    NoRoom,
}

pub type Refused = (Why, Refusal);

/// A sound of the directory, its list decoded or refused.
pub struct Sound {
    pub name: String,
    /// where its list begins, and how long it is
    pub list_at: (u64, u64),
    pub list: Result<Vec<RawPositionalPosting>, Refusal>,
}

/// A segment with all its lists decoded once, for the sheets of many bars.
pub struct Paper<'a> {
    pub opened: &'a Opened<'a>,
    pub sounds: Vec<Sound>,
}

/// A whole answer, before the buffer is looked at.
#[derive(Debug)]
pub struct Sheet {
    pub length: u32,
    /// the bar's sounds: places in the directory, and steps
    pub sounds: Vec<(usize, Vec<u32>)>,
    pub text: String,
}

pub type Found = Result<Sheet, Refused>;

impl<'a> Paper<'a> {
    pub fn new(opened: &'a Opened<'a>) -> Self {
        let mut sounds = Vec::new();
        if let (Ok(segment), Some(parts)) = (&opened.segment, Parts::of(opened.bytes)) {
            for entry in &parts.entries {
                let name = &parts.names[entry.name_at as usize..][..entry.name_len as usize];
                let name = String::from_utf8(name.to_vec()).expect("a name of an open segment is UTF-8");
                // a fault of the Rust itself becomes a refusal that no call gives
                let list = catch_unwind(AssertUnwindSafe(|| segment.term_postings(&name).map_err(|error| refusal(&error))));
                let list = list.unwrap_or(Err(Refusal::of_kind(99)));
                sounds.push(Sound { name, list_at: (entry.list_at, entry.list_len), list });
            }
        }
        Paper { opened, sounds }
    }

    pub fn segment(&self) -> &'a [u8] {
        self.opened.bytes
    }

    /// Id and length of every bar; none where the segment does not open.
    pub fn bars(&self) -> &[(u32, u32)] {
        self.opened.segment.as_ref().map_or(&[], |segment| segment.document_lengths())
    }
}

/// "Control bytes print as in the listing": below 32 and 127 as a question mark.
fn printed(character: char) -> char {
    if u32::from(character) < 32 || u32::from(character) == 127 {
        '?'
    } else {
        character
    }
}

/// A number right-justified in so many columns.
fn column(number: impl ToString, columns: usize) -> String {
    let digits = number.to_string();
    " ".repeat(columns.saturating_sub(digits.len())) + &digits
}

/// "id and length in 10 columns each, then blanks".
fn first_line(id: u32, length: u32) -> String {
    column(id, NUMBER) + &column(length, NUMBER) + &" ".repeat(WIDTH - 2 * NUMBER) + "\n"
}

/// "name cut or padded to 12 characters, 64 steps, the number of hits right-justified in 4 columns".
fn sound_line(name: &str, length: u32, hits: &[u32]) -> String {
    let mut line: String = name.chars().map(printed).chain(std::iter::repeat(' ')).take(NAME).collect();
    for step in 0..STEPS {
        line.push(match step {
            _ if hits.contains(&step) => 'o',
            _ if step < length => '.',
            _ => ' ',
        });
    }
    line + &column(hits.len(), HITS) + "\n"
}

/// The whole answer, or the first refusal: opening, 16, 17, then every list of the directory in its order.
pub fn found(paper: &Paper, id: u32) -> Found {
    let segment = paper.opened.segment.as_ref().map_err(|(stage, refusal)| (Why::Opening(*stage), *refusal))?;
    let Some(length) = segment.document_len(id) else { return Err((Why::UnknownBar, Refusal::of_kind(16))) };
    if length > STEPS {
        return Err((Why::TooLong, Refusal::of_kind(17)));
    }
    let mut sheet = Sheet { length, sounds: Vec::new(), text: first_line(id, length) };
    for (place, sound) in paper.sounds.iter().enumerate() {
        let postings = sound.list.as_ref().map_err(|refusal| (Why::List, *refusal))?;
        let of_bar = postings.iter().filter(|posting| posting.doc_id == id);
        let hits: Vec<u32> = of_bar.flat_map(|posting| posting.positions.iter().copied()).collect();
        if !hits.is_empty() {
            sheet.text += &sound_line(&sound.name, length, &hits);
            sheet.sounds.push((place, hits));
        }
    }
    Ok(sheet)
}

/// 13 comes last; its index is the bytes of the whole sheet.
pub fn in_room(found: &Found, room: usize) -> Result<&Sheet, Refused> {
    let sheet = found.as_ref().map_err(|refused| *refused)?;
    let needed = sheet.text.len();
    if needed > room {
        return Err((Why::NoRoom, Refusal::new(13, 1, needed as u64)));
    }
    Ok(sheet)
}

pub fn reply(told: Result<&Sheet, Refused>) -> Reply {
    match told {
        Ok(sheet) => Reply::accepted(sheet.text.len() as u64, 0),
        Err((_, refusal)) => refusal.into(),
    }
}
