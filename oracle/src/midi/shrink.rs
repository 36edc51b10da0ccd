//! A differing file as text, and made smaller for as long as it differs.

use super::answer::{found, full_room, in_room, reply, Room};
use super::bytes::mend_heading;
use super::compare::{Kept, Midi};
use super::model::FIRST_EVENT;
use crate::show::{hex, unhex};
use std::process::ExitCode;

const LARGEST_SHRUNK: usize = 20_000;

/// As it is pasted after `--midi-case`; of a file that no command line holds, the beginning and the length.
pub fn shown(kept: &Kept) -> String {
    let room: Vec<String> = kept.room.iter().map(usize::to_string).collect();
    let room = room.join(",");
    if kept.file.len() > LARGEST_SHRUNK {
        return format!("a file of {} bytes that begins with {}, room={room}", kept.file.len(), hex(&kept.file[..64]));
    }
    format!("--midi-case '{} room={room}'", hex(&kept.file))
}

/// Hex, blanks between its digits or not, and the nine buffers' lengths; without them, they are exactly full.
fn parsed(line: &str) -> Option<Kept> {
    let (digits, room) = line.split_once("room=").map_or((line, None), |(digits, room)| (digits, Some(room)));
    let file = unhex(&digits.split_whitespace().collect::<String>())?;
    let room = match room {
        None => full_room(&found(&file)),
        Some(room) => {
            let places: Option<Vec<usize>> = room.trim().split(',').map(|places| places.parse().ok()).collect();
            Room::try_from(places?).ok()?
        }
    };
    Some(Kept { file, room })
}

/// Tries one pasted file.
pub fn one_case(line: &str) -> ExitCode {
    let Some(kept) = parsed(line) else {
        eprintln!("not a file in hex: {line}");
        return ExitCode::from(2);
    };
    let found = found(&kept.file);
    println!("the model: {found:x?}\nas a reply: {:?}", reply(in_room(&found, kept.room)));
    match Midi::new(None).differs(&kept.file, &found, kept.room) {
        None => {
            println!("no difference");
            ExitCode::SUCCESS
        }
        Some(said) => {
            print!("{said}");
            ExitCode::FAILURE
        }
    }
}

/// Bytes dropped, many at a time first, the heading's length right again or as it was; then bytes made smaller.
fn smaller_files(file: &[u8]) -> impl Iterator<Item = Vec<u8>> + '_ {
    let pieces = [4096usize, 512, 64, 16, 8, 4, 3, 2, 1].into_iter();
    let places = pieces.flat_map(|size| (0..file.len()).step_by(size.div_ceil(2)).map(move |at| (at, size)));
    let dropped = places.flat_map(|(at, size)| {
        let mut less = file.to_vec();
        less.drain(at..(at + size).min(file.len()));
        let mut mended = less.clone();
        mend_heading(&mut mended);
        [less, mended]
    });
    let lowered = (FIRST_EVENT..file.len()).flat_map(|at| {
        [0, file[at] / 2, file[at].saturating_sub(1)].map(|byte| {
            let mut less = file.to_vec();
            less[at] = byte;
            less
        })
    });
    dropped.chain(lowered)
}

fn smaller_rooms(room: Room) -> impl Iterator<Item = Room> {
    (0..room.len()).flat_map(move |buffer| {
        [0, room[buffer] / 2, room[buffer].saturating_sub(1)].map(|places| {
            let mut less = room;
            less[buffer] = places;
            less
        })
    })
}

/// A smaller file often needs less room: it is tried with as much as before, and with what it needs of it.
fn candidates(kept: &Kept) -> impl Iterator<Item = Kept> + '_ {
    let rooms = smaller_rooms(kept.room).map(|room| Kept { room, ..kept.clone() });
    let files = smaller_files(&kept.file).flat_map(|file| {
        let full = full_room(&found(&file));
        let fitted = std::array::from_fn(|buffer| full[buffer].min(kept.room[buffer]));
        [Kept { file: file.clone(), room: fitted }, Kept { file, room: kept.room }]
    });
    rooms.chain(files)
}

pub fn shrunk(midi: &mut Midi, mut kept: Kept) -> Kept {
    while kept.file.len() <= LARGEST_SHRUNK {
        let mut differs = |smaller: &Kept| midi.differs(&smaller.file, &found(&smaller.file), smaller.room).is_some();
        let smaller = candidates(&kept).find(|smaller| smaller.size() < kept.size() && differs(smaller));
        let Some(smaller) = smaller else { break };
        kept = smaller;
    }
    kept
}
