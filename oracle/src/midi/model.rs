//! Wishes 2 and 9 from the words of document 02: a Standard MIDI File of format 0 and its hits, or the first clause that it breaks.

use super::clause::{Broken, Clause};
use std::collections::BTreeMap;

/// A note-on with velocity above 0: its note, and the bar and position of its step.
#[derive(Clone, Copy, Debug, PartialEq, Eq, PartialOrd, Ord)]
pub struct Hit {
    pub note: u8,
    pub bar: u32,
    pub position: u32,
}

/// Each hit once, with its velocity: of equal ones the loudest is kept.
pub type Hits = BTreeMap<Hit, u8>;

pub const LARGEST_FILE: usize = 16_777_216;
pub const LAST_BAR: u64 = 65_535;
pub const BAR_LENGTH: u32 = 16;
/// Where the track's heading and its first event stand.
pub const HEADING: usize = 14;
pub const FIRST_EVENT: usize = 22;

pub fn hits(file: &[u8]) -> Result<Hits, Broken> {
    if file.len() > LARGEST_FILE {
        return Err(Clause::TooLarge.at(0));
    }
    let division = division(file).map_err(|clause| clause.at(0))?;
    heading(file).map_err(|clause| clause.at(HEADING))?;
    track(file, division)
}

fn demand(met: bool, clause: Clause) -> Result<(), Clause> {
    if met {
        Ok(())
    } else {
        Err(clause)
    }
}

fn big_endian(bytes: &[u8]) -> u64 {
    bytes.iter().fold(0, |number, byte| number << 8 | u64::from(*byte))
}

/// The header chunk's division, in ticks per quarter.
fn division(file: &[u8]) -> Result<u64, Clause> {
    let header = file.get(..HEADING).ok_or(Clause::HeaderCut)?;
    demand(&header[..4] == b"MThd", Clause::HeaderType)?;
    demand(big_endian(&header[4..8]) == 6, Clause::HeaderLength)?;
    demand(big_endian(&header[8..10]) == 0, Clause::Format)?;
    demand(big_endian(&header[10..12]) == 1, Clause::Tracks)?;
    let division = big_endian(&header[12..14]);
    demand(division < 32_768, Clause::DivisionFrames)?;
    demand(division <= 32_764, Clause::DivisionHigh)?;
    demand(division >= 4, Clause::DivisionLow)?;
    demand(division % 4 == 0, Clause::DivisionUneven)?;
    Ok(division)
}

/// The track chunk's type, and its length, which must be the rest of the file.
fn heading(file: &[u8]) -> Result<(), Clause> {
    let heading = file.get(HEADING..FIRST_EVENT).ok_or(Clause::HeadingCut)?;
    demand(&heading[..4] == b"MTrk", Clause::HeadingType)?;
    let (length, rest) = (big_endian(&heading[4..]), (file.len() - FIRST_EVENT) as u64);
    demand(length >= rest, Clause::TrackShort)?;
    demand(length <= rest, Clause::TrackLong)
}

/// The running status, or the clause that a data byte in its place breaks.
type Running = Result<u8, Clause>;

enum Event {
    Message { status: u8, data: [u8; 2] },
    Meta,
    Exclusive,
    EndOfTrack,
}

fn track(file: &[u8], division: u64) -> Result<Hits, Broken> {
    let mut hits = Hits::new();
    let mut reader = Reader { file, at: FIRST_EVENT };
    let mut tick = 0;
    let mut running: Running = Err(Clause::NoStatusAtStart);
    while reader.at < file.len() {
        let start = reader.at;
        let (delta, event) = reader.event(running).map_err(|clause| clause.at(start))?;
        tick += delta;
        running = match event {
            Event::Message { status, data: [note, velocity] } => {
                if status & 0xF0 == 0x90 && velocity > 0 {
                    let hit = hit(note, tick, division).ok_or(Clause::TooFar.at(0))?;
                    let kept = hits.get(&hit).copied().unwrap_or(0);
                    hits.insert(hit, kept.max(velocity));
                }
                Ok(status)
            }
            Event::Meta => Err(Clause::NoStatusAfterMeta),
            Event::Exclusive => Err(Clause::NoStatusAfterExclusive),
            Event::EndOfTrack if reader.at < file.len() => return Err(Clause::AfterEnd.at(reader.at)),
            Event::EndOfTrack => return Ok(hits),
        };
    }
    Err(Clause::EndMissing.at(file.len()))
}

/// None beyond the last bar that a hit may have.
fn hit(note: u8, tick: u64, division: u64) -> Option<Hit> {
    let step = tick / (division / 4);
    let (bar, position) = (step / 16, step % 16);
    (bar <= LAST_BAR).then_some(Hit { note, bar: bar as u32, position: position as u32 })
}

struct Reader<'a> {
    file: &'a [u8],
    at: usize,
}

impl Reader<'_> {
    fn byte(&mut self, missing: Clause) -> Result<u8, Clause> {
        let byte = self.file.get(self.at).copied().ok_or(missing)?;
        self.at += 1;
        Ok(byte)
    }

    /// Seven bits to a byte, the high bit set in all but the last; at most 4 bytes.
    fn variable_length(&mut self, cut: Clause, long: Clause) -> Result<u64, Clause> {
        let mut number = 0;
        for _ in 0..4 {
            let byte = self.byte(cut)?;
            number = number << 7 | u64::from(byte & 0x7F);
            if byte < 0x80 {
                return Ok(number);
            }
        }
        Err(long)
    }

    /// One event with its delta time.
    fn event(&mut self, running: Running) -> Result<(u64, Event), Clause> {
        let delta = self.variable_length(Clause::DeltaCut, Clause::DeltaLong)?;
        let event = match self.byte(Clause::StatusMissing)? {
            0x00..=0x7F => {
                // the byte is the message's first data byte
                self.at -= 1;
                self.message(running?)?
            }
            status @ 0x80..=0xEF => self.message(status)?,
            0xF0 | 0xF7 => self.exclusive()?,
            0xF1..=0xF6 => return Err(Clause::SystemCommon),
            0xF8..=0xFE => return Err(Clause::RealTime),
            0xFF => self.meta()?,
        };
        Ok((delta, event))
    }

    /// A channel message: program change and channel pressure have one data byte, the others two.
    fn message(&mut self, status: u8) -> Result<Event, Clause> {
        let data = match status & 0xF0 {
            0xC0 | 0xD0 => [self.data_byte(Clause::OnlyDataCut, Clause::OnlyDataHigh)?, 0],
            _ => [
                self.data_byte(Clause::FirstDataCut, Clause::FirstDataHigh)?,
                self.data_byte(Clause::SecondDataCut, Clause::SecondDataHigh)?,
            ],
        };
        Ok(Event::Message { status, data })
    }

    fn data_byte(&mut self, missing: Clause, high: Clause) -> Result<u8, Clause> {
        let byte = self.byte(missing)?;
        demand(byte <= 127, high)?;
        Ok(byte)
    }

    fn exclusive(&mut self) -> Result<Event, Clause> {
        let length = self.variable_length(Clause::ExclusiveLengthCut, Clause::ExclusiveLengthLong)?;
        self.skip(length, Clause::ExclusiveCut)?;
        Ok(Event::Exclusive)
    }

    fn meta(&mut self) -> Result<Event, Clause> {
        let kind = self.byte(Clause::MetaTypeCut)?;
        demand(kind <= 127, Clause::MetaTypeHigh)?;
        if kind == 0x2F {
            return self.end_of_track();
        }
        let length = self.variable_length(Clause::MetaLengthCut, Clause::MetaLengthLong)?;
        self.skip(length, Clause::MetaCut)?;
        Ok(Event::Meta)
    }

    /// FF 2F must be followed by the byte 00: another form of a length of 0 does not do.
    fn end_of_track(&mut self) -> Result<Event, Clause> {
        match self.byte(Clause::EndCut)? {
            0x00 => Ok(Event::EndOfTrack),
            0x80 => Err(Clause::EndLongZero),
            _ => Err(Clause::EndNotZero),
        }
    }

    fn skip(&mut self, length: u64, past: Clause) -> Result<(), Clause> {
        demand(length <= (self.file.len() - self.at) as u64, past)?;
        self.at += length as usize;
        Ok(())
    }
}
