//! A file that was made: its track, where its events stand, and the notes that were struck.

use super::bytes;
use super::loud::Loud;
use super::model::{Hit, LAST_BAR};
use std::collections::BTreeSet;

/// What a made file can have; the run counts it over the files that are accepted.
#[derive(Clone, Copy)]
pub enum Trait {
    Hit,
    EqualHit,
    VelocityZero,
    NoteOff,
    OtherMessage,
    OneDataByte,
    RunningStatus,
    Meta,
    ExclusiveF0,
    ExclusiveF7,
    LongForm,
    OnBarLine,
    BeforeBarLine,
    LastBar,
    LateTick,
    EveryNote,
}

pub const TRAITS: [(Trait, &str); 16] = [
    (Trait::Hit, "hits"),
    (Trait::EqualHit, "equal hits on one step"),
    (Trait::VelocityZero, "note-ons with velocity 0"),
    (Trait::NoteOff, "note-offs"),
    (Trait::OtherMessage, "other messages of two data bytes"),
    (Trait::OneDataByte, "messages of one data byte"),
    (Trait::RunningStatus, "messages by running status"),
    (Trait::Meta, "meta events"),
    (Trait::ExclusiveF0, "exclusive events F0"),
    (Trait::ExclusiveF7, "exclusive events F7"),
    (Trait::LongForm, "long forms of numbers"),
    (Trait::OnBarLine, "hits on the first tick of a bar"),
    (Trait::BeforeBarLine, "hits on the last tick of a bar"),
    (Trait::LastBar, "hits in bar 65,535"),
    (Trait::LateTick, "events past tick 2^32"),
    (Trait::EveryNote, "files that strike all 128 notes"),
];

/// A hit as it was struck.
#[derive(Clone, Copy)]
pub struct Struck {
    pub note: u8,
    pub tick: u64,
    pub channel: u8,
    pub velocity: u8,
    /// of its step
    pub last_tick: bool,
}

pub struct Made {
    pub division: u16,
    pub track: Vec<u8>,
    /// each event's delta time, as an offset in the file; the end-of-track event's last
    pub events: Vec<usize>,
    /// the running status before each event
    pub running: Vec<Option<u8>>,
    pub struck: Vec<Struck>,
    pub traits: [u64; TRAITS.len()],
}

impl Made {
    pub fn file(&self) -> Vec<u8> {
        bytes::file(self.division, &self.track)
    }

    /// The hits as they were struck; none if one is beyond bar 65,535.
    pub fn hits(&self) -> Option<BTreeSet<Hit>> {
        let step = u64::from(self.division) / 4;
        let place = |struck: &Struck| {
            let bar = struck.tick / (16 * step);
            let position = (struck.tick - bar * 16 * step) / step;
            (bar <= LAST_BAR).then_some(Hit { note: struck.note, bar: bar as u32, position: position as u32 })
        };
        self.struck.iter().map(place).collect()
    }

    pub fn loud(&self) -> Loud {
        Loud::of(u64::from(self.division) / 4, &self.struck)
    }
}
