//! Files that keep to wish 2's rules, with every sort of event; the maker notes down the notes that it strikes.

use super::bytes::{variable_length, END_OF_TRACK, LARGEST_DELTA};
use super::made::{Made, Struck, Trait, TRAITS};
use super::model::{FIRST_EVENT, LAST_BAR};
use crate::random::Random;

/// How the notes of one file are chosen.
#[derive(Clone, Copy)]
enum Notes {
    Few([u8; 3]),
    Edges,
    Any,
    /// one after the other
    Rising,
}

struct Maker<'a> {
    random: &'a mut Random,
    /// ticks to a step
    step: u64,
    tick: u64,
    running: Option<u8>,
    channels: [u8; 2],
    notes: Notes,
    long_forms: usize,
    made: Made,
}

pub fn made(random: &mut Random) -> Made {
    let division = division(random);
    let notes = match random.below(20) {
        0 => Notes::Rising,
        1..=3 => Notes::Any,
        4..=6 => Notes::Edges,
        _ => Notes::Few([random.small(0, 127) as u8, 36, 38]),
    };
    let count = match (notes, random.below(400)) {
        (Notes::Rising, _) => random.pick(&[60, 160, 180, 200]),
        (_, 0..=11) => 0,
        (_, 12..=229) => random.below(8) + 1,
        (_, 230..=389) => random.below(40) + 1,
        (_, 390..=398) => random.below(300) + 100,
        _ => 3000,
    };
    let channels = [random.small(0, 15) as u8, random.small(0, 15) as u8];
    let long_forms = random.pick(&[0, 0, 5, 30]);
    let made = Made {
        division,
        track: Vec::new(),
        events: Vec::new(),
        running: Vec::new(),
        struck: Vec::new(),
        traits: [0; TRAITS.len()],
    };
    let step = u64::from(division) / 4;
    let mut maker = Maker { random, step, tick: 0, running: None, channels, notes, long_forms, made };
    let leap = if maker.random.chance(2) { maker.random.below(count + 1) } else { count + 1 };
    for i in 0..count {
        if i == leap {
            maker.leap();
        }
        maker.any_event();
    }
    maker.finish()
}

fn division(random: &mut Random) -> u16 {
    match random.below(10) {
        0..=3 => 4,
        4..=6 => random.pick(&[8, 24, 96, 120, 384, 480, 960]),
        7 => random.pick(&[32_764, 32_760, 16_384, 256, 252]),
        _ => 4 * random.small(1, 8191) as u16,
    }
}

impl Maker<'_> {
    fn count(&mut self, what: Trait) {
        self.made.traits[what as usize] += 1;
    }

    fn number(&mut self, number: u64) {
        let least = if self.random.chance(self.long_forms) { self.random.below(4) + 1 } else { 1 };
        let form = variable_length(number, least);
        if form.len() > variable_length(number, 1).len() {
            self.count(Trait::LongForm);
        }
        self.made.track.extend(form);
    }

    /// Begins an event so many ticks on.
    fn after(&mut self, delta: u64) {
        self.made.events.push(FIRST_EVENT + self.made.track.len());
        self.made.running.push(self.running);
        self.number(delta);
        self.tick += delta;
        if self.tick > u64::from(u32::MAX) {
            self.count(Trait::LateTick);
        }
    }

    fn delta(&mut self) -> u64 {
        let bar = 16 * self.step;
        let to_line = |of: u64, tick: u64| of - tick % of;
        match self.random.below(40) {
            0..=15 => 0,
            16..=22 => self.random.below(2 * self.step as usize + 2) as u64,
            23..=28 => to_line(self.step, self.tick),
            29 | 30 => to_line(self.step, self.tick) - 1,
            31..=33 => to_line(bar, self.tick),
            34..=36 => to_line(bar, self.tick) - 1,
            37 | 38 => self.random.below(2 * bar as usize) as u64,
            _ => self.random.pick(&[1, 127, 128, 16_383, 16_384]).min(3 * bar),
        }
    }

    /// A note-on sounds in the same step again, other notes between or not, or any event of any kind follows.
    fn any_event(&mut self) {
        if self.random.chance(25) && !matches!(self.notes, Notes::Rising) {
            let back = self.random.pick(&[1, 1, 2, 3]).min(self.made.struck.len());
            if let Some(struck) = self.made.struck.iter().nth_back(back.max(1) - 1).copied() {
                if struck.tick / self.step == self.tick / self.step {
                    let rest = self.step - 1 - self.tick % self.step;
                    let any = self.random.below(rest as usize + 1) as u64;
                    let delta = self.random.pick(&[0, any, any, rest]);
                    self.count(Trait::EqualHit);
                    return self.strike(struck.note, delta);
                }
            }
        }
        let delta = self.delta();
        let kind = if matches!(self.notes, Notes::Rising) { self.random.below(60) } else { self.random.below(100) };
        match kind {
            0..=54 => {
                let note = self.note();
                self.strike(note, delta);
            }
            55..=62 => self.message(delta, 0x90, Trait::VelocityZero),
            63..=70 => self.message(delta, 0x80, Trait::NoteOff),
            71..=76 => {
                let kind = self.random.pick(&[0xA0, 0xB0, 0xE0]);
                self.message(delta, kind, Trait::OtherMessage);
            }
            77..=82 => {
                let kind = self.random.pick(&[0xC0, 0xD0]);
                self.message(delta, kind, Trait::OneDataByte);
            }
            83..=91 => self.meta(delta),
            92..=95 => self.exclusive(delta, 0xF0, Trait::ExclusiveF0),
            _ => self.exclusive(delta, 0xF7, Trait::ExclusiveF7),
        }
    }

    fn note(&mut self) -> u8 {
        match self.notes {
            Notes::Few(few) => self.random.pick(&few),
            Notes::Edges => self.random.pick(&[0, 1, 9, 10, 11, 99, 100, 101, 126, 127]),
            Notes::Any => self.random.small(0, 127) as u8,
            Notes::Rising => self.made.struck.len() as u8 % 128,
        }
    }

    fn strike(&mut self, note: u8, delta: u64) {
        self.after(delta);
        let bar = 16 * self.step;
        let any = self.random.small(1, 127) as u8;
        let velocity = self.random.pick(&[1, 2, 64, 126, 127, any, any, any, any]);
        let channel = self.put_message(0x90, &[note, velocity]) & 0x0F;
        let last_tick = self.tick % self.step == self.step - 1;
        self.made.struck.push(Struck { note, tick: self.tick, channel, velocity, last_tick });
        self.count(Trait::Hit);
        for (what, holds) in [
            (Trait::OnBarLine, self.tick % bar == 0),
            (Trait::BeforeBarLine, self.tick % bar == bar - 1),
            (Trait::LastBar, self.tick / bar == LAST_BAR),
        ] {
            if holds {
                self.count(what);
            }
        }
    }

    fn message(&mut self, delta: u64, kind: u8, what: Trait) {
        self.after(delta);
        let (one, other) = (self.note(), self.random.small(0, 127) as u8);
        match what {
            Trait::VelocityZero => self.put_message(kind, &[one, 0]),
            Trait::OneDataByte => self.put_message(kind, &[one]),
            _ => self.put_message(kind, &[one, other]),
        };
        self.count(what);
    }

    /// The status is left out, sometimes, where it is the running one; gives it.
    fn put_message(&mut self, kind: u8, data: &[u8]) -> u8 {
        let again = self.running.filter(|status| status & 0xF0 == kind && self.random.chance(80));
        let status = again.unwrap_or(kind | self.random.pick(&self.channels));
        if self.running == Some(status) && self.random.chance(85) {
            self.count(Trait::RunningStatus);
        } else {
            self.made.track.push(status);
        }
        self.made.track.extend(data);
        self.running = Some(status);
        status
    }

    fn meta(&mut self, delta: u64) {
        self.after(delta);
        let any = self.random.small(0, 127) as u8;
        let kind = self.random.pick(&[0x00, 0x01, 0x06, 0x20, 0x2E, 0x30, 0x51, 0x58, 0x7F, any]);
        self.made.track.extend([0xFF, if kind == 0x2F { 0x51 } else { kind }]);
        self.skipped();
        self.count(Trait::Meta);
    }

    fn exclusive(&mut self, delta: u64, status: u8, what: Trait) {
        self.after(delta);
        self.made.track.push(status);
        self.skipped();
        self.count(what);
    }

    /// A length and that many bytes, which look like events as often as not.
    fn skipped(&mut self) {
        let length = match self.random.below(60) {
            0 if self.random.chance(2) => 16_384,
            0 => self.random.pick(&[126, 127, 128, 129, 300]),
            1..=12 => 0,
            _ => self.random.below(7) + 1,
        };
        self.number(length as u64);
        for _ in 0..length {
            let any = self.random.next() as u8;
            self.made.track.push(self.random.pick(&[0x00, 0x2F, 0x24, 0x40, 0x80, 0x90, 0xF0, 0xF7, 0xFF, any]));
        }
        if length >= 4 && self.random.chance(30) {
            let at = self.made.track.len() - 4;
            self.made.track[at..].copy_from_slice(&[0x00, 0xFF, 0x2F, 0x00]);
        }
        self.running = None;
    }

    /// Events that are no hits lead to the last bar that a hit may have, or just beyond it, or far beyond.
    fn leap(&mut self) {
        let end = (LAST_BAR + 1) * 16 * self.step;
        let some = self.random.below(40 * self.step as usize) as u64;
        let target = match self.random.below(8) {
            0 | 1 => end - 1,
            2 => end - 16 * self.step,
            3 => end - 1 - some,
            4 => end,
            5 => end + some,
            6 => end.saturating_sub(some * 1000).max(self.tick),
            _ => end + (1 << 34),
        };
        let jump = target.saturating_sub(self.tick);
        for _ in 0..jump / LARGEST_DELTA {
            self.message(LARGEST_DELTA, 0x80, Trait::NoteOff);
        }
        let rest = jump % LARGEST_DELTA;
        if self.random.chance(70) {
            let note = self.note();
            self.strike(note, rest);
        } else {
            self.meta(rest);
        }
    }

    fn finish(mut self) -> Made {
        let delta = if self.random.chance(70) { 0 } else { self.delta() };
        self.after(delta);
        self.made.track.extend(END_OF_TRACK);
        let mut notes: Vec<u8> = self.made.struck.iter().map(|struck| struck.note).collect();
        notes.sort();
        notes.dedup();
        if notes.len() == 128 {
            self.count(Trait::EveryNote);
        }
        self.made
    }
}
