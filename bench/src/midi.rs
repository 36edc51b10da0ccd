//! Bars from MIDI files, beside the plain reader: the files, by a generator that always gives the same, and their times.
use crate::data::{Lists, Random};
use crate::library;
use crate::measure::{median, rounds};
use crate::plain;
use std::hint::black_box;

/// A track under way.
struct Track {
    bytes: Vec<u8>,
    status: u8,
}

impl Track {
    fn new(division: u16) -> Track {
        let mut bytes = b"MThd\0\0\0\x06\0\0\0\x01".to_vec();
        bytes.extend(division.to_be_bytes());
        bytes.extend(b"MTrk\0\0\0\0");
        Track { bytes, status: 0 }
    }

    fn number(&mut self, value: u32) {
        for group in (1..4).rev().filter(|group| value >> (7 * group) > 0) {
            self.bytes.push((value >> (7 * group)) as u8 | 128);
        }
        self.bytes.push(value as u8 & 127);
    }

    /// A note-on of channel 10, by running status where there is one.
    fn note(&mut self, delta: u32, note: u32, velocity: u32) {
        self.number(delta);
        if self.status != 0x99 {
            self.bytes.push(0x99);
            self.status = 0x99;
        }
        self.bytes.extend([note as u8, velocity as u8]);
    }

    /// A meta or exclusive event, by its first bytes.
    fn skipped(&mut self, delta: u32, first: &[u8], within: &[u8]) {
        self.number(delta);
        self.bytes.extend(first);
        self.number(within.len() as u32);
        self.bytes.extend(within);
        self.status = 0;
    }

    /// With the end of track and its length.
    fn whole(mut self) -> Vec<u8> {
        self.bytes.extend(b"\0\xFF\x2F\0");
        let length = (self.bytes.len() - 22) as u32;
        self.bytes[18..22].copy_from_slice(&length.to_be_bytes());
        self.bytes
    }
}

/// Hits of three bytes each over all 65,536 bars, in turn of two notes; `pairs` of notes take turns, a bar each.
fn dense(bytes: usize, pairs: u32) -> Vec<u8> {
    let hits = (bytes - 27) / 3;
    let mut track = Track::new(4);
    let mut before = 0;
    for hit in 0..hits {
        let step = (hit as u64 * (65_536 * 16) / hits as u64) as u32;
        let note = 2 * (step / 16 % pairs) + hit as u32 % 2;
        track.note(step - before, note, 1 + hit as u32 % 127);
        before = step;
    }
    track.whole()
}

/// As many postings as a file can have: all 128 notes on a step, the next time 17 steps later.
fn postings(bytes: usize) -> Vec<u8> {
    let mut track = Track::new(4);
    for hit in 0..((bytes - 27) / 3) as u32 {
        track.note(if hit % 128 == 0 && hit > 0 { 17 } else { 0 }, hit % 128, 1 + hit % 127);
    }
    track.whole()
}

/// 48 bars of kick, snare and hats at 480 ticks to a quarter, with name, tempo and meter; a stroke is some ticks off, and is released.
fn drummer() -> Vec<u8> {
    let mut random = Random(48);
    let mut track = Track::new(480);
    track.skipped(0, &[0xFF, 0x03], b"Drums");
    track.skipped(0, &[0xFF, 0x51], &[0x07, 0xA1, 0x20]);
    track.skipped(0, &[0xFF, 0x58], &[4, 2, 24, 8]);
    let mut strokes = Vec::new();
    for bar in 0..48 {
        for step in 0..16 {
            let mut stroke = |note, chance| {
                if random.below(100) < chance {
                    let tick = (bar * 16 + step) * 120 + random.below(12);
                    strokes.push((tick, note, 60 + random.below(60)));
                    strokes.push((tick + 60, note, 0));
                }
            };
            stroke(42, if step % 2 == 0 { 95 } else { 15 });
            stroke(36, if step % 8 == 0 { 95 } else { 12 });
            stroke(38, if step % 8 == 4 { 95 } else { 5 });
        }
    }
    strokes.sort();
    let mut before = 0;
    for (tick, note, velocity) in strokes {
        track.note(tick - before, note, velocity);
        before = tick;
    }
    track.whole()
}

/// Texts and exclusive events of up to 63 bytes, and a hit behind each sixteenth.
fn skipped(bytes: usize) -> Vec<u8> {
    let mut random = Random(bytes as u64);
    let mut track = Track::new(480);
    for event in 0.. {
        if track.bytes.len() > bytes - 80 {
            break;
        }
        let within: Vec<u8> = (0..random.below(64)).map(|_| random.below(256) as u8).collect();
        let first: &[u8] = if event % 2 == 0 { &[0xFF, 0x01] } else { &[0xF0] };
        track.skipped(random.below(8), first, &within);
        if event % 16 == 0 {
            track.note(random.below(100), 36 + random.below(8), 100);
        }
    }
    track.whole()
}

/// The files, with `bytes` for the long ones.
pub fn files(bytes: usize) -> Vec<(&'static str, Vec<u8>)> {
    vec![
        ("a drummer's file", drummer()),
        ("hits of 2 notes", dense(bytes, 1)),
        ("hits of all 128 notes", dense(bytes, 64)),
        ("as many postings as can be", postings(bytes)),
        ("mostly skipped events", skipped(bytes)),
    ]
}

/// What is always enough for a file: the lists, and the velocities.
pub fn enough(bytes: usize) -> (Lists, Vec<u8>) {
    let lists = Lists {
        ids: vec![0; 65_536],
        lengths: vec![0; 65_536],
        text: vec![0; 512],
        ends: vec![0; 128],
        posting_counts: vec![0; 128],
        posting_ids: vec![0; bytes / 3],
        position_counts: vec![0; bytes / 3],
        positions: vec![0; bytes / 3],
    };
    (lists, vec![0; bytes / 3])
}

/// Medians for one file, in nanoseconds: the library, the plain reader.
pub struct Midi {
    pub name: &'static str,
    pub bytes: usize,
    pub postings: usize,
    pub positions: usize,
    pub times: [f64; 2],
}

fn time_file(name: &'static str, file: &[u8], count: usize) -> Midi {
    eprintln!("MIDI: {name}");
    let (want, loud) = plain::read(file).expect("a good file");
    let (mut lists, mut velocities) = enough(file.len());
    let reply = library::midi_bars(file, &mut lists, &mut velocities);
    assert_eq!(reply.kind, 0, "{name} is refused: {reply:?}");
    let [bars, sounds, postings, positions] = [reply.first, reply.second, reply.third, reply.fourth].map(|n| n as usize);
    assert!(lists.ids[..bars] == want.ids && lists.lengths[..bars] == want.lengths, "{name}: bars differ");
    assert!(lists.text[..4 * sounds] == want.text && lists.ends[..sounds] == want.ends, "{name}: names differ");
    assert!(lists.posting_counts[..sounds] == want.posting_counts, "{name}: posting counts differ");
    assert!(lists.posting_ids[..postings] == want.posting_ids, "{name}: posting ids differ");
    assert!(lists.position_counts[..postings] == want.position_counts, "{name}: position counts differ");
    assert!(lists.positions[..positions] == want.positions, "{name}: positions differ");
    assert!(velocities[..positions] == loud, "{name}: velocities differ");
    let times = rounds(
        count,
        &mut [
            &mut || {
                black_box(library::midi_bars(black_box(file), &mut lists, &mut velocities));
            },
            &mut || drop(black_box(plain::read(black_box(file)))),
        ],
    );
    let of = |i: usize| median(times[i].iter().copied());
    Midi { name, bytes: file.len(), postings, positions, times: [of(0), of(1)] }
}

/// Every file. The answers are compared first.
pub fn all(bytes: usize, count: usize) -> Vec<Midi> {
    files(bytes).iter().map(|(name, file)| time_file(name, file, count)).collect()
}
