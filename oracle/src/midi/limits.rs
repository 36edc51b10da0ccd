//! The limits: files of 16,777,216 bytes and of one more, bar 65,535 and the next, ticks past 2^32.

use super::bytes::{self, variable_length, LARGEST_DELTA};
use super::compare::Midi;
use super::model::{FIRST_EVENT, LARGEST_FILE, LAST_BAR};

const END: [u8; 4] = [0x00, 0xFF, 0x2F, 0x00];
const LONGEST_TRACK: usize = LARGEST_FILE - FIRST_EVENT;

fn ask(midi: &mut Midi, file: &[u8]) {
    midi.tally.files += 1;
    drop(midi.ask_full(file));
}

/// Events that are no hits, in as few bytes as can be, and then so many ticks left.
fn far(mut ticks: u64) -> (Vec<u8>, u64) {
    let mut track = Vec::new();
    while ticks > LARGEST_DELTA {
        track.extend(variable_length(LARGEST_DELTA, 1));
        track.extend([0xD0, 0x00]);
        ticks -= LARGEST_DELTA;
    }
    (track, ticks)
}

fn hit_at(division: u16, tick: u64, message: &[u8]) -> Vec<u8> {
    let (mut track, rest) = far(tick);
    track.extend(variable_length(rest, 1));
    track.extend(message);
    track.extend(END);
    bytes::file(division, &track)
}

/// The last tick of bar 65,535 and the first one beyond: a hit, no hit, and a broken one.
fn last_bar(midi: &mut Midi) {
    for division in [4, 8, 96, 480, 16_384, 32_760, 32_764] {
        let end = (LAST_BAR + 1) * 4 * u64::from(division);
        for tick in [end - 4 * u64::from(division), end - 1, end, end + 1, end + (1 << 32), 16 * end] {
            for message in [[0x90, 0x24, 0x40], [0x90, 0x24, 0x00], [0x80, 0x24, 0x40], [0x90, 0x24, 0x80], [0x90, 0x80, 0x40]] {
                ask(midi, &hit_at(division, tick, &message));
            }
        }
    }
    // where a tick of 32 bits would begin anew
    for division in [4, 32_764] {
        for tick in [(1 << 31) - 1, 1 << 31, (1 << 32) - 1, 1 << 32, (1 << 32) + 8191, 1 << 33] {
            ask(midi, &hit_at(division, tick, &[0x9F, 0x7F, 0x01]));
        }
    }
}

/// A track of the longest length: pieces one after the other, and a meta event that fills what is left before the end.
fn longest(pieces: impl Fn(usize) -> Vec<u8>, end: &[u8]) -> Vec<u8> {
    let mut track = Vec::with_capacity(LONGEST_TRACK + 1);
    let mut i = 0;
    loop {
        let piece = pieces(i);
        if piece.is_empty() || track.len() + piece.len() + 8 + end.len() > LONGEST_TRACK {
            break;
        }
        track.extend(piece);
        i += 1;
    }
    let filler = LONGEST_TRACK - track.len() - end.len() - 7;
    track.extend([0x00, 0xFF, 0x01]);
    track.extend(variable_length(filler as u64, 4));
    track.resize(LONGEST_TRACK - end.len(), 0xFF);
    track.extend(end);
    bytes::file(4, &track)
}

/// Eight hits a tick by running status: 5.6 million, all different, of every velocity, within the bars that are allowed.
fn dense(i: usize) -> Vec<u8> {
    match i {
        0 => vec![0x00, 0x99, 0x00, 0x01],
        _ => vec![if i % 8 == 0 { 0x01 } else { 0x00 }, (i % 128) as u8, 1 + (i * 11 % 127) as u8],
    }
}

fn largest_file(midi: &mut Midi) {
    let files = [
        longest(dense, &END),
        longest(|_| Vec::new(), &END),
        // one hit over and over: every velocity in turn, and the loudest first or last
        longest(|i| vec![0x00, 0x90, 0x24, 1 + (i % 126) as u8], &END),
        longest(|i| vec![0x00, 0x90, 0x24, if i == 0 { 127 } else { 126 }], &END),
        longest(|_| vec![0x00, 0x90, 0x24, 1], &[0x00, 0x90, 0x24, 2, 0x00, 0xFF, 0x2F, 0x00]),
        longest(|_| vec![0xFF, 0xFF, 0xFF, 0x7F, 0xA0, 0x24, 0x40], &END),
        longest(|_| vec![0x00, 0xC0, 0x24], &[]),
        longest(|_| vec![0x00, 0xC0, 0x24], &[0x00, 0xFF, 0x2F]),
        vec![0; LARGEST_FILE],
    ];
    for mut file in files {
        ask(midi, &file);
        // one byte more, and the heading right or not: too large whatever it holds
        file.push(0);
        ask(midi, &file);
        bytes::mend_heading(&mut file);
        ask(midi, &file);
    }
}

pub fn all(midi: &mut Midi) {
    last_bar(midi);
    largest_file(midi);
}
