//! Whole small spaces: all short tracks over telling bytes, all short rows of strokes, worked files one byte away, and every value of the
//! header's fields.

use super::bytes::{self, mend_heading, variable_length, END_OF_TRACK};
use super::compare::Midi;
use super::worked;

/// A delta time, a length or a data byte of 0 or 1; the type of the end; and a status of every sort.
const TELLING: [u8; 10] = [0x00, 0x01, 0x2F, 0x80, 0x90, 0xC0, 0xF0, 0xF1, 0xF7, 0xFF];

/// What stands before: nothing, or an event that leaves a running status, of two data bytes (a hit that telling bytes can strike again,
/// softer or louder) or one, or ends it.
const BEFORE: [&[u8]; 5] = [&[], &[0x00, 0x90, 0x01, 0x02], &[0x00, 0xC0, 0x05], &[0x00, 0xF0, 0x00], &[0x00, 0xFF, 0x01, 0x00]];

fn ask(midi: &mut Midi, file: &[u8]) {
    midi.tally.files += 1;
    drop(midi.ask_full(file));
}

/// Every track of up to so many telling bytes, as it is and with an end of track behind it.
fn tracks(midi: &mut Midi, before: &[u8], longest: u32) {
    for length in 0..=longest {
        for choice in 0..TELLING.len().pow(length) {
            let mut track = before.to_vec();
            track.extend((0..length).map(|i| TELLING[choice / TELLING.len().pow(i) % TELLING.len()]));
            ask(midi, &bytes::file(4, &track));
            track.push(0x00);
            track.extend(END_OF_TRACK);
            ask(midi, &bytes::file(4, &track));
        }
    }
}

/// Every row of up to so many strokes of two notes, on the same tick, the same step or the next, with velocities 0, 1, 2 and 127, on one
/// channel or two by turns: every order of equal hits.
fn strokes(midi: &mut Midi, longest: u32) {
    const KINDS: usize = 24;
    for (length, channels) in (0..=longest).flat_map(|length| [(length, 1), (length, 2)]) {
        for choice in 0..KINDS.pow(length) {
            let mut track = Vec::new();
            for i in 0..length {
                let kind = choice / KINDS.pow(i) % KINDS;
                let (note, delta, velocity) = ([0x26, 0x24][kind % 2], kind / 2 % 3, [0, 1, 2, 127][kind / 6]);
                track.extend([delta as u8, 0x90 + (i % channels) as u8, note, velocity]);
            }
            track.push(0x00);
            track.extend(END_OF_TRACK);
            ask(midi, &bytes::file(8, &track));
        }
    }
}

/// As it is, and with the heading's length the rest of the file.
fn both(midi: &mut Midi, mut file: Vec<u8>) {
    ask(midi, &file);
    mend_heading(&mut file);
    ask(midi, &file);
}

/// Every cut, every byte dropped, and every byte in every place, in place of another and between two.
fn one_byte_away(midi: &mut Midi, file: &[u8]) {
    for at in 0..=file.len() {
        both(midi, file[..at].to_vec());
        for byte in 0..=255 {
            let mut more = file.to_vec();
            more.insert(at, byte);
            both(midi, more);
        }
        if at < file.len() {
            let mut less = file.to_vec();
            less.remove(at);
            both(midi, less);
            for byte in 0..=255 {
                let mut other = file.to_vec();
                other[at] = byte;
                both(midi, other);
            }
        }
    }
}

/// Every format, number of tracks and division; each good division with hits on both sides of a step and of a bar line.
fn fields(midi: &mut Midi) {
    let end = [0x00, 0xFF, 0x2F, 0x00];
    for value in 0..=u16::MAX {
        for at in [8, 10] {
            let mut file = bytes::file(4, &end);
            file[at..at + 2].copy_from_slice(&value.to_be_bytes());
            ask(midi, &file);
        }
        let step = u64::from(value) / 4;
        let (mut track, mut tick) = (Vec::new(), 0);
        for next in [step.saturating_sub(1), step, (16 * step).saturating_sub(1), 16 * step] {
            track.extend(variable_length(next - tick, 1));
            track.extend([0x99, 0x24, 0x40]);
            tick = next;
        }
        track.extend(end);
        ask(midi, &bytes::file(value, &track));
    }
}

pub fn all(midi: &mut Midi, whole: bool) {
    for before in BEFORE {
        let longest = if before.is_empty() { 6 } else { 5 };
        tracks(midi, before, if whole { longest + 1 } else { longest });
    }
    strokes(midi, if whole { 4 } else { 3 });
    for text in worked::texts() {
        let digits = text.lines().next().unwrap_or_default().trim_start_matches("file");
        one_byte_away(midi, &worked::bytes(digits));
    }
    fields(midi);
}
