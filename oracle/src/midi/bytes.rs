//! The bytes of a MIDI file: chunks, and variable-length numbers in any form.

use super::model::{FIRST_EVENT, HEADING};

pub const END_OF_TRACK: [u8; 3] = [0xFF, 0x2F, 0x00];
/// The largest number that four bytes hold.
pub const LARGEST_DELTA: u64 = 0x0FFF_FFFF;

/// The shortest form, or a longer one of so many bytes.
pub fn variable_length(number: u64, least: usize) -> Vec<u8> {
    let shortest = (1..4).find(|bytes| number < 1 << (7 * bytes)).unwrap_or(4);
    let bytes = shortest.max(least);
    let mut form: Vec<u8> = (0..bytes).rev().map(|i| 0x80 | (number >> (7 * i)) as u8 & 0x7F).collect();
    form[bytes - 1] &= 0x7F;
    form
}

/// Format 0, one track, whose length is the rest of the file.
pub fn file(division: u16, track: &[u8]) -> Vec<u8> {
    let mut file = b"MThd\0\0\0\x06\0\0\0\x01".to_vec();
    file.extend(division.to_be_bytes());
    file.extend(b"MTrk");
    file.extend((track.len() as u32).to_be_bytes());
    file.extend(track);
    file
}

/// Makes the track's length the rest of the file again, where there is a heading.
pub fn mend_heading(file: &mut [u8]) {
    if file.len() >= FIRST_EVENT {
        let rest = (file.len() - FIRST_EVENT) as u32;
        file[HEADING + 4..FIRST_EVENT].copy_from_slice(&rest.to_be_bytes());
    }
}
