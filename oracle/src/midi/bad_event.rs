//! Events that break a rule of wish 2, each alone.

use super::bytes::{variable_length, LARGEST_DELTA};
use super::made::Made;
use super::model::LAST_BAR;
use crate::random::Random;

/// Good events may stand before the bad one.
pub struct Bad {
    pub bytes: Vec<u8>,
    /// where the bad event's delta time stands in them
    pub at: usize,
}

fn data(random: &mut Random) -> u8 {
    random.small(0, 127) as u8
}

fn high(random: &mut Random) -> u8 {
    let any = random.small(128, 255) as u8;
    random.pick(&[0x80, 0x90, 0xF0, 0xF7, 0xF8, 0xFF, any])
}

fn status(random: &mut Random) -> u8 {
    random.small(0x80, 0xEF) as u8
}

fn has_two(status: u8) -> bool {
    !matches!(status & 0xF0, 0xC0 | 0xD0)
}

/// Meta or exclusive, up to its length.
fn skipped(random: &mut Random) -> Vec<u8> {
    let mut kind = data(random);
    if kind == 0x2F {
        kind = 0x2E;
    }
    random.pick(&[&[0xFF, kind][..], &[0xF0], &[0xF7]]).to_vec()
}

/// A number whose fourth byte is above 127.
fn long_number(random: &mut Random) -> Vec<u8> {
    let any = 0x80 | random.next() as u8;
    let high = random.pick(&[0x80, 0x81, 0xFF, any]);
    let mut number = vec![high; 4];
    number.push(random.pick(&[0x00, 0x01, 0x7F, 0x80]));
    number
}

/// `running` is the running status before it, `behind` the number of bytes that follow it in the file.
pub fn bad_event(random: &mut Random, running: Option<u8>, behind: usize) -> Bad {
    let ticks = random.below(200) as u64;
    let mut bytes = if random.chance(90) { variable_length(ticks, 1) } else { variable_length(ticks, random.below(4) + 1) };
    match random.below(12) {
        0 => {
            bytes = long_number(random);
            bytes.extend([0x90, 0x24, 0x40]);
        }
        1 | 2 => {
            let real_time = random.small(0xF8, 0xFE) as u8;
            bytes.push(random.pick(&[0xF1, 0xF2, 0xF3, 0xF4, 0xF5, 0xF6, real_time]));
            bytes.extend([0x00, 0x24].iter().take(random.below(3)));
        }
        3 | 4 => {
            let status = status(random);
            bytes.extend([status, high(random)]);
            bytes.extend(has_two(status).then(|| data(random)));
        }
        5 | 6 => {
            let status = 0x80 | random.pick(&[0x00, 0x10, 0x20, 0x30, 0x60]) | random.small(0, 15) as u8;
            bytes.extend([status, data(random), high(random)]);
        }
        7 => {
            bytes.extend([0xFF, high(random), 0x00]);
        }
        8 => {
            bytes.extend(skipped(random));
            bytes.extend(long_number(random));
        }
        9 => {
            bytes.extend(skipped(random));
            let length = (behind + 1 + random.below(3)) as u64;
            let longer = random.pick(&[length, length, LARGEST_DELTA]);
            bytes.extend(variable_length(longer, random.below(4) + 1));
        }
        10 => {
            // the running status ends with a meta or exclusive event
            bytes.extend(skipped(random));
            bytes.extend([0x01, 0x24]);
            let at = bytes.len();
            bytes.extend([0x00, data(random), data(random)]);
            return Bad { bytes, at };
        }
        _ => match running {
            Some(status) if has_two(status) => bytes.extend([data(random), high(random)]),
            Some(status) => bytes.extend([status, high(random)]),
            None => bytes.extend([data(random), data(random)]),
        },
    }
    Bad { bytes, at: 0 }
}

/// Events that lead to a hit beyond bar 65,535, at the first tick there or later.
pub fn too_far(random: &mut Random, made: &Made) -> Vec<u8> {
    let step = u64::from(made.division) / 4;
    let mut ticks = (LAST_BAR + 1) * 16 * step + random.pick(&[0, 0, 1, step, 1 << 33]);
    let mut bytes = Vec::new();
    while ticks > LARGEST_DELTA {
        bytes.extend(variable_length(LARGEST_DELTA, 1));
        bytes.extend([0xFF, 0x06, 0x00]);
        ticks -= LARGEST_DELTA;
    }
    bytes.extend(variable_length(ticks, 1));
    bytes.extend([0x90 | random.small(0, 15) as u8, data(random), random.small(1, 127) as u8]);
    bytes
}
