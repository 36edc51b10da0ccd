//! Files that break a rule of wish 2, or may: made files with something changed.

use super::bad_event::{bad_event, too_far};
use super::bytes::{mend_heading, variable_length, END_OF_TRACK};
use super::made::Made;
use super::model::{FIRST_EVENT, HEADING};
use crate::random::Random;

/// Kind and index, where the change tells them: the file as it was made is accepted.
pub type Known = Option<(u32, u64)>;

pub fn spoiled(random: &mut Random, made: &Made) -> (Vec<u8>, Known) {
    let mut file = made.file();
    let mut known = match random.below(24) {
        0 | 1 => header_field(random, &mut file),
        2 => heading_field(random, &mut file),
        3 => cut_file(random, &mut file),
        4..=6 => cut_track(random, made, &mut file),
        7..=12 => put_bad_event(random, made, &mut file),
        13 => after_the_end(random, &mut file),
        14 => end_of_track(random, made, &mut file),
        15 => far_hit(random, made, &mut file),
        16 => another_chunk(random, &mut file),
        17..=22 => changed_bytes(random, &mut file),
        _ => any_track(random, &mut file),
    };
    if random.chance(8) {
        known = changed_bytes(random, &mut file);
    }
    (file, known)
}

fn put(file: &mut [u8], at: usize, bytes: &[u8]) {
    file[at..at + bytes.len()].copy_from_slice(bytes);
}

/// One field of the header, or two, each to a value that no rule allows; behind it anything.
fn header_field(random: &mut Random, file: &mut Vec<u8>) -> Known {
    for _ in 0..random.pick(&[1, 1, 2]) {
        let any = random.next() as u16;
        match random.below(7) {
            0 => file[random.below(4)] = random.pick(b"mtHDRx\x00\xCD"),
            1 => put(file, 4, &random.pick(&[0u32, 5, 7, 8, 0x0600, 0x0600_0000, 0x0100_0006]).to_be_bytes()),
            2 => put(file, 8, &random.pick(&[1u16, 2, 3, 0x0100, 0x8000, any | 1]).to_be_bytes()),
            3 => put(file, 10, &random.pick(&[0u16, 2, 3, 0x0100, 0x0101, 0x8001, any & !1]).to_be_bytes()),
            4 => put(file, 12, &random.pick(&[0u16, 1, 2, 3]).to_be_bytes()),
            5 => put(file, 12, &random.pick(&[5u16, 6, 7, 32_763, 32_765, 32_766, 32_767, any | 1]).to_be_bytes()),
            _ => put(file, 12, &random.pick(&[0x8000, 0x8004, 0xE728, 0xE250, 0xFFFC, 0xFFFF, any | 0x8000]).to_be_bytes()),
        }
    }
    match random.below(10) {
        // a header one byte longer, as its length says
        0 => {
            put(file, 4, &7u32.to_be_bytes());
            file.insert(HEADING, 0);
        }
        1 => file.truncate(HEADING + random.below(file.len() - HEADING)),
        2 => put(file, HEADING, b"MThd"),
        _ => {}
    }
    Some((14, 0))
}

fn heading_field(random: &mut Random, file: &mut Vec<u8>) -> Known {
    let rest = (file.len() - FIRST_EVENT) as u32;
    let any = random.next() as u32;
    let other = random.pick(&[rest + 1, rest - 1, 0, u32::MAX, rest << 8, rest.swap_bytes(), rest + (1 << 24), any]);
    if random.chance(30) || other == rest {
        file[HEADING + random.below(4)] = random.pick(b"mtRKhdx\x00");
    } else {
        put(file, HEADING + 4, &other.to_be_bytes());
    }
    if random.chance(20) {
        file.truncate(HEADING + random.below(8));
    }
    Some((14, HEADING as u64))
}

/// Cut anywhere, the heading as it was: a file over 14 bytes then has a wrong heading.
fn cut_file(random: &mut Random, file: &mut Vec<u8>) -> Known {
    let short = random.pick(&[HEADING, FIRST_EVENT, file.len(), file.len()]);
    file.truncate(random.below(short));
    Some((14, if file.len() < HEADING { 0 } else { HEADING as u64 }))
}

/// Cut in the track, the heading right: an event cut short is refused at its delta time, else the end is missing.
fn cut_track(random: &mut Random, made: &Made, file: &mut Vec<u8>) -> Known {
    let near = (random.pick(&made.events) + random.below(7)).min(file.len() - 1);
    let any = FIRST_EVENT + random.below(file.len() - FIRST_EVENT);
    let cut = random.pick(&[near, near, any]);
    file.truncate(cut);
    mend_heading(file);
    let broken = made.events.iter().rev().find(|event| **event <= cut);
    broken.map(|event| (14, *event as u64))
}

/// A bad event before one of the events, with all that follows or without it.
fn put_bad_event(random: &mut Random, made: &Made, file: &mut Vec<u8>) -> Known {
    let place = random.below(made.events.len());
    let at = made.events[place];
    let tail = if random.chance(70) { file.split_off(at) } else { Vec::new() };
    file.truncate(at);
    let bad = bad_event(random, made.running[place], tail.len());
    file.extend(bad.bytes);
    file.extend(tail);
    mend_heading(file);
    Some((14, (at + bad.at) as u64))
}

fn after_the_end(random: &mut Random, file: &mut Vec<u8>) -> Known {
    let end = file.len();
    let any = random.next() as u8;
    file.extend(random.pick(&[&[0x00][..], &[any], &[0x00, 0xFF, 0x2F, 0x00], &END_OF_TRACK, &[0x80; 9], b"MTrk\0\0\0\0"]));
    mend_heading(file);
    Some((14, end as u64))
}

/// The last event is no end of track: its length is not the byte 00, or another event stands there.
fn end_of_track(random: &mut Random, made: &Made, file: &mut Vec<u8>) -> Known {
    let at = made.events[made.events.len() - 1];
    let any = random.small(1, 255) as u8;
    file.truncate(at);
    file.extend(variable_length(random.below(200) as u64, 1));
    match random.below(8) {
        0 | 1 => {
            file.extend(random.pick(&[
                &[0xFF, 0x2E, 0x00][..],
                &[0xF7, 0x00],
                &[0xB0, 0x2F, 0x00],
                &[0xFF, 0x51, 0x03, 0xFF, 0x2F, 0x00],
            ]));
            mend_heading(file);
            return Some((14, file.len() as u64));
        }
        2 => file.extend([0xFF, 0x2F]),
        _ => {
            file.extend([0xFF, 0x2F]);
            file.extend(random.pick(&[&[0x80, 0x00][..], &[0x80, 0x80, 0x00], &[0x01, 0x00], &[any], &[any, 0x00]]));
            if random.chance(40) {
                file.push(0x00);
                file.extend(END_OF_TRACK);
            }
        }
    }
    mend_heading(file);
    Some((14, at as u64))
}

/// A hit beyond bar 65,535 before one of the events, alone or with a bad event before or behind it.
fn far_hit(random: &mut Random, made: &Made, file: &mut Vec<u8>) -> Known {
    let place = random.below(made.events.len());
    let at = made.events[place];
    let mut tail = file.split_off(at);
    if random.chance(30) {
        tail.clear();
    }
    let hit = too_far(random, made);
    let known = match random.below(4) {
        0 => {
            let bad = bad_event(random, made.running[place], hit.len() + tail.len());
            file.extend(bad.bytes);
            file.extend(hit);
            (14, (at + bad.at) as u64)
        }
        1 => {
            file.extend(hit);
            file.extend(bad_event(random, None, tail.len()).bytes);
            (15, 0)
        }
        _ => {
            file.extend(hit);
            (15, 0)
        }
    };
    file.extend(tail);
    mend_heading(file);
    Some(known)
}

/// A second chunk, or the track twice: the heading's length is not the rest of the file.
fn another_chunk(random: &mut Random, file: &mut Vec<u8>) -> Known {
    let more = match random.below(4) {
        0 => file[HEADING..].to_vec(),
        1 => b"MTrk\0\0\0\x04\0\xFF\x2F\0".to_vec(),
        2 => b"XFIH\0\0\0\0".to_vec(),
        _ => vec![0; random.below(9) + 1],
    };
    file.extend(more);
    Some((14, HEADING as u64))
}

/// Bytes changed, dropped, put in, exchanged or repeated anywhere, the heading's length right again or not.
fn changed_bytes(random: &mut Random, file: &mut Vec<u8>) -> Known {
    for _ in 0..random.pick(&[1, 1, 1, 2, 3]) {
        let first = if random.chance(90) { FIRST_EVENT } else { 0 };
        if file.len() <= first + 1 {
            break;
        }
        let at = first + random.below(file.len() - first);
        let any = random.next() as u8;
        let telling = random.pick(&[0x00, 0x01, 0x2F, 0x7F, 0x80, 0x90, 0xC0, 0xF0, 0xF1, 0xF7, 0xFF, any]);
        match random.below(8) {
            0 => file[at] ^= 1 << random.below(8),
            1 | 2 => file[at] = telling,
            3 => drop(file.remove(at)),
            4 | 5 => file.insert(at, telling),
            6 => {
                let other = first + random.below(file.len() - first);
                file.swap(at, other);
            }
            _ => {
                let piece = file[at..(at + random.below(12) + 1).min(file.len())].to_vec();
                file.splice(at..at, piece);
            }
        }
    }
    if random.chance(90) {
        mend_heading(file);
    }
    None
}

/// A track of any bytes, some of them telling.
fn any_track(random: &mut Random, file: &mut Vec<u8>) -> Known {
    file.truncate(FIRST_EVENT);
    for _ in 0..random.below(30) {
        let any = random.next() as u8;
        file.push(random.pick(&[0x00, 0x00, 0x00, 0x01, 0x2F, 0x40, 0x80, 0x90, 0x90, 0xC0, 0xF0, 0xFF, any, any & 0x7F]));
    }
    if random.chance(60) {
        file.push(0x00);
        file.extend(END_OF_TRACK);
    }
    mend_heading(file);
    None
}
