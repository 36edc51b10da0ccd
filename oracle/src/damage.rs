//! Damaged segments: fields, entries, numbers and bytes changed, with the checksums made right again or not.

use crate::parts::{signed, Parts};
use crate::random::Random;

pub fn damaged(random: &mut Random, written: &[u8]) -> Vec<u8> {
    let mut parts = Parts::of(written).expect("a written segment comes apart");
    let sign = random.chance(85);
    for _ in 0..random.pick(&[0, 1, 1, 1, 1, 2, 2, 3]) {
        damage(random, &mut parts, sign);
    }
    let mut bytes = parts.bytes();
    if random.chance(15) {
        for _ in 0..random.below(2) + 1 {
            scratch(random, &mut bytes);
        }
        if random.chance(50) {
            bytes = signed(&bytes);
        }
    }
    bytes
}

fn damage(random: &mut Random, parts: &mut Parts, sign: bool) {
    match random.below(20) {
        0..=2 => header(random, parts),
        3..=6 => {
            entry(random, parts);
            if sign {
                parts.sign_lists();
            }
        }
        7 => directory(random, parts),
        8 => names(random, parts),
        9..=12 => {
            let metadata = std::mem::take(&mut parts.metadata);
            parts.metadata = numbers(random, &metadata);
        }
        _ => {
            if !parts.entries.is_empty() {
                let at = random.below(parts.entries.len());
                let list = parts.list(&parts.entries[at]).unwrap_or(&[]).to_vec();
                let list = numbers(random, &list);
                parts.put_list(at, &list);
                if sign {
                    parts.sign_lists();
                }
            }
        }
    }
}

fn header(random: &mut Random, parts: &mut Parts) {
    let near = random.pick(&[1, 2, u32::MAX, u32::MAX - 1]);
    match random.below(8) {
        0 => parts.magic[random.below(8)] ^= 1 << random.below(8),
        1 => parts.version = random.pick(&[0, 1, 3, u32::MAX, 0x0200, 2 << 24]),
        2 => parts.flags = random.pick(&[1, 2, 1 << 31, u32::MAX]),
        3 => parts.documents = if random.chance(70) { parts.documents.wrapping_add(near) } else { random.edge() },
        4 => parts.terms = if random.chance(70) { parts.terms.wrapping_add(near) } else { random.edge() },
        5 | 6 => parts.wrong_lengths[random.below(4)] = length(random),
        _ => parts.wrong_checksums[random.below(4)] = 1 << random.below(32),
    }
}

/// Lengths and offsets: a little more or less, or near the end of 64 bits, where sums overflow.
fn length(random: &mut Random) -> u64 {
    match random.below(4) {
        0 => u64::from(random.small(1, 40)),
        1 => u64::from(random.small(1, 40)).wrapping_neg(),
        2 => u64::MAX - u64::from(random.small(0, 400)),
        _ => random.pick(&[1 << 32, 1 << 63, u64::from(u32::MAX), 32, 32u64.wrapping_neg(), 72u64.wrapping_neg()]),
    }
}

fn entry(random: &mut Random, parts: &mut Parts) {
    if parts.entries.is_empty() {
        return;
    }
    let at = random.below(parts.entries.len());
    let other = parts.entries[random.below(parts.entries.len())].clone();
    let entry = &mut parts.entries[at];
    let near = random.pick(&[0, 1, 2, u32::MAX, u32::MAX - 1]);
    match random.below(14) {
        0 => entry.name_at = entry.name_at.wrapping_add(near),
        1 => entry.name_len = entry.name_len.wrapping_add(near),
        2 => (entry.name_at, entry.name_len) = (random.edge(), random.edge()),
        3 => entry.name_len = 0,
        4 => (entry.name_at, entry.name_len) = (other.name_at, other.name_len),
        5 => entry.list_at = entry.list_at.wrapping_add(length(random)),
        6 => entry.list_len = entry.list_len.wrapping_add(length(random)),
        7 => (entry.list_at, entry.list_len) = (length(random), length(random)),
        8 => (entry.list_at, entry.list_len) = (other.list_at, other.list_len),
        9 => entry.list_len = 0,
        10 => entry.df = 0,
        11 => entry.df = entry.df.wrapping_add(near),
        12 => entry.df = random.edge(),
        _ => entry.checksum ^= 1 << random.below(32),
    }
}

fn directory(random: &mut Random, parts: &mut Parts) {
    let n = parts.entries.len();
    match random.below(6) {
        0 if n > 1 => {
            let at = random.below(n - 1);
            parts.entries.swap(at, at + 1);
        }
        1 if n > 0 => {
            let at = random.below(n);
            parts.entries.insert(at, parts.entries[at].clone());
            parts.terms = parts.terms.wrapping_add(1);
        }
        2 if n > 0 => drop(parts.entries.remove(random.below(n))),
        3 if n > 0 => {
            parts.entries.remove(random.below(n));
            parts.terms = parts.terms.wrapping_sub(1);
        }
        4 => parts.directory_tail = vec![0; random.below(40) + 1],
        _ => parts.entries.reverse(),
    }
}

fn names(random: &mut Random, parts: &mut Parts) {
    let n = parts.names.len();
    match random.below(5) {
        0 if n > 0 => parts.names[random.below(n)] = random.pick(&[0x80, 0xC0, 0xC3, 0xE0, 0xED, 0xF4, 0xF8, 0xFF]),
        1 if n > 0 => parts.names[random.below(n)] = random.next() as u8,
        2 => parts.names.truncate(n.saturating_sub(1)),
        3 => parts.names.insert(0, b'a'),
        _ => parts.names.push(b'~'),
    }
}

pub fn encoded(mut number: u32) -> Vec<u8> {
    let mut bytes = Vec::new();
    while number >= 0x80 {
        bytes.push(number as u8 | 0x80);
        number >>= 7;
    }
    bytes.push(number as u8);
    bytes
}

/// A section of stored numbers with one to three of them changed, added or taken away.
fn numbers(random: &mut Random, section: &[u8]) -> Vec<u8> {
    let mut numbers: Vec<Vec<u8>> = section.split_inclusive(|byte| *byte < 0x80).map(<[u8]>::to_vec).collect();
    for _ in 0..random.pick(&[1, 1, 1, 2, 3]) {
        let at = random.below(numbers.len() + 1);
        let edit = random.below(10);
        if edit == 0 || at == numbers.len() {
            let number = random.edge();
            numbers.insert(at, encoded(number));
            continue;
        }
        let number = &mut numbers[at];
        match edit {
            1 => drop(numbers.remove(at)),
            2 => {
                *number = random
                    .pick(&[&b"\xFF\xFF\xFF\xFF\x10"[..], b"\x80\x80\x80\x80\x80\x00", b"\xFF\xFF\xFF\xFF\x7F", b"\x80"])
                    .to_vec()
            }
            3 => {
                // the same number in a longer form
                *number.last_mut().unwrap() |= 0x80;
                number.extend(vec![0x80; random.below(3)]);
                number.push(0);
            }
            4 => *number = encoded(0),
            5 => *number = encoded(u32::MAX),
            6 | 7 => number[0] = number[0] & 0x80 | (number[0].wrapping_add(random.pick(&[1, 0x7F])) & 0x7F),
            _ => *number = encoded(random.edge()),
        }
    }
    let mut bytes = numbers.concat();
    if random.chance(8) {
        bytes.pop();
    }
    bytes
}

/// Bytes as they come: changed, cut short, extended.
fn scratch(random: &mut Random, bytes: &mut Vec<u8>) {
    match random.below(4) {
        0 => bytes.truncate(random.below(bytes.len() + 1)),
        1 => bytes.extend((0..random.below(5) + 1).map(|i| i as u8)),
        _ if bytes.is_empty() => {}
        _ => {
            let at = random.below(bytes.len());
            bytes[at] = if random.chance(50) { bytes[at] ^ 1 << random.below(8) } else { random.next() as u8 };
        }
    }
}
