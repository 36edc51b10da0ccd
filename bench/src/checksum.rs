//! The checksum: a segment of one list, opened. Opening reads the list's bytes for their section's checksum, and some hundred more.
use crate::calls::Call;
use crate::data::Lists;
use crate::library::{self, Buffers};
use crate::measure::{median, rounds};
use crate::originals::{fast, table};
use std::hint::black_box;

/// Medians in nanoseconds: open by the library, the Rust and the Rust with a table; the eight steps as they stand over the same bytes.
pub struct Checksum {
    pub bytes: usize,
    pub open: [f64; 3],
    pub steps: f64,
}

/// The library's steps in Rust. The empty instruction keeps the compiler from seeing a checksum, of which it would make a lookup.
fn eight_steps(bytes: &[u8]) -> u32 {
    let mut remainder = u32::MAX;
    for byte in bytes {
        remainder ^= *byte as u32;
        for _ in 0..8 {
            remainder = if remainder & 1 == 1 { remainder >> 1 ^ 0xEDB8_8320 } else { remainder >> 1 };
            unsafe { std::arch::asm!("/* {0:e} */", inout(reg) remainder, options(pure, nomem, nostack)) };
        }
    }
    !remainder
}

/// One document with one sound, on so many steps that are 1 to 127 apart: a byte for each.
pub fn one_list(positions: usize) -> Lists {
    let steps = (0..positions as u32).scan(0, |step, i| {
        *step += 1 + i * 37 % 127;
        Some(*step)
    });
    Lists {
        ids: vec![1],
        lengths: vec![u32::MAX],
        text: b"a".to_vec(),
        ends: vec![1],
        posting_counts: vec![1],
        posting_ids: vec![1],
        position_counts: vec![positions as u32],
        positions: steps.collect(),
    }
}

/// Each number of positions. The checksums are compared first, by what the Rust writes into the header and both open.
pub fn all(sizes: &[usize], count: usize) -> Vec<Checksum> {
    let timed = |positions: &usize| {
        eprintln!("checksum: {positions} positions");
        let bytes = fast::write(&fast::given(&one_list(*positions)));
        let field = |at: usize| u64::from_le_bytes(bytes[at..at + 8].try_into().expect("eight bytes")) as usize;
        let list = &bytes[bytes.len() - field(48)..];
        assert_eq!(eight_steps(list).to_le_bytes(), bytes[68..72]);
        let mut spare = Buffers::new(0, 0);
        assert_eq!(library::ask(&Call::Open, &bytes, &mut spare).kind, 0);
        let times = rounds(
            count,
            &mut [
                &mut || {
                    black_box(library::ask(&Call::Open, black_box(&bytes), &mut spare));
                },
                &mut || drop(black_box(fast::open(black_box(&bytes)))),
                &mut || drop(black_box(table::open(black_box(&bytes)))),
                &mut || {
                    black_box(eight_steps(black_box(list)));
                },
            ],
        );
        let of = |i: usize| median(times[i].iter().copied());
        Checksum { bytes: list.len(), open: [of(0), of(1), of(2)], steps: of(3) }
    };
    sizes.iter().map(timed).collect()
}
