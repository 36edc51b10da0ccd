//! A MIDI reader as it is ordinarily written in Rust for speed: one pass over the bytes, a vector of hits for each note, then the lists.
//! It has the same rules as the library's, and answers nothing where a file is refused.
use crate::data::Lists;

fn number(track: &[u8], at: &mut usize) -> Option<u32> {
    let mut value = 0;
    for _ in 0..4 {
        let byte = *track.get(*at)?;
        *at += 1;
        value = value << 7 | (byte & 127) as u32;
        if byte < 128 {
            return Some(value);
        }
    }
    None
}

/// A step and a velocity.
type Hit = (u32, u8);

/// The lists, and the velocities side by side with the positions.
pub fn read(file: &[u8]) -> Option<(Lists, Vec<u8>)> {
    let (head, track) = file.split_at_checked(22)?;
    let division = u16::from_be_bytes([head[12], head[13]]) as u64;
    let length = u32::from_be_bytes([head[18], head[19], head[20], head[21]]) as usize;
    let good = &head[..12] == b"MThd\0\0\0\x06\0\0\0\x01" && &head[14..18] == b"MTrk" && length == track.len();
    if !good || file.len() > 16_777_216 || !(4..=32764).contains(&division) || division % 4 != 0 {
        return None;
    }
    let quarter = division / 4;
    let mut hits: Vec<Vec<Hit>> = vec![Vec::new(); 128];
    let (mut at, mut tick, mut running) = (0, 0u64, 0);
    loop {
        tick += number(track, &mut at)? as u64;
        let mut status = *track.get(at)?;
        if status < 128 {
            status = running;
        } else {
            at += 1;
        }
        match status {
            0x80..=0xBF | 0xE0..=0xEF => {
                let [note, velocity] = *track.get(at..at + 2)? else { return None };
                if (note | velocity) > 127 {
                    return None;
                }
                at += 2;
                running = status;
                if status & 0xF0 == 0x90 && velocity > 0 {
                    let step = tick / quarter;
                    if step >= 65_536 * 16 {
                        return None;
                    }
                    let own = &mut hits[note as usize];
                    match own.last_mut() {
                        Some(last) if last.0 == step as u32 => last.1 = last.1.max(velocity),
                        _ => own.push((step as u32, velocity)),
                    }
                }
            }
            0xC0..=0xDF => {
                if *track.get(at)? > 127 {
                    return None;
                }
                at += 1;
                running = status;
            }
            0xF0 | 0xF7 | 0xFF => {
                if status == 0xFF {
                    let kind = *track.get(at)?;
                    at += 1;
                    if kind == 0x2F {
                        return (track[at..] == [0]).then(|| lists(&hits));
                    }
                    if kind > 127 {
                        return None;
                    }
                }
                at += number(track, &mut at)? as usize;
                running = 0;
            }
            _ => return None,
        }
    }
}

/// The nine lists of the hits of each note, whose steps rise.
fn lists(hits: &[Vec<Hit>]) -> (Lists, Vec<u8>) {
    let bars = hits.iter().filter_map(|own| own.last()).map(|hit| hit.0 / 16 + 1).max().unwrap_or(0);
    let mut lists = Lists { ids: (0..bars).collect(), lengths: vec![16; bars as usize], ..Lists::default() };
    let mut velocities = Vec::new();
    for (note, own) in hits.iter().enumerate().filter(|(_, own)| !own.is_empty()) {
        let before = lists.posting_ids.len();
        for in_bar in own.chunk_by(|a, b| a.0 / 16 == b.0 / 16) {
            lists.posting_ids.push(in_bar[0].0 / 16);
            lists.position_counts.push(in_bar.len() as u32);
            lists.positions.extend(in_bar.iter().map(|hit| hit.0 % 16));
            velocities.extend(in_bar.iter().map(|hit| hit.1));
        }
        lists.text.extend_from_slice(format!("n{note:03}").as_bytes());
        lists.ends.push(lists.text.len() as u32);
        lists.posting_counts.push((lists.posting_ids.len() - before) as u32);
    }
    (lists, velocities)
}
