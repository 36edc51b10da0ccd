//! Writing out: names of every shape, faults of used and unused ones, texts and ends at the limit.

use super::call::Call;
use super::compare::{Pad, Pads};
use super::corners::{expect, grid, refused};
use super::model::{Bar, Map, HITS, LARGEST, SOUNDS};
use super::words::WORDS;
use crate::questions::ends_of;
use crate::reply::Reply;

const ENOUGH: usize = 1 << 20;

/// One bar with a hit of each of these sounds.
fn with(sounds: &[u8]) -> Pad {
    let hits = sounds.iter().map(|sound| (*sound, 1, sound % 127 + 1)).collect();
    Pad::holding(&[(5, Bar { length: 2, hits })].into(), &[0; WORDS])
}

/// 128 names, these among them; the others are empty.
fn named(some: &[(u8, &[u8])]) -> Vec<Vec<u8>> {
    let mut names = vec![Vec::new(); SOUNDS];
    for (sound, name) in some {
        names[usize::from(*sound)] = name.to_vec();
    }
    names
}

fn write(names: &[Vec<u8>], room: usize) -> Call {
    Call::Write { text: names.concat(), ends: ends_of(names), room }
}

/// The refusal with a buffer of no places and of many; an accepted one in every room.
fn expect_names(pads: &mut Pads, pad: &mut Pad, some: &[(u8, &[u8])], expected: Result<u64, (u32, u32)>) {
    let names = named(some);
    match expected {
        Err((kind, which)) => {
            for room in [0, ENOUGH] {
                expect(pads, pad, &write(&names, room), refused(kind, which, 0), &format!("names {some:?}"));
            }
        }
        Ok(bytes) => {
            for room in [0, 1, 71, 72, bytes as usize - 1, bytes as usize, bytes as usize + 1, ENOUGH] {
                let fits = room as u64 >= bytes;
                let expected = if fits { Reply::accepted(bytes, 0) } else { refused(13, 1, bytes) };
                expect(pads, pad, &write(&names, room), expected, &format!("names {some:?}"));
            }
        }
    }
}

/// Names that the writer refuses, in the order of the sounds; those of sounds without hits are nobody's concern.
fn faults(pads: &mut Pads) {
    let three = || with(&[3, 5, 9]);
    // 72, three entries of 32, the names, metadata of 2 bytes, lists of 3
    let bytes = |names: u64| Ok(72 + 96 + names + 2 + 9);
    let all: [(&[(u8, &[u8])], Result<u64, (u32, u32)>); 22] = [
        (&[(3, b"a"), (5, b"b"), (9, b"c")], bytes(3)),
        (&[(3, b"a"), (4, b"\xFF"), (5, b"b"), (6, b"b"), (7, b"a"), (9, b"c"), (10, b"c"), (127, b"\x80")], bytes(3)),
        (&[(3, b"a"), (5, "\u{e9}".as_bytes()), (9, "\u{1f941}".as_bytes())], bytes(7)),
        (&[(3, b"a"), (5, b"aa"), (9, b"ab")], bytes(5)),
        (&[(3, b"a"), (5, b"b"), (9, b"\xC3")], Err((10, 0))),
        (&[(3, b"a"), (5, b"x\xC3"), (6, b"\xA9"), (9, b"z")], Err((10, 0))),
        (&[(3, b"a"), (5, b"b"), (9, b"b")], Err((6, 16))),
        (&[(3, b"a"), (5, b"a"), (9, b"b")], Err((6, 16))),
        (&[(3, b"b"), (4, b"c"), (5, b"a"), (9, b"c")], Err((6, 16))),
        (&[(3, b"a"), (9, b"c")], Err((6, 6))),
        (&[(5, b"b"), (9, b"c")], Err((6, 6))),
        (&[(3, b"a"), (5, b"b")], Err((6, 6))),
        (&[], Err((6, 6))),
        // two faults: the lower sound's comes first
        (&[(3, b"\xFF"), (9, b"c")], Err((10, 0))),
        (&[(5, b"\xFF"), (9, b"c")], Err((6, 6))),
        (&[(3, b"b"), (5, b"a"), (9, b"\xFF")], Err((6, 16))),
        (&[(3, b"\xFF"), (5, b"b"), (9, b"a")], Err((10, 0))),
        (&[(3, b"b"), (5, b"a")], Err((6, 16))),
        (&[(5, b"b"), (9, b"a")], Err((6, 6))),
        // both of one name
        (&[(3, b"b"), (5, b"a\xFF"), (9, b"c")], Err((10, 0))),
        (&[(3, b"\xFF"), (5, b"\xFF"), (9, b"c")], Err((10, 0))),
        (&[(3, b"b"), (5, b"a"), (9, b"a")], Err((6, 16))),
    ];
    for (some, expected) in all {
        expect_names(pads, &mut three(), some, expected);
    }
    // a letter cut in two by an end between two used names
    expect_names(pads, &mut with(&[3, 4]), &[(3, b"x\xC3"), (4, b"\xA9")], Err((10, 0)));
    expect_names(pads, &mut with(&[0]), &[(1, b"a")], Err((6, 6)));
    expect_names(pads, &mut with(&[127]), &[(127, b"a")], Ok(72 + 32 + 1 + 2 + 3));
    expect_names(pads, &mut with(&[0, 127]), &[(0, b"a"), (127, b"b")], Ok(72 + 64 + 2 + 2 + 6));
    let junk: &[(u8, &[u8])] = &[(0, b"\xFF"), (1, b"b"), (2, b"b"), (3, b"a")];
    expect_names(pads, &mut Pad::empty(), junk, Ok(72));
    expect_names(pads, &mut Pad::holding(&[(5, Bar::default())].into(), &[0; WORDS]), junk, Ok(74));
}

/// Every number of ends, ends that fall and ends that do not end with the text, alone and together, on every sort of pad.
fn shapes(pads: &mut Pads) {
    let names = named(&[(3, b"a"), (5, b"b"), (9, b"c")]);
    let (text, ends) = (names.concat(), ends_of(&names));
    let mut broken = with(&[3]).words;
    broken[0] = 2;
    for (mut pad, is_pad) in [(with(&[3, 5, 9]), true), (Pad::empty(), true), (Pad::of(broken), false)] {
        for count in [0, 1, 2, 64, 126, 127, 128, 129, 130, 255, 256] {
            for (falls, last) in [(false, 0), (true, 0), (false, 1), (true, 1), (false, -1), (true, -1)] {
                for room in [0, ENOUGH] {
                    let mut ends = ends.clone();
                    ends.resize(count, text.len() as u32);
                    if falls && count > 1 {
                        ends[count - 2] = 99;
                    }
                    if let Some(end) = ends.last_mut() {
                        *end = end.saturating_add_signed(last);
                    }
                    let ends_fit = ends.windows(2).all(|pair| pair[0] <= pair[1]) && ends.last() == Some(&(text.len() as u32));
                    let told = pads.run(&mut pad, &Call::Write { text: text.clone(), ends, room });
                    let right = match told {
                        Ok(_) => is_pad && count == 128 && ends_fit && room > 0,
                        Err(refused) => match refused.refusal.kind {
                            20 => !is_pad,
                            11 => is_pad && (count != 128 || !ends_fit),
                            kind => kind == 13 && is_pad && count == 128 && ends_fit && room == 0,
                        },
                    };
                    if !right {
                        pads.stray(format!("{count} ends, falling: {falls}, the last moved by {last}: not as expected"));
                    }
                }
            }
        }
        let longer = Call::Write { text: [&text[..], b"x"].concat(), ends: ends.clone(), room: ENOUGH };
        expect(pads, &mut pad, &longer, refused(if is_pad { 11 } else { 20 }, 0, 0), "a byte behind the last end");
        let no_text = Call::Write { text: Vec::new(), ends: Vec::new(), room: ENOUGH };
        expect(pads, &mut pad, &no_text, refused(if is_pad { 11 } else { 20 }, 0, 0), "no ends and no text");
    }
}

/// A text of 16,777,216 bytes, of used and of unused names, and one byte more; as many ends, and one more.
fn limits(pads: &mut Pads) {
    let one = |sound: u8, length: usize| named(&[(3, b"a"), (sound, &vec![b'b'; length])]);
    let mut pad = with(&[3]);
    expect(pads, &mut pad, &write(&one(4, LARGEST - 1), ENOUGH), Reply::accepted(72 + 32 + 1 + 2 + 3, 0), "a long unused name");
    expect(pads, &mut pad, &write(&one(4, LARGEST), ENOUGH), refused(12, 0, 0), "a text too long by an unused name");
    expect(pads, &mut Pad::empty(), &write(&one(4, LARGEST), 0), refused(12, 0, 0), "a text too long, an empty pad");
    let bytes = 72 + 64 + LARGEST as u64 + 2 + 6;
    let mut pad = with(&[3, 5]);
    expect(pads, &mut pad, &write(&one(5, LARGEST - 1), ENOUGH), refused(13, 1, bytes), "a long used name, no room");
    let all = write(&one(5, LARGEST - 1), bytes as usize);
    expect(pads, &mut pad, &all, Reply::accepted(bytes, 0), "a long used name");

    let mut broken = pad.words.clone();
    broken[0] = 2;
    let (short, long) = (vec![b'a'; 3], vec![b'a'; LARGEST + 1]);
    for (count, kind) in [(SOUNDS, 12), (129, 12), (LARGEST, 11), (LARGEST + 1, 12)] {
        for text in [&short, &long] {
            for end in [text.len() as u32, 1] {
                for falls in [false, true] {
                    let mut ends = vec![end; count];
                    ends[0] = if falls { end + 1 } else { end };
                    let call = Call::Write { text: text.clone(), ends, room: if falls { 0 } else { ENOUGH } };
                    let kind = if text.len() > LARGEST { 12 } else { kind };
                    if count > 129 || text.len() > LARGEST {
                        expect(pads, &mut pad, &call, refused(kind, 0, 0), &format!("{count} ends, {} bytes", text.len()));
                    }
                    if falls {
                        expect(pads, &mut Pad::of(broken.clone()), &call, refused(20, 0, 0), "no pad, names too long");
                    }
                }
            }
        }
    }
}

/// Full pads: 8,192 hits of all sounds, in one bar and in 256, and ids at both ends.
fn full(pads: &mut Pads) {
    let one: Map = [(0, Bar { length: 64, hits: grid(HITS, 64) }), (u32::MAX, Bar { length: u32::MAX, hits: Vec::new() })].into();
    let many = (0..256u32).map(|id| {
        (id * 16_843_009, Bar { length: 9, hits: (0..32).map(|i| (((id + 4 * i) % 128) as u8, 8, 1 + i as u8)).collect() })
    });
    let many: Map = many
        .map(|(id, mut bar): (u32, Bar)| {
            bar.hits.sort_unstable();
            (id, bar)
        })
        .collect();
    let names: Vec<Vec<u8>> = (0..SOUNDS).map(|sound| format!("s{sound:03}").into_bytes()).collect();
    for map in [one, many] {
        let mut pad = Pad::holding(&map, &[7; WORDS]);
        let told = pads.run(&mut pad, &write(&names, ENOUGH));
        let Ok(answer) = told else { return pads.stray(format!("a full pad is refused: {told:?}")) };
        for room in [answer.bytes.len(), answer.bytes.len() - 1, answer.bytes.len() + 1] {
            drop(pads.run(&mut pad, &write(&names, room)));
        }
    }
}

pub fn all(pads: &mut Pads) {
    faults(pads);
    shapes(pads);
    full(pads);
    limits(pads);
}
