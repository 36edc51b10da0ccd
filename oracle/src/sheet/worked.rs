//! Sheets worked out by hand from document 02, each line with a | behind its 80 characters.

use super::compare::Sheets;
use super::model::{found, in_room, reply, Paper};
use super::written;
use crate::bars::{bars, term};
use crate::compare::opened;
use crate::given::Given;
use crate::parts::Parts;
use crate::reply::{Refusal, Reply};

/// The lines of a sheet, or the numbers of a refusal.
type Expected<'a> = Result<&'a [&'a str], (u32, u32, u64)>;

const BAR_3: &[&str] = &[
    "         3        16                                                            |",
    "kick        o...o..........o                                                   3|",
    "snare       ........o.....o.                                                   2|",
];
const BAR_7: &[&str] = &[
    "         7        16                                                            |",
    "kick        ..o.............                                                   1|",
    "snare       ...oo...........                                                   2|",
];
const GREEK: &[&str] = &[
    "         1         4                                                            |",
    "αβγδεζηθικλμo...                                                               1|",
    "ταμπούρλοσ  .o.o                                                               2|",
];
const FULL: &[&str] = &[
    "4294967295        64                                                            |",
    "a           oooooooooooooooooooooooooooooooooooooooooooooooooooooooooooooooo  64|",
    "bbbbbbbbbbbb...............................................................o   1|",
    "cccccccccccco...............................................................   1|",
];
const EMPTY: &[&str] = &["         0         0                                                            |"];
/// Controls are a question mark, U+0080 and U+00A0 stand as they are, a combining mark takes a place of its own.
const SIGNS: &[&str] = &[
    "        12         2                                                            |",
    "??? ~?      oo                                                                 2|",
    "e\u{301}e\u{301}e\u{301}e\u{301}e\u{301}e\u{301}o.                                                                 1|",
    "\u{80}\u{9f}\u{a0}         .o                                                                 1|",
    "🥁🥁🥁🥁🥁🥁🥁🥁🥁🥁🥁🥁o.                                                                 1|",
];

fn greek() -> Given {
    Given {
        documents: vec![(1, 4)], terms: vec![term("αβγδεζηθικλμνξοπρσ", &[(1, &[0])]), term("ταμπούρλοσ", &[(1, &[1, 3])])]
    }
}

fn full() -> Given {
    let every: Vec<u32> = (0..64).collect();
    let last = u32::MAX;
    Given {
        documents: vec![(0, 0), (5, 65), (last, 64)],
        terms: vec![
            term("a", &[(5, &[64]), (last, &every)]),
            term("bbbbbbbbbbbb", &[(last, &[63])]),
            term("ccccccccccccc", &[(5, &[0, 63, 64]), (last, &[0])]),
            term("d", &[(5, &[1])]),
        ],
    }
}

fn signs() -> Given {
    let drums = "🥁".repeat(13);
    Given {
        documents: vec![(12, 2)],
        terms: vec![
            term("\u{0}\n\u{1f} ~\u{7f}", &[(12, &[0, 1])]),
            term(&"e\u{301}".repeat(7), &[(12, &[0])]),
            term("\u{80}\u{9f}\u{a0}", &[(12, &[1])]),
            term(&drums, &[(12, &[0])]),
        ],
    }
}

fn expect(sheets: &mut Sheets, segment: &[u8], id: u32, room: Option<usize>, expected: Expected) {
    let opened = opened(segment);
    let paper = Paper::new(&opened);
    let found = found(&paper, id);
    let text = expected.map(|lines| lines.iter().map(|line| line.replace('|', "\n")).collect::<String>());
    let room = match (room, &text) {
        (Some(room), _) => room,
        (None, Ok(text)) => text.len(),
        (None, Err(_)) => 100,
    };
    let told = in_room(&found, room);
    let digits = match &text {
        Ok(text) => Reply::accepted(text.len() as u64, 0),
        Err((kind, which, index)) => Refusal::new(*kind, *which, *index).into(),
    };
    if reply(told) != digits || told.ok().map(|sheet| &sheet.text) != text.as_ref().ok() {
        sheets.stray(format!("worked sheet of bar {id}, {room} places: the model says {told:?}"));
    }
    sheets.run(&paper, id, &found, room);
    drop(sheets.every_room(&paper, id));
}

pub fn all(sheets: &mut Sheets) {
    let two = written(&bars());
    expect(sheets, &two, 3, Some(243), Ok(BAR_3));
    expect(sheets, &two, 7, Some(250), Ok(BAR_7));
    expect(sheets, &two, 3, Some(242), Err((13, 1, 243)));
    for id in [0, 2, 4, 6, 8, u32::MAX] {
        expect(sheets, &two, id, None, Err((16, 0, 0)));
    }
    expect(sheets, &two[..71], 3, None, Err((1, 1, 0)));

    // kick's list cannot be decoded: bar 4 is still unknown
    let mut parts = Parts::of(&two).unwrap_or(Parts::empty());
    parts.entries[0].df = 3;
    let broken = parts.bytes();
    expect(sheets, &broken, 4, None, Err((16, 0, 0)));
    expect(sheets, &broken, 3, None, Err((7, 5, 2)));
    expect(sheets, &broken, 3, Some(0), Err((7, 5, 2)));

    expect(sheets, &written(&greek()), 1, None, Ok(GREEK));
    let full = written(&full());
    expect(sheets, &full, u32::MAX, None, Ok(FULL));
    expect(sheets, &full, u32::MAX, Some(0), Err((13, 1, 4 * 81)));
    expect(sheets, &full, 0, Some(81), Ok(EMPTY));
    expect(sheets, &full, 0, Some(80), Err((13, 1, 81)));
    expect(sheets, &full, 5, None, Err((17, 0, 0)));
    expect(sheets, &full, 5, Some(0), Err((17, 0, 0)));
    // before the long bar, and behind it
    expect(sheets, &full, 4, None, Err((16, 0, 0)));
    expect(sheets, &full, 6, None, Err((16, 0, 0)));
    expect(sheets, &written(&signs()), 12, None, Ok(SIGNS));
}
