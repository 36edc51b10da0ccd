//! Bars on paper: the worked sheets, names by characters, refusals under their names, and random bars whose sheets are worked out here.

mod common;

use std::collections::BTreeMap;

use common::{repaired, two_bars, write, Documents, Random, Terms};
use pstp::{
    write_positional_segment, Error, PositionalPosting, PositionalTermPostings,
    RawPositionalSegment,
};

fn sheet(bytes: &[u8], id: u32) -> Result<String, Error> {
    RawPositionalSegment::open(bytes).unwrap().bar_sheet(id)
}

fn sheet_of(documents: &Documents, terms: &Terms<'_>, id: u32) -> Result<String, Error> {
    sheet(&write(documents, terms).unwrap(), id)
}

/// The lines of a sheet without the blanks at their ends; each had 80 characters and a line feed.
fn lines(sheet: &str) -> Vec<&str> {
    assert!(sheet.ends_with('\n'));
    let lines = sheet[..sheet.len() - 1].split('\n');
    lines
        .map(|line| {
            assert_eq!(line.chars().count(), 80);
            line.trim_end()
        })
        .collect()
}

#[test]
fn the_two_bars() {
    let bar_3 = sheet(&two_bars(), 3).unwrap();
    assert_eq!(bar_3.len(), 243);
    assert_eq!(
        lines(&bar_3),
        [
            "         3        16",
            "kick        o...o..........o                                                   3",
            "snare       ........o.....o.                                                   2",
        ]
    );
    let bar_7 = sheet(&two_bars(), 7).unwrap();
    assert_eq!(
        lines(&bar_7),
        [
            "         7        16",
            "kick        ..o.............                                                   1",
            "snare       ...oo...........                                                   2",
        ]
    );
}

#[test]
fn lengths() {
    let documents = [(1, 0), (2, 64), (3, 65), (u32::MAX, 5)];
    let of = |id| sheet_of(&documents, &[("a", &[(2, &[0, 63]), (3, &[64])])], id);
    assert_eq!(lines(&of(1).unwrap()), ["         1         0"]);
    assert_eq!(lines(&of(u32::MAX).unwrap()), ["4294967295         5"]);
    let full = format!("a           o{}o   2", ".".repeat(62));
    let full = ["         2        64", &full];
    assert_eq!(lines(&of(2).unwrap()), full);
    assert_eq!(of(3).unwrap_err(), Error::BarTooLong);
    assert_eq!(of(4).unwrap_err(), Error::UnknownBar);
    assert_eq!(sheet_of(&[], &[], 0).unwrap_err(), Error::UnknownBar);
}

#[test]
fn names() {
    let columns = [
        ("abcdefghijk", "abcdefghijk "),
        ("abcdefghijkl", "abcdefghijkl"),
        ("abcdefghijklm", "abcdefghijkl"),
        ("ταμπούρλοσ", "ταμπούρλοσ  "),
        ("αβγδεζηθικλμν", "αβγδεζηθικλμ"),
        ("𝄐𝄑𝄒𝄓𝄔𝄕𝄖𝄗𝄘𝄙𝄚𝄛𝄜", "𝄐𝄑𝄒𝄓𝄔𝄕𝄖𝄗𝄘𝄙𝄚𝄛"),
        ("a\0b\n\u{7f}\u{80}", "a?b??\u{80}      "),
    ];
    for (name, column) in columns {
        let sheet = sheet_of(&[(3, 4)], &[(name, &[(3, &[1])])], 3).unwrap();
        assert_eq!(lines(&sheet)[1], format!("{column}.o..{:64}", 1));
    }
}

#[test]
fn refusals() {
    // Kick's list stands from 149 on, snare's from 157 on.
    let broken = |at, over: &[u8], id| sheet(&repaired(two_bars(), at, over), id).unwrap_err();
    let varint = Error::InvalidVarint {
        section: "postings",
        index: 0,
    };
    assert_eq!(broken(149, &[0x80; 8], 3), varint);
    assert_eq!(broken(149, &[0x80; 16], 4), Error::UnknownBar);
    // The posting of bar 7 in snare's list, behind bar 3's.
    let past = Error::InvalidLayout("token position exceeds document length");
    assert_eq!(broken(164, &[13], 3), past);
    assert_eq!(broken(148, &[65], 7), Error::BarTooLong);

    let mut bytes = two_bars();
    bytes[132] ^= 1;
    let directory = common::crc32(&bytes[72..136]).to_le_bytes();
    bytes[56..60].copy_from_slice(&directory);
    let wrong = Error::ChecksumMismatch("term postings");
    assert_eq!(sheet(&bytes, 3).unwrap_err(), wrong);
}

#[test]
fn texts() {
    assert_eq!(Error::UnknownBar.to_string(), "no bar has this id");
    assert_eq!(Error::BarTooLong.to_string(), "bar has more than 64 steps");
}

/// Hits by sound, then bar.
type Hits = BTreeMap<String, BTreeMap<u32, Vec<u32>>>;

fn some_name(random: &mut Random) -> String {
    const SIGNS: [char; 8] = ['a', 'z', '\u{1}', '\u{7f}', 'ä', 'π', '鼓', '🥁'];
    let len = 1 + random.below(15);
    (0..len).map(|_| SIGNS[random.below(8) as usize]).collect()
}

fn some_bars(random: &mut Random) -> (Vec<(u32, u32)>, Hits) {
    let (mut documents, mut hits) = (Vec::new(), Hits::new());
    let names: Vec<_> = (0..random.below(8)).map(|_| some_name(random)).collect();
    let mut id = random.below(200);
    for _ in 0..random.below(5) {
        let length = random.below(67);
        documents.push((id, length));
        for name in &names {
            let steps: Vec<u32> = (0..length).filter(|_| random.below(3) == 0).collect();
            if !steps.is_empty() && random.below(3) > 0 {
                hits.entry(name.clone()).or_default().insert(id, steps);
            }
        }
        id += 1 + random.below(3) * random.below(400_000_000);
    }
    (documents, hits)
}

fn written(documents: &[(u32, u32)], hits: &Hits) -> Vec<u8> {
    let terms: Vec<_> = hits
        .iter()
        .map(|(term, bars)| PositionalTermPostings {
            term,
            postings: bars
                .iter()
                .map(|(&doc_id, positions)| PositionalPosting { doc_id, positions })
                .collect(),
        })
        .collect();
    write_positional_segment(documents, &terms).unwrap()
}

/// The sheet from the bars themselves.
fn drawn(id: u32, length: u32, hits: &Hits) -> String {
    let mut sheet = format!("{id:10}{length:10}{:60}\n", "");
    for (name, bars) in hits {
        let Some(own) = bars.get(&id) else { continue };
        let shown = |c| if c < ' ' || c == '\x7f' { '?' } else { c };
        let name: String = name.chars().map(shown).take(12).collect();
        let mark = |step| match step {
            _ if own.contains(&step) => 'o',
            _ if step < length => '.',
            _ => ' ',
        };
        let steps: String = (0..64).map(mark).collect();
        sheet += &format!("{name:12}{steps}{:4}\n", own.len());
    }
    sheet
}

#[test]
fn random_bars() {
    let mut random = Random(0x9E37_79B9_7F4A_7C15);
    let (mut sheets, mut drawn_lines, mut too_long) = (0, 0, 0);
    for _ in 0..2000 {
        let (documents, hits) = some_bars(&mut random);
        let bytes = written(&documents, &hits);
        for &(id, length) in &documents {
            if length > 64 {
                assert_eq!(sheet(&bytes, id).unwrap_err(), Error::BarTooLong);
                too_long += 1;
                continue;
            }
            let want = drawn(id, length, &hits);
            assert_eq!(sheet(&bytes, id).unwrap(), want);
            sheets += 1;
            drawn_lines += want.lines().count() - 1;
        }
    }
    assert!(
        drawn_lines > sheets && too_long > 0,
        "{drawn_lines} lines on {sheets} sheets, {too_long} bars too long"
    );
    println!("{drawn_lines} lines on {sheets} sheets, {too_long} bars too long");
}
