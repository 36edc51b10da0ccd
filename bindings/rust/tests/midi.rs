//! Bars from MIDI files: the worked files, refusals under their names, and random files whose hits are known.

mod common;

use std::collections::{BTreeMap, BTreeSet};

use common::Random;
use pstp::{
    midi_bars, write_positional_segment, Error, MidiBars, PositionalPosting, RawPositionalSegment,
};

/// A file of format 0 with one track.
fn file(division: u16, events: &[u8]) -> Vec<u8> {
    let mut file = b"MThd\0\0\0\x06\0\0\0\x01".to_vec();
    file.extend(division.to_be_bytes());
    file.extend(b"MTrk");
    file.extend((events.len() as u32).to_be_bytes());
    file.extend(events);
    file
}

/// Sounds as names with bars and steps.
type Sounds = Vec<(String, Vec<(u32, Vec<u32>)>)>;

fn sounds(bars: &MidiBars) -> Sounds {
    let posting = |p: PositionalPosting| (p.doc_id, p.positions.to_vec());
    let terms = bars.terms().into_iter();
    terms
        .map(|term| {
            let postings = term.postings.into_iter().map(posting).collect();
            (term.term.to_owned(), postings)
        })
        .collect()
}

/// Hits by note and step, each with the velocity of the loudest.
type Hits = BTreeMap<(u8, u64), u8>;

/// The same of hits.
fn sounds_of(hits: &Hits) -> Sounds {
    let mut sounds: Sounds = Vec::new();
    for &(note, step) in hits.keys() {
        let (name, bar) = (format!("n{note:03}"), step as u32 / 16);
        if sounds.last().is_none_or(|(last, _)| *last != name) {
            sounds.push((name, Vec::new()));
        }
        let (_, postings) = sounds.last_mut().unwrap();
        if postings.last().is_none_or(|(last, _)| *last != bar) {
            postings.push((bar, Vec::new()));
        }
        postings.last_mut().unwrap().1.push(step as u32 % 16);
    }
    sounds
}

const GROOVE: &[u8] = b"\0\xFF\x51\x03\x07\xA1\x20\0\x99\x24\x64\x30\x2A\x50\0\x24\0\x30\x26\x6E\x81\x70\x24\x5A\x2F\x26\x28\x01\x24\x7F\
    \0\xFF\x2F\0";

#[test]
fn a_groove() {
    let bars = midi_bars(&file(96, GROOVE)).unwrap();
    assert_eq!(bars.document_lengths(), [(0, 16), (1, 16)]);
    let want = [
        ("n036".into(), vec![(0, vec![0, 14]), (1, vec![0])]),
        ("n038".into(), vec![(0, vec![4, 15])]),
        ("n042".into(), vec![(0, vec![2])]),
    ];
    assert_eq!(sounds(&bars), want);
    assert_eq!(bars.velocities(), [100, 90, 127, 110, 40, 80]);
    let bytes = write_positional_segment(&bars.document_lengths(), &bars.terms()).unwrap();
    let segment = RawPositionalSegment::open(&bytes).unwrap();
    let phrase = |names: &[&str]| segment.phrase_match_strs(names).unwrap();
    assert_eq!(phrase(&["n036", "n038"]), [0]);
    assert_eq!(phrase(&["n038", "n036"]), []);
    assert_eq!(phrase(&["n036"]), [0, 1]);
}

#[test]
fn the_loudest_of_equal_hits() {
    let events = b"\0\xF0\x03\x7E\x09\xF7\0\x90\x26\x14\0\x99\x26\x50\0\x26\x32\0\x24\x40\x23\x26\x01\0\xFF\x2F\0";
    let bars = midi_bars(&file(4, events)).unwrap();
    let want = [
        ("n036".into(), vec![(0, vec![0])]),
        ("n038".into(), vec![(0, vec![0]), (2, vec![3])]),
    ];
    assert_eq!(sounds(&bars), want);
    assert_eq!(bars.velocities(), [64, 80, 1]);
    // What is written does not tell how loud it was.
    let softer = b"\0\x90\x24\x01\0\x26\x01\x23\x26\x7F\0\xFF\x2F\0";
    let softer = midi_bars(&file(4, softer)).unwrap();
    assert_eq!(softer.velocities(), [1, 1, 127]);
    let written =
        |bars: &MidiBars| write_positional_segment(&bars.document_lengths(), &bars.terms());
    assert_eq!(written(&softer), written(&bars));
    assert_ne!(softer, bars);
}

#[test]
fn no_hits() {
    let bars = midi_bars(&file(32764, b"\0\xFF\x2F\0")).unwrap();
    assert_eq!(bars.document_lengths(), []);
    assert_eq!(bars.terms(), []);
    assert_eq!(bars.velocities(), []);
}

#[test]
fn the_last_bar() {
    let bars = midi_bars(&file(4, b"\xBF\xFF\x7F\x90\x24\x40\0\xFF\x2F\0")).unwrap();
    assert_eq!(bars.document_lengths().len(), 65_536);
    assert_eq!(sounds(&bars), [("n036".into(), vec![(65_535, vec![15])])]);
    assert_eq!(bars.velocities(), [0x40]);
    let further = file(4, b"\xC0\x80\0\x90\x24\x40\0\xFF\x2F\0");
    assert_eq!(midi_bars(&further).unwrap_err(), Error::BarTooFar);
}

#[test]
fn refusals() {
    let good = file(96, GROOVE);
    let cut = |len| midi_bars(&good[..len]).unwrap_err();
    assert_eq!(cut(0), Error::MidiFile(0));
    assert_eq!(cut(13), Error::MidiFile(0));
    assert_eq!(cut(14), Error::MidiFile(14));
    assert_eq!(cut(55), Error::MidiFile(14));
    assert_eq!(
        midi_bars(&file(97, GROOVE)).unwrap_err(),
        Error::MidiFile(0)
    );
    let broken = |events: &[u8]| midi_bars(&file(4, events)).unwrap_err();
    assert_eq!(broken(b""), Error::MidiFile(22));
    assert_eq!(broken(b"\0\x90\x24\x40\0\x90\x24"), Error::MidiFile(26));
    assert_eq!(broken(b"\0\xFF\x2F\0\0"), Error::MidiFile(26));
    let mut long = vec![0; 16_777_217];
    assert_eq!(midi_bars(&long).unwrap_err(), Error::TooLarge);
    long.pop();
    assert_eq!(midi_bars(&long).unwrap_err(), Error::MidiFile(0));
}

#[test]
fn texts() {
    let texts = [
        (Error::MidiFile(0), "invalid MIDI file: header"),
        (Error::MidiFile(14), "invalid MIDI file: track heading"),
        (Error::MidiFile(31), "invalid MIDI file: event at offset 31"),
        (Error::BarTooFar, "MIDI file has a hit beyond bar 65535"),
    ];
    for (error, text) in texts {
        assert_eq!(error.to_string(), text);
    }
}

/// A number of at most four bytes, at times in a longer form than it needs.
fn number(random: &mut Random, value: u32) -> Vec<u8> {
    let needed = (1..4).find(|&n| value < 1 << (7 * n)).unwrap_or(4);
    let bytes = needed + random.below(5 - needed) * u32::from(random.below(4) == 0);
    let group = |i| (value >> (7 * i) & 127) as u8;
    (0..bytes)
        .rev()
        .map(|i| group(i) | if i > 0 { 128 } else { 0 })
        .collect()
}

/// A file by its events, and its hits.
fn some_file(random: &mut Random) -> (Vec<u8>, Hits) {
    let division = [4, 8, 96, 480, 32764][random.below(5) as usize];
    let quarter = u64::from(division) / 4;
    let notes = 1 + random.below(3);
    let (mut events, mut hits) = (Vec::new(), Hits::new());
    let (mut tick, mut running) = (0, None);
    for _ in 0..random.below(90) {
        let delta = random.below(quarter as u32 * 2) * random.below(3);
        tick += u64::from(delta);
        events.extend(number(random, delta));
        let sort = random.below(12);
        if sort == 11 {
            let skipped = [&[0xF0][..], &[0xF7], &[0xFF, 0x01]];
            events.extend(skipped[random.below(3) as usize]);
            let len = random.below(9);
            events.extend(number(random, len));
            events.extend(random.bytes(len, 256));
            running = None;
            continue;
        }
        let kind = if sort < 7 { 9 } else { 8 + random.below(7) };
        let status = (kind << 4 | random.below(3)) as u8;
        if running != Some(status) || random.below(3) == 0 {
            events.push(status);
            running = Some(status);
        }
        if kind == 0xC || kind == 0xD {
            events.extend(random.bytes(1, 128));
            continue;
        }
        let note = 36 + random.below(notes) as u8;
        let velocity = (random.below(128) * random.below(4).min(1)) as u8;
        events.extend([note, velocity]);
        if kind == 9 && velocity > 0 {
            let loudest = hits.entry((note, tick / quarter)).or_insert(0);
            *loudest = velocity.max(*loudest);
        }
    }
    events.extend(b"\0\xFF\x2F\0");
    (file(division, &events), hits)
}

/// The bars in which the file's own notes are on consecutive steps, none beyond a bar line.
fn phrase(hits: &Hits, notes: &[u8]) -> Vec<u32> {
    let starts = hits.keys().filter(|&&(note, _)| note == notes[0]);
    let all = |&&(_, first): &&(u8, u64)| {
        let mut steps = notes.iter().zip(first..);
        steps.all(|(&note, step)| hits.contains_key(&(note, step)) && step / 16 == first / 16)
    };
    let bars: BTreeSet<_> = starts.filter(all).map(|(_, first)| first / 16).collect();
    bars.into_iter().map(|bar| bar as u32).collect()
}

#[test]
fn random_files() {
    let mut random = Random(0x9E37_79B9_7F4A_7C15);
    let (mut found, mut asked) = (0, 0);
    for _ in 0..3000 {
        let (file, hits) = some_file(&mut random);
        let bars = midi_bars(&file).unwrap();
        let count = hits.keys().map(|&(_, step)| step as u32 / 16 + 1).max();
        let documents: Vec<_> = (0..count.unwrap_or(0)).map(|bar| (bar, 16)).collect();
        assert_eq!(bars.document_lengths(), documents);

        assert_eq!(sounds(&bars), sounds_of(&hits));
        assert!(hits.values().eq(bars.velocities()));

        let bytes = write_positional_segment(&documents, &bars.terms()).unwrap();
        let segment = RawPositionalSegment::open(&bytes).unwrap();
        for _ in 0..6 {
            let len = 1 + random.below(3);
            let notes: Vec<u8> = random.bytes(len, 3).iter().map(|n| 36 + n).collect();
            let names: Vec<_> = notes.iter().map(|note| format!("n{note:03}")).collect();
            let names: Vec<_> = names.iter().map(String::as_str).collect();
            let bars = phrase(&hits, &notes);
            assert_eq!(segment.phrase_match_strs(&names).unwrap(), bars);
            found += bars.len();
            asked += 1;
        }
    }
    assert!(found > asked / 2, "{found} bars for {asked} phrases");
    println!("{found} bars for {asked} phrases");
}
