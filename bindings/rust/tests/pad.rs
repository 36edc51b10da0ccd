//! Bars recorded on a pad: the worked examples, refusals under their names, velocities, stored words.

mod common;

use common::{two_bars, write};
use pstp::{Bar, Error, Hit, Pad, RawPositionalSegment};

/// Hits side by side have different velocities.
fn hits(list: &[(u8, u32)]) -> Vec<Hit> {
    let hit = |&(sound, step)| Hit {
        sound,
        step,
        velocity: 1 + ((31 * u32::from(sound) + 17 * (step % 127)) % 127) as u8,
    };
    list.iter().map(hit).collect()
}

/// So many hits: sound 0 on steps 0 to 63, then sound 1, and so on.
fn grid(n: u32) -> Vec<Hit> {
    let places: Vec<_> = (0..n).map(|i| ((i / 64) as u8, i % 64)).collect();
    hits(&places)
}

fn named<'a>(list: &[(usize, &'a str)]) -> [&'a str; Pad::SOUNDS] {
    let mut names = [""; Pad::SOUNDS];
    for &(sound, name) in list {
        names[sound] = name;
    }
    names
}

const BAR_3: [(u8, u32); 5] = [(36, 0), (36, 4), (36, 15), (38, 8), (38, 14)];
const BAR_7: [(u8, u32); 3] = [(36, 2), (38, 3), (38, 4)];

fn recorded() -> Pad {
    let mut pad = Pad::new();
    pad.save(7, 16, &hits(&BAR_7)).unwrap();
    pad.save(3, 16, &hits(&BAR_3)).unwrap();
    pad
}

#[test]
fn the_two_bars() {
    let pad = recorded();
    assert_eq!(pad.hits(), 8);
    let bar_3 = Bar {
        length: 16,
        hits: hits(&BAR_3),
    };
    assert_eq!(pad.read(3).unwrap(), bar_3);
    assert_eq!(pad.read(7).unwrap().hits, hits(&BAR_7));
    assert_eq!(pad.read(4).unwrap_err(), Error::UnknownBar);
    let bytes = pad.write(&named(&[(36, "kick"), (38, "snare")])).unwrap();
    assert_eq!(bytes, two_bars());
    let segment = RawPositionalSegment::open(&bytes).unwrap();
    let found = segment.phrase_match_strs(&["kick", "snare"]).unwrap();
    assert_eq!(found, [7]);
}

#[test]
fn what_saving_refuses() {
    let mut pad = Pad::new();
    pad.save(1, 4, &hits(&[(5, 0)])).unwrap();
    let before = pad.as_words().to_vec();
    let falls = Error::InvalidLayout("positions must be increasing");
    let past = Error::InvalidLayout("position exceeds document length");
    let mut refused = |id, list: &[(u8, u32)]| {
        let error = pad.save(id, 4, &hits(list)).unwrap_err();
        assert_eq!(pad.as_words(), before);
        assert_eq!(pad.hits(), 1);
        error
    };
    assert_eq!(refused(1, &[(128, 9), (5, 0)]), Error::AlreadyHeld);
    assert_eq!(refused(2, &[(5, 9), (5, 1), (128, 0)]), Error::TooLarge);
    assert_eq!(refused(2, &[(5, 9), (5, 1), (127, 0)]), falls);
    assert_eq!(refused(2, &[(5, 1), (5, 1)]), falls);
    assert_eq!(refused(2, &[(6, 0), (5, 1)]), falls);
    assert_eq!(refused(2, &[(5, 1), (5, 9)]), past);
    assert_eq!(refused(2, &[(5, 4)]), past);

    let nothing = Bar {
        length: 0,
        hits: vec![],
    };
    pad.save(2, 0, &[]).unwrap();
    assert_eq!(pad.save(2, 1, &[]).unwrap_err(), Error::AlreadyHeld);
    assert_eq!(pad.erase(1).unwrap(), 1);
    assert_eq!(pad.erase(1).unwrap_err(), Error::UnknownBar);
    assert_eq!(pad.hits(), 0);
    assert_eq!(pad.read(2).unwrap(), nothing);
}

#[test]
fn velocities() {
    let mut pad = Pad::new();
    let played = |list: &[(u8, u32, u8)]| -> Vec<Hit> {
        let hit = |&(sound, step, velocity)| Hit {
            sound,
            step,
            velocity,
        };
        list.iter().map(hit).collect()
    };
    let bar = played(&[(36, 0, 127), (36, 4, 1)]);
    pad.save(1, 8, &bar).unwrap();
    let falls = Error::InvalidLayout("positions must be increasing");
    let mut refused = |list: &[(u8, u32, u8)]| pad.save(2, 8, &played(list)).unwrap_err();
    for velocity in (0..=255).filter(|v| !(1..=127).contains(v)) {
        assert_eq!(refused(&[(36, 0, velocity)]), Error::VelocityRange);
    }
    assert_eq!(refused(&[(36, 0, 128), (128, 0, 64)]), Error::TooLarge);
    assert_eq!(refused(&[(36, 4, 64), (36, 0, 0)]), Error::VelocityRange);
    assert_eq!(refused(&[(36, 4, 64), (36, 4, 65)]), falls);
    assert_eq!(pad.read(1).unwrap().hits, bar);

    // What is written does not tell how loud it was.
    let mut even = Pad::new();
    even.save(1, 8, &played(&[(36, 0, 90), (36, 4, 90)]))
        .unwrap();
    assert_ne!(even.as_words(), pad.as_words());
    let names = named(&[(36, "kick")]);
    assert_eq!(even.write(&names), pad.write(&names));
    assert_eq!(pad.write(&names).unwrap().len(), 114);
    assert_eq!(even.write(&named(&[])), pad.write(&named(&[])));
}

#[test]
fn room_in_pieces() {
    let mut pad = Pad::new();
    for id in 0..64 {
        pad.save(id, 64, &grid(128)).unwrap();
    }
    assert_eq!(pad.save(100, 64, &grid(1)).unwrap_err(), Error::PadFull);
    pad.save(100, 64, &[]).unwrap();
    for id in (0..64).step_by(2) {
        assert_eq!(pad.erase(id).unwrap(), 128);
    }
    let more = pad.save(200, 64, &grid(4097));
    assert_eq!(more.unwrap_err(), Error::PadFull);
    pad.save(200, 64, &grid(4096)).unwrap();
    assert_eq!(pad.read(200).unwrap().hits, grid(4096));
    assert_eq!(pad.read(1).unwrap().hits, grid(128));
    assert_eq!(
        pad.write(&[""; 128]).unwrap_err(),
        Error::InvalidLayout("empty term")
    );
    assert_eq!(format!("{pad:?}"), "Pad { bars: 34, hits: 8192, .. }");
}

#[test]
fn most_bars_and_hits() {
    let mut pad = Pad::default();
    pad.save(u32::MAX, 64, &grid(8192)).unwrap();
    for id in 0..255 {
        pad.save(id, u32::MAX, &[]).unwrap();
    }
    assert_eq!(pad.save(255, 0, &[]).unwrap_err(), Error::PadFull);
    assert_eq!(pad.read(u32::MAX).unwrap().hits, grid(8192));
    assert_eq!(pad.hits(), 8192);
    assert_eq!(pad.erase(u32::MAX).unwrap(), 8192);
    assert_eq!(pad.save(255, 64, &grid(8193)).unwrap_err(), Error::TooLarge);
    let long: Vec<_> = (0..8193).map(|step| (127, step)).collect();
    let long = hits(&long);
    assert_eq!(pad.save(255, 8193, &long).unwrap_err(), Error::PadFull);
    pad.save(255, 8193, &long[1..]).unwrap();
    assert_eq!(pad.read(255).unwrap().hits, long[1..]);
    let many = vec![hits(&[(0, 0)])[0]; 16_777_217];
    assert_eq!(pad.save(256, 1, &many).unwrap_err(), Error::TooLarge);
}

#[test]
fn names() {
    let pad = recorded();
    let written = |list: &[(usize, &str)]| pad.write(&named(list));
    let falls = Error::InvalidLayout("terms must be strictly increasing");
    let empty = Error::InvalidLayout("empty term");
    let plain = written(&[(36, "kick"), (38, "snare")]).unwrap();
    // The names of sounds without hits may be anything.
    let more = [
        (0, "z"),
        (35, "kick"),
        (36, "kick"),
        (37, ""),
        (38, "snare"),
        (39, "a"),
    ];
    assert_eq!(written(&more).unwrap(), plain);
    assert_eq!(written(&[(36, "snare"), (38, "kick")]).unwrap_err(), falls);
    assert_eq!(written(&[(36, "kick"), (38, "kick")]).unwrap_err(), falls);
    assert_eq!(written(&[(38, "snare")]).unwrap_err(), empty);
    let long = "a".repeat(16_777_216);
    let most = [(5, &long[9..]), (36, "kick"), (38, "snare")];
    assert_eq!(written(&most).unwrap(), plain);
    let over = [(5, &long[8..]), (36, "kick"), (38, "snare")];
    assert_eq!(written(&over).unwrap_err(), Error::TooLarge);
    assert_eq!(
        Pad::new().write(&[""; 128]).unwrap(),
        write(&[], &[]).unwrap()
    );
}

#[test]
fn stored_words() {
    let pad = recorded();
    let words = pad.as_words();
    assert_eq!(words.len(), Pad::WORDS);
    assert_eq!(words[..5], [2, 8, 3, 16, 5]);
    let first = hits(&BAR_3)[0];
    assert_eq!(words[5], 36 + 256 * u32::from(first.velocity));
    let mut again = Pad::from_words(words).unwrap();
    assert_eq!(again.as_words(), words);
    assert_eq!(again.erase(3).unwrap(), 5);
    assert_eq!((again.hits(), pad.hits()), (3, 8));
    assert_eq!(pad.read(3).unwrap().hits, hits(&BAR_3));

    let broken = |words: &[u32]| Pad::from_words(words).unwrap_err();
    let changed = |at: usize, word| {
        let mut words = words.to_vec();
        words[at] = word;
        broken(&words)
    };
    for len in [0, 1, 2, 17_153] {
        assert_eq!(broken(&words[..len]), Error::BrokenPad);
    }
    assert_eq!(broken(&[0; 17_155]), Error::BrokenPad);
    // Bars, hits, an id, a length, a number of hits, sounds, velocities and a step.
    let faults = [
        (0, 257),
        (1, 7),
        (15, 3),
        (3, 15),
        (4, u32::MAX),
        (5, 128 + 256),
        (5, 36),
        (5, 36 + 256 * 128),
        (5, 36 + 256 * 257),
        (5, u32::MAX),
        (6, 4),
    ];
    for (at, word) in faults {
        assert_eq!(changed(at, word), Error::BrokenPad);
    }
    // What lies behind the bars is free.
    let mut free = words.to_vec();
    free[24..].fill(u32::MAX);
    assert_eq!(Pad::from_words(&free).unwrap().read(7), pad.read(7));
    assert!(Pad::from_words(&[0; Pad::WORDS]).is_ok());
    // Recorded before hits had velocities.
    let mut old = vec![0; Pad::WORDS];
    old[..8].copy_from_slice(&[2, 0, 3, 16, 0, 7, 16, 0]);
    assert_eq!(Pad::from_words(&old).unwrap().read(7).unwrap().length, 16);
    old[..7].copy_from_slice(&[1, 1, 3, 16, 1, 36, 0]);
    assert_eq!(broken(&old), Error::BrokenPad);
}

#[test]
fn texts() {
    let texts = [
        (Error::AlreadyHeld, "the pad already holds a bar of this id"),
        (Error::PadFull, "the pad has no room for the bar"),
        (Error::BrokenPad, "the words are no pad"),
        (Error::VelocityRange, "a velocity is not 1 to 127"),
    ];
    for (error, text) in texts {
        assert_eq!(error.to_string(), text);
    }
}
