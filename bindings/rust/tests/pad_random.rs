//! Bars recorded on a pad: random calls beside a plain map.

mod common;

use std::collections::BTreeMap;

use common::Random;
use pstp::{
    write_positional_segment, Bar, Error, Hit, Pad, PositionalPosting, PositionalTermPostings,
};

type Map = BTreeMap<u32, Bar>;

fn hits_in(map: &Map) -> usize {
    map.values().map(|bar| bar.hits.len()).sum()
}

/// The map as the writer takes it.
fn written(map: &Map, names: &[&str; Pad::SOUNDS]) -> Result<Vec<u8>, Error> {
    let mut sounds: BTreeMap<u8, BTreeMap<u32, Vec<u32>>> = BTreeMap::new();
    for (&id, bar) in map {
        for hit in &bar.hits {
            let bars = sounds.entry(hit.sound).or_default();
            bars.entry(id).or_default().push(hit.step);
        }
    }
    let lengths: Vec<_> = map.iter().map(|(&id, bar)| (id, bar.length)).collect();
    let mut terms = Vec::new();
    for (&sound, bars) in &sounds {
        let posting = |(&doc_id, positions)| PositionalPosting { doc_id, positions };
        let bars = bars.iter().map(|(id, steps)| (id, steps.as_slice()));
        terms.push(PositionalTermPostings {
            term: names[usize::from(sound)],
            postings: bars.map(posting).collect(),
        });
    }
    write_positional_segment(&lengths, &terms)
}

fn some_hits(random: &mut Random, length: u32) -> Vec<Hit> {
    let n = random.below(60) * random.below(12);
    let hit = |_| Hit {
        sound: random.below(128) as u8,
        step: random.below(length),
        velocity: 1 + random.below(127) as u8,
    };
    let mut hits: Vec<_> = (0..n).map(hit).collect();
    hits.sort();
    hits.dedup_by_key(|hit| (hit.sound, hit.step));
    hits
}

#[test]
fn random_calls() {
    let mut random = Random(0x9E37_79B9_7F4A_7C15);
    let texts: Vec<_> = (0..128).map(|sound| format!("n{sound:03}")).collect();
    let names: Vec<_> = texts.iter().map(String::as_str).collect();
    let names: [&str; Pad::SOUNDS] = names.try_into().unwrap();
    let (mut pad, mut map) = (Pad::new(), Map::new());
    let (mut full, mut compared) = (0, 0);
    for i in 0..8_000 {
        let ids = if i < 4_000 { 70 } else { 700 };
        let id = random.below(ids) * 6_000_000;
        if random.below(5) < 2 {
            let want = map.remove(&id).ok_or(Error::UnknownBar);
            assert_eq!(pad.erase(id), want.map(|bar| bar.hits.len()));
        } else {
            let length = 1 + random.below(100);
            let few = ids == 700;
            let hits = if few {
                vec![]
            } else {
                some_hits(&mut random, length)
            };
            let held = hits_in(&map);
            let want = if map.contains_key(&id) {
                Err(Error::AlreadyHeld)
            } else if map.len() == Pad::BARS || held + hits.len() > Pad::HITS {
                full += 1;
                Err(Error::PadFull)
            } else {
                map.insert(
                    id,
                    Bar {
                        length,
                        hits: hits.clone(),
                    },
                );
                Ok(())
            };
            assert_eq!(pad.save(id, length, &hits), want);
        }
        assert_eq!(pad.hits(), hits_in(&map));
        let id = random.below(ids) * 6_000_000;
        assert_eq!(pad.read(id).ok().as_ref(), map.get(&id));
        if i % 20 == 0 {
            assert_eq!(pad.write(&names), written(&map, &names));
            compared += 1;
        }
    }
    assert!(full > 500, "{full} times no room");
    println!("{full} times no room, {compared} segments compared");
}
