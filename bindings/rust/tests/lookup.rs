//! A length in lists of the caller's own: the worked examples, refusals under their names, the limit, and random lists beside a plain map.

mod common;

use std::collections::BTreeMap;

use common::{two_bars, write, Random};
use pstp::{length_of, Error, RawPositionalSegment};

const MOST: usize = 16_777_216;

#[test]
fn the_worked_examples() {
    assert_eq!(length_of(&[3, 7], &[16, 12], 7), Ok(Some(12)));
    assert_eq!(length_of(&[3, 7], &[16, 12], 5), Ok(None));
    let twice = length_of(&[3, 7, 7, 9], &[1, 2, 3, 4], 3);
    assert_eq!(twice, Err(Error::IdsNotRising(2)));
}

#[test]
fn there_or_not() {
    let of = |id| length_of(&[3, 7, 9, u32::MAX], &[16, 0, u32::MAX, 5], id).unwrap();
    assert_eq!(of(3), Some(16));
    assert_eq!(of(7), Some(0));
    assert_eq!(of(9), Some(u32::MAX));
    assert_eq!(of(u32::MAX), Some(5));
    for id in [0, 2, 4, 6, 8, 10, 16, 1 << 31, u32::MAX - 1] {
        assert_eq!(of(id), None, "{id}");
    }
    assert_eq!(length_of(&[0], &[8], 0), Ok(Some(8)));
    assert_eq!(length_of(&[0], &[8], 1), Ok(None));
    for id in [0, 3, u32::MAX] {
        assert_eq!(length_of(&[], &[], id), Ok(None));
    }
}

#[test]
fn ids_that_do_not_rise() {
    let lists: [(&[u32], usize); 7] = [
        (&[3, 3, 7, 9], 1),
        (&[3, 2, 7, 9], 1),
        (&[3, 7, 9, 9], 3),
        (&[3, 7, 9, 8], 3),
        (&[9, 7, 7, 3], 1),
        (&[3, 7, 5, 6], 2),
        (&[3, u32::MAX, 0, 9], 2),
    ];
    for (ids, place) in lists {
        for id in (0..12).chain([u32::MAX]) {
            let got = length_of(ids, &[1, 2, 3, 4], id);
            assert_eq!(got, Err(Error::IdsNotRising(place)), "{ids:?} {id}");
        }
    }
    assert_eq!(
        Error::IdsNotRising(2).to_string(),
        "the id at index 2 is not above the one before it"
    );
}

#[test]
fn lists_that_differ_in_length() {
    let lists: [(&[u32], &[u32]); 5] = [
        (&[3, 7], &[16]),
        (&[3, 7], &[16, 12, 5]),
        (&[3], &[]),
        (&[], &[16]),
        (&[7, 7, 3], &[16, 12]), // before ids that do not rise
    ];
    for (ids, lengths) in lists {
        assert_eq!(length_of(ids, lengths, 3), Err(Error::ListShape));
    }
}

#[test]
fn the_longest_lists() {
    let mut ids: Vec<u32> = (0..=MOST as u32).collect();
    let lengths: Vec<u32> = ids.iter().map(|id| 2 * id + 1).collect();
    let of = |ids: &[u32], id| length_of(ids, &lengths[..ids.len()], id);
    assert_eq!(of(&ids[..MOST], 0), Ok(Some(1)));
    assert_eq!(of(&ids[..MOST], 16_777_215), Ok(Some(33_554_431)));
    assert_eq!(of(&ids[..MOST], 16_777_216), Ok(None));
    assert_eq!(of(&ids, 0), Err(Error::TooLarge));
    ids[MOST - 1] = ids[MOST - 2];
    let falls = Err(Error::IdsNotRising(16_777_215));
    assert_eq!(of(&ids[..MOST], 0), falls);

    // 12 of either list, before 11, before 21.
    assert_eq!(of(&ids, 0), Err(Error::TooLarge));
    assert_eq!(length_of(&ids, &[], 0), Err(Error::TooLarge));
    assert_eq!(length_of(&[7, 7], &lengths, 7), Err(Error::TooLarge));
    let shorter = &lengths[..MOST - 1];
    assert_eq!(length_of(&ids[..MOST], shorter, 0), Err(Error::ListShape));
}

#[test]
fn the_lists_of_a_segment() {
    let uneven = write(&[(2, 5), (9, 0), (70000, 4096), (u32::MAX, 1)], &[]).unwrap();
    for bytes in [two_bars(), uneven] {
        let segment = RawPositionalSegment::open(&bytes).unwrap();
        let (ids, lengths): (Vec<_>, Vec<_>) =
            segment.document_lengths().unwrap().into_iter().unzip();
        for id in (0..20).chain([69_999, 70_000, 70_001, u32::MAX]) {
            let got = length_of(&ids, &lengths, id);
            assert_eq!(got, segment.document_len(id), "{id}");
        }
    }
}

#[test]
fn beside_a_plain_map() {
    let mut random = Random(0x2545_F491_4F6C_DD1D);
    let (mut there, mut refused) = (0, 0);
    for _ in 0..2000 {
        let n = random.below(40);
        let number = |random: &mut Random| random.below(60) * 72_796_055;
        let map: BTreeMap<u32, u32> = (0..n)
            .map(|_| (number(&mut random), random.below(100)))
            .collect();
        let (mut ids, lengths): (Vec<_>, Vec<_>) = map.clone().into_iter().unzip();
        for _ in 0..20 {
            let id = number(&mut random);
            there += usize::from(map.contains_key(&id));
            assert_eq!(length_of(&ids, &lengths, id), Ok(map.get(&id).copied()));
        }
        if ids.len() >= 2 {
            let len = ids.len() as u32;
            ids.swap(random.below(len) as usize, random.below(len) as usize);
            let place = (1..ids.len()).find(|&i| ids[i] <= ids[i - 1]);
            let id = number(&mut random);
            let want = match place {
                Some(place) => Err(Error::IdsNotRising(place)),
                None => Ok(map.get(&id).copied()),
            };
            refused += usize::from(place.is_some());
            assert_eq!(length_of(&ids, &lengths, id), want);
        }
    }
    assert!(there > 5000 && refused > 1000, "{there} {refused}");
}
