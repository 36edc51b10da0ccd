//! Whole small spaces: every sequence of a few calls, every short list of hits, every three short lists, every pad of a few small words,
//! every word of a held hit, every short slice.

use super::call::{Call, Lists};
use super::compare::{Pad, Pads};
use super::model::{Bar, Hit, SOUNDS};
use super::words::WORDS;

/// The choice's digit of this place, in a system of so many digits.
fn digit(choice: usize, digits: usize, place: u32) -> usize {
    choice / digits.pow(place) % digits
}

/// Saves of two bars, each in two ways, one that is refused for a step and one for a velocity, and everything that can be done with them.
fn alphabet() -> Vec<Call> {
    let mut ends = vec![0; SOUNDS];
    ends[3..].fill(1);
    let mut all = vec![Call::Write { text: b"a".to_vec(), ends, room: 200 }];
    for id in [1, 2] {
        all.push(Call::save(id, 2, &[(3, 0, id as u8), (3, 1, 127)]));
        all.push(Call::save(id, 0, &[]));
        all.push(Call::save(id, 1, &[(3, 1, 1)]));
        all.push(Call::Erase { id });
        all.push(Call::Read { id, room: [2, 2, 2] });
    }
    all.push(Call::save(2, 2, &[(3, 0, 128), (3, 1, 1)]));
    all
}

/// Every sequence of so many calls from a pad on.
fn sequences(pads: &mut Pads, pad: &Pad, calls: &[Call], length: usize) {
    if length == 0 {
        return;
    }
    for call in calls {
        let mut pad = pad.clone();
        drop(pads.run(&mut pad, call));
        sequences(pads, &pad, calls, length - 1);
    }
}

/// Every list of up to so many of these hits, saved as bars of length 2; some of them also with an id that is held, or a step less.
fn lists(pads: &mut Pads, kinds: &[Hit], most: u32) {
    let pad = Pad::holding(&[(4, Bar::default())].into(), &[0; WORDS]);
    for count in 0..=most {
        for choice in 0..kinds.len().pow(count) {
            let hits: Vec<Hit> = (0..count).map(|i| kinds[digit(choice, kinds.len(), i)]).collect();
            drop(pads.run(&mut pad.clone(), &Call::save(3, 2, &hits)));
            if count == most && choice % 7 > 0 {
                continue;
            }
            drop(pads.run(&mut pad.clone(), &Call::save(4, 2, &hits)));
            let mut lists = Lists::of(&hits);
            if lists.steps.pop().is_some() {
                drop(pads.run(&mut pad.clone(), &Call::Save { id: 5, length: 2, lists }));
            }
        }
    }
}

/// Sounds and steps within the rules and outside, with every velocity at the ends of its range.
fn hits_at_ends() -> [Vec<Hit>; 2] {
    const PLACES: [(u8, u32); 9] = [(0, 0), (0, 1), (0, 2), (127, 0), (127, 1), (127, 2), (128, 0), (128, 1), (255, u32::MAX)];
    const FEW: [(u8, u32); 4] = [(5, 0), (5, 1), (5, 2), (128, 0)];
    let each = (1u8..).zip(PLACES).map(|(velocity, (sound, step))| (sound, step, velocity)).collect();
    let ends = FEW.into_iter().flat_map(|(sound, step)| [0, 1, 127, 128].map(|velocity| (sound, step, velocity))).collect();
    [each, ends]
}

/// Every list of up to so many elements out of two.
fn all_of<T: Copy>(two: [T; 2], most: u32) -> Vec<Vec<T>> {
    let of = |count: u32| (0..1usize << count).map(move |choice| (0..count).map(|i| two[digit(choice, 2, i)]).collect());
    (0..=most).flat_map(of).collect()
}

/// Every three lists of up to so many sounds, steps and velocities, one within the rules and one outside, as long as each other or not.
fn three_lists(pads: &mut Pads, most: u32) {
    let pad = Pad::holding(&[(4, Bar::default())].into(), &[0; WORDS]);
    for sounds in all_of([5, 128], most) {
        for steps in all_of([0, 2], most) {
            for velocities in all_of([1, 128], most) {
                let lists = Lists { sounds: sounds.clone(), steps: steps.clone(), velocities };
                drop(pads.run(&mut pad.clone(), &Call::Save { id: 3, length: 2, lists }));
            }
        }
    }
}

/// Each call on a pad.
fn each_call(pads: &mut Pads, pad: &Pad) {
    drop(pads.run(&mut pad.clone(), &Call::save(1, 2, &[(1, 1, 9)])));
    drop(pads.run(&mut pad.clone(), &Call::Erase { id: 1 }));
    drop(pads.run(&mut pad.clone(), &Call::Read { id: 1, room: [1, 2, 2] }));
    let ends = (1..=SOUNDS as u32).map(|end| end.min(2)).collect();
    drop(pads.run(&mut pad.clone(), &Call::Write { text: b"ab".to_vec(), ends, room: 130 }));
}

/// Every pad whose first words are 0, 1 and 2, and from the first hit's on 0, 1 and 257, sound 1 with velocity 1: the words that follow
/// are 0.
fn words(pads: &mut Pads, count: u32) {
    for choice in 0..3usize.pow(count) {
        let mut words = vec![0; WORDS];
        for i in 0..count {
            words[i as usize] = if i < 5 { [0, 1, 2] } else { [0, 1, 257] }[digit(choice, 3, i)];
        }
        each_call(pads, &Pad::of(words));
    }
}

/// One of two hits by every word with a sound or a velocity at its ends, with the whole space by every word that has both in a byte each;
/// and by the word as it was with one bit changed.
fn hit_words(pads: &mut Pads, whole: bool) {
    let ends = [0, 1, 127, 128, 255];
    let some = (0..65_536).filter(|word| whole || ends.contains(&(word % 256)) || ends.contains(&(word / 256)));
    let bits = (0..32).map(|bit| 1 << bit ^ (1 + 256 * 127));
    for word in some.chain(bits) {
        for at in [5, 7] {
            let mut words = vec![0; WORDS];
            words[..9].copy_from_slice(&[1, 2, 1, 2, 2, 1 + 256, 0, 1 + 256 * 127, 1]);
            words[at] = word;
            each_call(pads, &Pad::of(words));
        }
    }
}

/// Every slice of up to 4 words out of five, where the counter answers the second.
fn slices(pads: &mut Pads) {
    const KINDS: [u32; 5] = [0, 1, 2, 8193, u32::MAX];
    for count in 0..=4 {
        for choice in 0..KINDS.len().pow(count) {
            let words = (0..count).map(|i| KINDS[digit(choice, KINDS.len(), i)]).collect();
            drop(pads.run(&mut Pad::of(words), &Call::Hits));
        }
    }
}

/// Sequences of 4 calls, lists of up to 3 hits, three lists of up to 2 elements, the first 9 words; with the whole space 5, 4, 3 and 12,
/// and every word of a hit.
pub fn all(pads: &mut Pads, whole: bool) {
    let calls = alphabet();
    sequences(pads, &Pad::empty(), &calls, if whole { 5 } else { 4 });
    hits_at_ends().iter().for_each(|kinds| lists(pads, kinds, if whole { 4 } else { 3 }));
    three_lists(pads, if whole { 3 } else { 2 });
    words(pads, if whole { 12 } else { 9 });
    hit_words(pads, whole);
    slices(pads);
}
