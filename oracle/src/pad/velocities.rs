//! Velocities alone: pads that differ in nothing else, of which writing out must not tell the one from the other.

use super::call::{Call, Slices};
use super::model::{place, Map};
use super::shrink::shown;
use super::words::stored_over;

/// The same bars, with another velocity in every hit.
pub fn changed(map: &Map) -> Map {
    let mut other = map.clone();
    for hit in other.values_mut().flat_map(|bar| &mut bar.hits) {
        hit.2 = hit.2 % 127 + 1;
    }
    other
}

/// Whether both have the same bars, whatever their velocities.
pub fn alike(one: &Map, other: &Map) -> bool {
    let places = |map: &Map| -> Vec<_> {
        map.iter().map(|(id, bar)| (*id, bar.length, bar.hits.iter().map(place).collect::<Vec<_>>())).collect()
    };
    places(one) == places(other)
}

/// Writes out by the library from these words, which hold this map, and from those of the changed one: says what differs, by no model.
pub fn differ(slices: &mut Slices, words: &[u32], map: &Map, call: &Call) -> Option<String> {
    let other = stored_over(&changed(map), words);
    let ([one_reply, _], _) = slices.ask(words, call);
    let one_left = slices.out.now().to_vec();
    let ([other_reply, _], _) = slices.ask(&other, call);
    if one_reply == other_reply && one_left == slices.out.now() {
        return None;
    }
    let said = format!("{one_reply:?} and {other_reply:?}, of {} and {}", shown(words, call), shown(&other, call));
    Some(format!("velocities alone change what is written out: {said}"))
}
