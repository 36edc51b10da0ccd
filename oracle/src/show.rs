//! A case as one line of text, to be pasted after `--case`.

use crate::case::{Case, Kept, Room, CALLS, LISTS};

pub fn hex(bytes: &[u8]) -> String {
    bytes.iter().map(|byte| format!("{byte:02x}")).collect()
}

pub fn join<T: ToString>(numbers: &[T]) -> String {
    numbers.iter().map(T::to_string).collect::<Vec<_>>().join(",")
}

/// What is empty or 0 is left out.
pub fn shown(kept: &Kept) -> String {
    let mut said = format!("call={}", kept.call.name());
    if kept.ordered {
        said += " ordered=1";
    }
    if kept.number > 0 {
        said += &format!(" number={}", kept.number);
    }
    for (key, bytes) in [("segment", &kept.segment), ("text", &kept.text), ("second", &kept.second)] {
        if !bytes.is_empty() {
            said += &format!(" {key}={}", hex(bytes));
        }
    }
    for (key, list) in LISTS.iter().zip(&kept.lists) {
        if !list.is_empty() {
            said += &format!(" {key}={}", join(list));
        }
    }
    let [a, b, c] = kept.room.places;
    said + &format!(" room={}", join(&[a, b, c, kept.room.bytes]))
}

pub fn unhex(text: &str) -> Option<Vec<u8>> {
    (0..text.len() / 2).map(|i| u8::from_str_radix(text.get(2 * i..2 * i + 2)?, 16).ok()).collect()
}

pub fn numbers<T: std::str::FromStr>(text: &str) -> Option<Vec<T>> {
    text.split(',').filter(|part| !part.is_empty()).map(|part| part.parse().ok()).collect()
}

pub fn parsed(line: &str) -> Option<Kept> {
    let mut kept: Option<Kept> = None;
    for part in line.split_whitespace() {
        let (key, value) = part.split_once('=')?;
        if key == "call" {
            let call = CALLS.iter().find(|(_, name)| *name == value)?.0;
            kept = Some(Kept::new(&Case::on(call, &[]), Room::default()));
            continue;
        }
        let kept = kept.as_mut()?;
        match key {
            "ordered" => kept.ordered = value == "1",
            "number" => kept.number = value.parse().ok()?,
            "segment" => kept.segment = unhex(value)?,
            "text" => kept.text = unhex(value)?,
            "second" => kept.second = unhex(value)?,
            "room" => {
                let [a, b, c, bytes] = numbers::<usize>(value)?[..] else { return None };
                kept.room = Room { places: [a, b, c], bytes };
            }
            _ => kept.lists[LISTS.iter().position(|name| *name == key)?] = numbers(value)?,
        }
    }
    kept
}
