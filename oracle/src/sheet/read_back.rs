//! A sheet read by its columns, byte by byte, against the lists handed in: a third side, which knows neither the Rust nor the model.

use crate::given::Given;

/// Behind the name stand 64 steps, 4 columns and the line feed, a byte each.
const BEHIND_NAME: usize = 64 + 4 + 1;

fn number(column: &[u8]) -> Option<u32> {
    let text = std::str::from_utf8(column).ok()?;
    // right-justified: blanks before, none behind
    (!text.ends_with(' ')).then(|| text.trim_start_matches(' ').parse().ok())?
}

fn is_character_start(byte: u8) -> bool {
    !(0x80..0xC0).contains(&byte)
}

/// The bytes that twelve places have of a name: up to where the thirteenth character begins, then blanks.
fn name_shows(name: &[u8], shown: &[u8]) -> bool {
    let starts: Vec<usize> = (0..name.len()).filter(|at| is_character_start(name[*at])).collect();
    let kept = starts.get(12).map_or(name, |cut| &name[..*cut]);
    let blanks = 12 - starts.len().min(12);
    let same = kept.iter().zip(shown).all(|(byte, shown)| match byte {
        0..=31 | 127 => *shown == b'?',
        _ => shown == byte,
    });
    same && shown.len() == kept.len() + blanks && shown[kept.len()..].iter().all(|byte| *byte == b' ')
}

/// What is wrong with a bar's sheet, if anything.
pub fn wrong(given: &Given, id: u32, sheet: &[u8]) -> Option<String> {
    let length = given.documents.iter().find(|document| document.0 == id)?.1;
    let mut lines = sheet.split_inclusive(|byte| *byte == b'\n');
    for line in lines.clone() {
        if line.last() != Some(&b'\n') || line.iter().filter(|byte| is_character_start(**byte)).count() != 81 {
            return Some(format!("a line is not of 80 characters: {:?}", String::from_utf8_lossy(line)));
        }
    }
    let Some(first) = lines.next().filter(|line| line.len() == 81) else { return Some("no first line".to_string()) };
    if (number(&first[..10]), number(&first[10..20])) != (Some(id), Some(length)) || first[20..80] != [b' '; 60] {
        return Some(format!("the first line is {:?}", String::from_utf8_lossy(first)));
    }
    for term in &given.terms {
        let own = given.own(&term.name, id);
        if own.is_empty() {
            continue;
        }
        let Some(line) = lines.next().filter(|line| line.len() > BEHIND_NAME) else {
            return Some("a line is missing".to_string());
        };
        let (name, rest) = line.split_at(line.len() - BEHIND_NAME);
        let steps = rest[..64].iter().zip(0..).all(|(mark, step)| match mark {
            b'o' => own.contains(&step),
            b'.' => step < length && !own.contains(&step),
            b' ' => step >= length && !own.contains(&step),
            _ => false,
        });
        if !name_shows(&term.name, name) || !steps || number(&rest[64..68]) != Some(own.len() as u32) {
            return Some(format!("the line of {:?} on {own:?} is {:?}", term.name, String::from_utf8_lossy(line)));
        }
    }
    lines.next().map(|line| format!("a line too many: {:?}", String::from_utf8_lossy(line)))
}
