//! What sheets were asked for, and what was reached.

use super::model::{Paper, Refused, Sheet, Why, NAME, STEPS};
use crate::rust::Stage;
use crate::tally::{ENTRY, LIST, OPENING};

const BAR: &[(u32, u32)] = &[(16, 0), (17, 0)];
const ROOM: &[(u32, u32)] = &[(13, 1)];

/// The tests of the call in their order, each with the refusals that it can give.
const TESTS: [(&str, &[(u32, u32)]); 5] =
    [("opening", OPENING), ("an entry", ENTRY), ("the bar", BAR), ("a list", LIST), ("room", ROOM)];

/// What a sheet can have, and what can fail together.
const SEEN: [&str; 36] = [
    "a bar of no steps",
    "a bar of 1 step",
    "a bar of 63 steps",
    "a bar of 64 steps",
    "a sheet without sounds",
    "a sheet with some of the segment's sounds",
    "a sheet with all of several sounds",
    "a hit on step 63",
    "a hit on the bar's last step",
    "64 hits on one line",
    "a name of under 12 characters",
    "a name of 12 characters, each a byte",
    "a name of 12 characters and more bytes",
    "a name of 13 characters",
    "a longer name",
    "a name cut before a character of several bytes",
    "a name cut behind a character of several bytes",
    "a name with a byte below 32, or 127",
    "a name with U+0080 to U+009F",
    "a name with a combining mark",
    "two sounds with one list",
    "a buffer with room left",
    "a buffer exactly full",
    "a sheet of over 16,777,216 bytes",
    "16 in a segment without bars",
    "16 beside a bar of over 64 steps",
    "16 where a list cannot be decoded",
    "17 for 65 steps",
    "17 where a list cannot be decoded",
    "a list refused, the bar without steps",
    "a list refused before the bar's first sound",
    "a list refused behind the bar's last sound",
    "a list refused, and another behind it",
    "a list refused, and no room for a line",
    "13 with no places",
    "13 with one byte too few",
];

pub struct Tally {
    pub calls: u64,
    accepted: u64,
    with_sounds: u64,
    refused: [Vec<u64>; 5],
    seen: [u64; SEEN.len()],
    strange: u64,
    /// answers of the model that were held against the lists handed in
    pub held: u64,
    /// refusals of the model that were held against where a list was broken
    pub broken: u64,
}

/// What a name is on paper, in the order of `SEEN` from "a name of under 12 characters" on.
fn of_name(name: &str) -> [bool; 10] {
    let characters = name.chars().count();
    let is_long = |character: Option<char>| character.is_some_and(|character| character.len_utf8() > 1);
    let cut = characters > NAME;
    [
        characters < NAME,
        characters == NAME && name.len() == NAME,
        characters == NAME && name.len() > NAME,
        characters == NAME + 1,
        characters > NAME + 1,
        cut && is_long(name.chars().nth(NAME)),
        cut && is_long(name.chars().nth(NAME - 1)),
        name.chars().take(NAME).any(|c| c < ' ' || c == '\u{7f}'),
        name.chars().take(NAME).any(|c| ('\u{80}'..'\u{a0}').contains(&c)),
        name.chars().take(NAME).any(|c| ('\u{300}'..'\u{370}').contains(&c)),
    ]
}

fn of_sheet(paper: &Paper, sheet: &Sheet, room: usize) -> [bool; 24] {
    let hits = |step: u32| sheet.sounds.iter().any(|(_, hits)| hits.contains(&step));
    let all = paper.sounds.len();
    let mut names = [false; 10];
    let mut lists: Vec<(u64, u64)> = Vec::new();
    for (place, _) in &sheet.sounds {
        lists.push(paper.sounds[*place].list_at);
        for (seen, here) in names.iter_mut().zip(of_name(&paper.sounds[*place].name)) {
            *seen |= here;
        }
    }
    lists.sort();
    let mut seen = [false; 24];
    for (at, length) in [0, 1, STEPS - 1, STEPS].into_iter().enumerate() {
        seen[at] = sheet.length == length;
    }
    seen[4] = sheet.sounds.is_empty();
    seen[5] = !sheet.sounds.is_empty() && sheet.sounds.len() < all;
    seen[6] = all > 1 && sheet.sounds.len() == all;
    seen[7] = hits(STEPS - 1);
    seen[8] = sheet.length > 0 && hits(sheet.length - 1);
    seen[9] = sheet.sounds.iter().any(|(_, hits)| hits.len() == STEPS as usize);
    seen[10..20].copy_from_slice(&names);
    seen[20] = lists.windows(2).any(|pair| pair[0] == pair[1]);
    seen[21] = room > sheet.text.len();
    seen[22] = room == sheet.text.len();
    seen[23] = sheet.text.len() > 16_777_216;
    seen
}

fn of_refusal(paper: &Paper, id: u32, (why, refusal): Refused, room: usize) -> [bool; 12] {
    let bars = paper.bars();
    let length = bars.binary_search_by_key(&id, |bar| bar.0).map_or(0, |at| bars[at].1);
    let mut failing = (0..paper.sounds.len()).filter(|place| paper.sounds[*place].list.is_err());
    let (first, second) = (failing.next(), failing.next());
    let of_bar = |place: usize| paper.sounds[place].list.as_ref().is_ok_and(|list| list.iter().any(|p| p.doc_id == id));
    let (before, behind) = match first {
        Some(first) => ((0..first).any(of_bar), (first..paper.sounds.len()).any(of_bar)),
        None => (false, false),
    };
    let is = |asked: Why| why == asked;
    [
        is(Why::UnknownBar) && bars.is_empty(),
        is(Why::UnknownBar) && bars.iter().any(|bar| bar.1 > STEPS),
        is(Why::UnknownBar) && first.is_some(),
        is(Why::TooLong) && length == STEPS + 1,
        is(Why::TooLong) && first.is_some(),
        is(Why::List) && length == 0,
        is(Why::List) && !before && behind,
        is(Why::List) && before && !behind,
        is(Why::List) && second.is_some(),
        is(Why::List) && room < 81,
        is(Why::NoRoom) && room == 0,
        is(Why::NoRoom) && room as u64 + 1 == refusal.index,
    ]
}

impl Tally {
    pub fn new() -> Self {
        let refused = TESTS.map(|(_, refusals)| vec![0; refusals.len()]);
        Tally { calls: 0, accepted: 0, with_sounds: 0, refused, seen: [0; SEEN.len()], strange: 0, held: 0, broken: 0 }
    }

    pub fn count(&mut self, paper: &Paper, id: u32, told: Result<&Sheet, Refused>, room: usize) {
        self.calls += 1;
        let (from, seen) = match told {
            Ok(sheet) => {
                self.accepted += 1;
                self.with_sounds += u64::from(!sheet.sounds.is_empty());
                (0, &of_sheet(paper, sheet, room)[..])
            }
            Err(refused) => {
                self.count_refusal(refused);
                (24, &of_refusal(paper, id, refused, room)[..])
            }
        };
        for (count, seen) in self.seen[from..].iter_mut().zip(seen) {
            *count += u64::from(*seen);
        }
    }

    fn count_refusal(&mut self, (why, refusal): Refused) {
        let test = match why {
            Why::Opening(Stage::Entry) => 1,
            Why::Opening(_) => 0,
            Why::UnknownBar | Why::TooLong => 2,
            Why::List => 3,
            Why::NoRoom => 4,
        };
        match TESTS[test].1.iter().position(|known| *known == (refusal.kind, refusal.which)) {
            Some(place) => self.refused[test][place] += 1,
            None => self.strange += 1,
        }
    }

    pub fn print(&self) {
        println!("\nbar_sheet: {} calls, {} accepted, {} of these with sounds", self.calls, self.accepted, self.with_sounds);
        println!(
            "answers held against the lists handed in: {}, refusals against the list that was broken: {}",
            self.held, self.broken
        );
        println!("refusals reached, as kind which x times:");
        let mut missing = Vec::new();
        for ((test, refusals), counts) in TESTS.iter().zip(&self.refused) {
            let told: Vec<String> = refusals.iter().zip(counts).map(|(r, count)| format!("{} {} x {count}", r.0, r.1)).collect();
            println!("  {test}: {}", told.join(", "));
            let none = refusals.iter().zip(counts).filter(|(_, count)| **count == 0);
            missing.extend(none.map(|(r, _)| format!("{test}: {} {}", r.0, r.1)));
        }
        println!("calls that had:");
        for (words, count) in SEEN.iter().zip(self.seen) {
            println!("  {words:60}{count:>12}");
            if count == 0 {
                missing.push(words.to_string());
            }
        }
        println!("of bar_sheet this run did not reach: {}", missing.len());
        for words in missing {
            println!("  {words}");
        }
        if self.strange > 0 {
            println!("refusals of the model that the papers do not name at their place: {}", self.strange);
        }
    }
}
