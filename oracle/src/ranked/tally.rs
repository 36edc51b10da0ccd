//! What ranked questions were asked, and what was reached.

use super::model::{in_room, Found, Lengths, Ranking};
use crate::case::{Case, ENDS};
use crate::rust::{Opened, Refused, Stage};
use crate::sheet::Paper;
use crate::tally::{ENTRY, LIST, OPENING};
use crate::words;

const QUESTION: &[(u32, u32)] = &[(12, 0), (11, 0), (10, 0)];
const ROOM: &[(u32, u32)] = &[(13, 1), (13, 2)];

/// The tests of the call in their order, each with the refusals that it can give.
const TESTS: [(&str, &[(u32, u32)]); 5] =
    [("the question", QUESTION), ("opening", OPENING), ("an entry", ENTRY), ("a list", LIST), ("room", ROOM)];

/// What an answer can have.
const ANSWERS: [&str; 27] = [
    "no names",
    "no names, where a list cannot be decoded",
    "one name",
    "128 names",
    "128 names, and a bar found",
    "a name twice, and a bar found",
    "an empty name",
    "an unknown name",
    "nothing found, though every name is known",
    "a phrase longer than a bar",
    "a phrase that would run past 2^32 - 1",
    "one bar found",
    "two bars found",
    "over 16 bars found",
    "over 10,000 bars found",
    "every bar found with the same count, of several",
    "every bar found with its own count, of several",
    "a tie for the first place",
    "a tie behind a higher count",
    "a tie of three bars or more",
    "bars in another order than upward",
    "bars downward, of several",
    "overlapping starts",
    "a count of over 127",
    "a count of over 65,535",
    "bar 0",
    "bar 2^32 - 1",
];

/// What the buffers can be: of an accepted call, and of one that is refused.
const ROOMS: [&str; 14] = [
    "both buffers exactly full",
    "ids exactly full, counts with room left",
    "counts exactly full, ids with room left",
    "both with room left, one more than the other",
    "nothing found, both empty",
    "nothing found, both with room left",
    "13 of ids, counts with room",
    "13 of ids, counts too short as well",
    "13 of ids with no places, of counts with none",
    "13 of ids with one place too few",
    "13 of counts, ids exactly full",
    "13 of counts, ids with room left",
    "13 of counts with no places",
    "13 of counts with one place too few",
];

pub struct Tally {
    pub calls: u64,
    accepted: u64,
    not_empty: u64,
    refused: [Vec<u64>; 5],
    answers: [u64; ANSWERS.len()],
    rooms: [u64; ROOMS.len()],
    /// pairs of neighbours with one count
    ties: u64,
    highest: u32,
    longest: usize,
    strange: u64,
    /// answers and refusals of the model that were held against the Rust's plain ones
    pub beside_plain: u64,
    /// answers of the model that were held against the lists handed in
    pub held: u64,
    /// refusals of the model that were held against where a list was broken
    pub broken: u64,
}

fn ties(counts: &[u32]) -> usize {
    counts.windows(2).filter(|pair| pair[0] == pair[1]).count()
}

fn of_answer(case: &Case, opened: &Opened, ranking: &Ranking) -> [bool; ANSWERS.len()] {
    let names: Vec<&[u8]> = words::names(case.text, case.lists[ENDS]).collect();
    let n = names.len();
    let (ids, counts, found) = (&ranking.ids, &ranking.counts, ranking.ids.len());
    let Ok(segment) = &opened.segment else { return [false; ANSWERS.len()] };
    let known = |name: &&[u8]| std::str::from_utf8(name).is_ok_and(|name| segment.df(name) > 0);
    let unknown = names.iter().any(|name| !known(name));
    let last = counts.last().copied().unwrap_or(0);
    let first = counts.first().copied().unwrap_or(0);
    [
        n == 0,
        n == 0 && Paper::new(opened).sounds.iter().any(|sound| sound.list.is_err()),
        n == 1,
        n == 128,
        n == 128 && found > 0,
        found > 0 && (1..n).any(|i| names[..i].contains(&names[i])),
        names.contains(&&b""[..]),
        unknown,
        n > 0 && found == 0 && !unknown,
        segment.document_lengths().iter().any(|bar| (bar.1 as usize) < n),
        ranking.runs_over,
        found == 1,
        found == 2,
        found > 16,
        found > 10_000,
        found > 1 && first == last,
        found > 1 && ties(counts) == 0,
        found > 1 && counts[1] == first,
        counts.windows(2).any(|pair| pair[0] == pair[1] && pair[0] < first),
        counts.windows(3).any(|three| three[0] == three[2]),
        ids.windows(2).any(|pair| pair[0] > pair[1]),
        found > 1 && ids.windows(2).all(|pair| pair[0] > pair[1]),
        ranking.nearest.is_some_and(|gap| (gap as usize) < n),
        first > 127,
        first > 65_535,
        ids.contains(&0),
        ids.contains(&u32::MAX),
    ]
}

fn of_room(told: Result<&Ranking, Refused>, needed: usize, [ids, counts]: Lengths) -> [bool; ROOMS.len()] {
    let (is_told, found) = (told.is_ok(), needed > 0);
    let no_room = |which: u32| told.is_err_and(|(_, refusal)| (refusal.kind, refusal.which) == (13, which));
    let full = is_told && found;
    [
        full && ids == needed && counts == needed,
        full && ids == needed && counts > needed,
        full && ids > needed && counts == needed,
        full && ids > needed && counts > needed && ids != counts,
        is_told && !found && ids + counts == 0,
        is_told && !found && ids > 0 && counts > 0,
        no_room(1) && counts >= needed,
        no_room(1) && counts < needed,
        no_room(1) && ids + counts == 0,
        no_room(1) && ids + 1 == needed,
        no_room(2) && ids == needed,
        no_room(2) && ids > needed,
        no_room(2) && counts == 0,
        no_room(2) && counts + 1 == needed,
    ]
}

/// Adds to each count what was seen.
fn add(counts: &mut [u64], seen: &[bool]) {
    for (count, seen) in counts.iter_mut().zip(seen) {
        *count += u64::from(*seen);
    }
}

impl Tally {
    pub fn new() -> Self {
        Tally {
            calls: 0,
            accepted: 0,
            not_empty: 0,
            refused: TESTS.map(|(_, refusals)| vec![0; refusals.len()]),
            answers: [0; ANSWERS.len()],
            rooms: [0; ROOMS.len()],
            ties: 0,
            highest: 0,
            longest: 0,
            strange: 0,
            beside_plain: 0,
            held: 0,
            broken: 0,
        }
    }

    pub fn count(&mut self, case: &Case, opened: &Opened, found: &Found, room: Lengths) {
        self.calls += 1;
        let told = in_room(found, room);
        let needed = found.as_ref().map_or(0, |ranking| ranking.ids.len());
        add(&mut self.rooms, &of_room(told, needed, room));
        match told {
            Ok(ranking) => {
                self.accepted += 1;
                self.not_empty += u64::from(needed > 0);
                self.ties += ties(&ranking.counts) as u64;
                self.highest = self.highest.max(ranking.counts.first().copied().unwrap_or(0));
                self.longest = self.longest.max(needed);
                add(&mut self.answers, &of_answer(case, opened, ranking));
            }
            Err(refused) => self.count_refusal(refused),
        }
    }

    fn count_refusal(&mut self, (stage, refusal): Refused) {
        let test = match stage {
            Stage::Arguments => 0,
            Stage::Opening => 1,
            Stage::Entry => 2,
            Stage::List | Stage::Writing => 3,
            Stage::Room => 4,
        };
        match TESTS[test].1.iter().position(|known| *known == (refusal.kind, refusal.which)) {
            Some(place) => self.refused[test][place] += 1,
            None => self.strange += 1,
        }
    }

    pub fn print(&self) {
        let Tally { calls, accepted, not_empty, ties, highest, longest, .. } = self;
        println!("\nphrase_match_ranked: {calls} calls, {accepted} accepted, {not_empty} of these with bars");
        println!("ties between neighbours: {ties}, highest count: {highest}, longest answer: {longest} bars");
        println!("held against the Rust's plain answers and refusals: {}", self.beside_plain);
        println!("held against the lists handed in: {}, against the list that was broken: {}", self.held, self.broken);
        println!("refusals reached, as kind which x times:");
        let mut missing = Vec::new();
        for ((test, refusals), counts) in TESTS.iter().zip(&self.refused) {
            let told: Vec<String> = refusals.iter().zip(counts).map(|(r, count)| format!("{} {} x {count}", r.0, r.1)).collect();
            println!("  {test}: {}", told.join(", "));
            let none = refusals.iter().zip(counts).filter(|(_, count)| **count == 0);
            missing.extend(none.map(|(r, _)| format!("{test}: {} {}", r.0, r.1)));
        }
        println!("calls that had:");
        for (words, count) in ANSWERS.iter().zip(self.answers).chain(ROOMS.iter().zip(self.rooms)) {
            println!("  {words:60}{count:>12}");
            if count == 0 {
                missing.push(words.to_string());
            }
        }
        println!("of phrase_match_ranked this run did not reach: {}", missing.len());
        for words in missing {
            println!("  {words}");
        }
        if self.strange > 0 {
            println!("refusals of the model that the papers do not name at their place: {}", self.strange);
        }
    }
}
