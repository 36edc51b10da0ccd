//! The bars that document 01 lists, with the answers that it gives.

use crate::case::{Call, Case, ENDS};
use crate::compare::{found, full_room, opened, Runner};
use crate::given::{Given, Posting, Term};
use crate::questions::ends_of;
use crate::rust::{Answer, Opened};

pub fn term(name: &str, postings: &[(u32, &[u32])]) -> Term {
    let postings = postings.iter().map(|(id, positions)| Posting { id: *id, positions: positions.to_vec() });
    Term { name: name.into(), postings: postings.collect() }
}

pub fn bars() -> Given {
    Given {
        documents: vec![(3, 16), (7, 16)],
        terms: vec![term("kick", &[(3, &[0, 4, 15]), (7, &[2])]), term("snare", &[(3, &[8, 14]), (7, &[3, 4])])],
    }
}

fn tell(runner: &mut Runner, ok: bool, what: &str) {
    if !ok {
        runner.stray(format!("document 01's bars: {what}"));
    }
}

fn expect(runner: &mut Runner, case: &Case, opened: &Opened, names: &[&str], ids: &[u32]) {
    let text = names.concat().into_bytes();
    let ends = ends_of(names);
    let mut case = case.named(&text);
    case.lists[ENDS] = &ends;
    let answer = runner.ask_full(&case, opened);
    tell(runner, answer.is_some_and(|answer| answer.places[0] == ids), &format!("{} {names:?}", case.call.name()));
}

/// The answer with its buffers empty, one short, full and larger.
fn every_room(runner: &mut Runner, case: &Case, opened: &Opened) {
    let found = found(case, opened);
    let full = full_room(&found);
    for more in [-2, -1, 0, 1, 5] {
        for buffer in 0..3 {
            let mut room = full;
            room.places[buffer] = room.places[buffer].saturating_add_signed(more);
            room.bytes = room.bytes.saturating_add_signed(more);
            for places in &mut room.places[case.call.buffers()..] {
                *places = 0;
            }
            runner.run(case, &found, room);
        }
    }
}

pub fn all(runner: &mut Runner) {
    let nothing = opened(&[]);
    let flat = bars().flat();
    let Some(Answer { bytes, .. }) = runner.ask_full(&flat.case(), &nothing) else {
        return runner.stray("document 01's bars are refused".to_string());
    };
    tell(runner, bytes.len() == 165, "a segment of 165 bytes");
    tell(runner, bytes[72 + 64 + 9..][..4] == [3, 0x10, 4, 0x10], "metadata");
    tell(runner, bytes[72 + 64 + 9 + 4..][..8] == [3, 3, 0, 4, 0x0B, 4, 1, 2], "kick's postings");
    let opened_bars = opened(&bytes);
    let phrase = Case::on(Call::Phrase, &bytes);
    let near = |window: u32, ordered: bool| Case { ordered, ..Case::on(Call::NearTerms, &bytes).numbered(window) };
    expect(runner, &phrase, &opened_bars, &["kick", "snare"], &[7]);
    expect(runner, &phrase, &opened_bars, &["kick", "snare", "snare"], &[7]);
    expect(runner, &phrase, &opened_bars, &["snare"], &[3, 7]);
    expect(runner, &phrase, &opened_bars, &["kick", "tom"], &[]);
    expect(runner, &near(3, true), &opened_bars, &["kick", "snare"], &[7]);
    expect(runner, &near(4, true), &opened_bars, &["kick", "snare"], &[3, 7]);
    expect(runner, &near(1, true), &opened_bars, &["snare", "kick"], &[3]);
    expect(runner, &near(1, false), &opened_bars, &["kick", "snare"], &[3, 7]);
    expect(runner, &near(5, false), &opened_bars, &["snare", "snare"], &[7]);
    expect(runner, &near(6, false), &opened_bars, &["snare", "snare"], &[3, 7]);
    for count in [128, 129] {
        let answer = {
            let text = b"kick".repeat(count);
            let ends: Vec<u32> = (1..=count as u32).map(|i| 4 * i).collect();
            let mut case = phrase.named(&text);
            case.lists[ENDS] = &ends;
            runner.ask_full(&case, &opened_bars)
        };
        tell(runner, answer.is_some() == (count == 128), "128 names pass, 129 do not");
    }
    every_room(runner, &flat.case(), &nothing);
    every_room(runner, &Case::on(Call::DocumentLengths, &bytes), &opened_bars);
    for call in [Call::DocsWithTerm, Call::TermPostings, Call::Positions] {
        every_room(runner, &Case::on(call, &bytes).named(b"snare").numbered(3), &opened_bars);
    }
    every_room(runner, &Case { second: b"snare", ..Case::on(Call::Near, &bytes).named(b"kick").numbered(1) }, &opened_bars);
    for cut in 0..bytes.len() {
        let cut = &bytes[..cut];
        runner.ask_full(&Case::on(Call::Open, cut), &opened(cut));
        runner.sheets.some(&opened(cut));
    }
}
