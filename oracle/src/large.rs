//! Document 01's limit of 16,777,216 elements: at it, and one beyond.

use crate::case::{Call, Case, ENDS, IDS, LENGTHS, POSITIONS, POSITION_COUNTS, POSTING_COUNTS, POSTING_IDS};
use crate::compare::{opened, Runner};
use crate::given::{Flat, Given, Posting, Term};
use crate::sheet::Paper;

const LIMIT: usize = 16_777_216;

/// Lists whose text or positions are as long as they may be, written and opened: a segment itself has no such limit.
fn at_the_limit(runner: &mut Runner) {
    let nothing = opened(&[]);
    let long_name = Given {
        documents: vec![(1, 1)],
        terms: vec![Term { name: vec![b'a'; LIMIT], postings: vec![Posting { id: 1, positions: vec![0] }] }],
    };
    let many_positions = Given {
        documents: vec![(1, LIMIT as u32)],
        terms: vec![Term { name: b"a".to_vec(), postings: vec![Posting { id: 1, positions: (0..LIMIT as u32).collect() }] }],
    };
    let many_documents = Given { documents: (0..LIMIT as u32).map(|id| (id, 0)).collect(), terms: Vec::new() };
    for given in [long_name, many_positions, many_documents] {
        let flat = given.flat();
        let Some(answer) = runner.ask_full(&flat.case(), &nothing) else {
            return runner.stray("lists at the limit are refused".to_string());
        };
        let opened = opened(&answer.bytes);
        runner.ask_full(&Case::on(Call::Open, &answer.bytes), &opened);
        runner.ask_full(&Case::on(Call::DocumentLengths, &answer.bytes), &opened);
        runner.ask_full(&Case::on(Call::DocumentLen, &answer.bytes).numbered(1), &opened);
        let paper = Paper::new(&opened);
        for id in [1, LIMIT as u32 - 1, LIMIT as u32] {
            drop(runner.sheets.ask_full(&paper, id));
        }
        for term in &given.terms {
            runner.ask_full(&Case::on(Call::Df, &answer.bytes).named(&term.name), &opened);
            runner.ask_full(&Case::on(Call::TermPostings, &answer.bytes).named(&term.name), &opened);
            runner.ask_full(&Case::on(Call::Positions, &answer.bytes).named(&term.name).numbered(1), &opened);
        }
    }
}

fn names(runner: &mut Runner, text: &[u8]) {
    let nothing = opened(&[]);
    let empty = Flat::default();
    let Some(answer) = runner.ask_full(&empty.case(), &nothing) else {
        return runner.stray("no documents and no terms are refused".to_string());
    };
    let end = [text.len() as u32];
    let cut = [text.len() as u32, 0];
    for bytes in [&answer.bytes[..], &[]] {
        let opened = opened(bytes);
        for call in [Call::Df, Call::DocsWithTerm, Call::TermPostings, Call::Positions] {
            runner.ask_full(&Case::on(call, bytes).named(text), &opened);
        }
        runner.ask_full(&Case { second: b"a", ..Case::on(Call::Near, bytes).named(text).numbered(1) }, &opened);
        runner.ask_full(&Case { second: text, ..Case::on(Call::Near, bytes).named(b"\xFF").numbered(1) }, &opened);
        for ends in [&end[..], &cut, &[]] {
            for call in [Call::Phrase, Call::NearTerms] {
                let mut case = Case::on(call, bytes).named(text).numbered(1);
                case.lists[ENDS] = ends;
                runner.ask_full(&case, &opened);
            }
        }
    }
}

/// Each of the writer's lists alone, and those that run side by side together.
fn lists(runner: &mut Runner, zeros: &[u32], text: &[u8]) {
    let nothing = opened(&[]);
    let alone =
        [vec![ENDS], vec![IDS], vec![LENGTHS], vec![POSTING_COUNTS], vec![POSTING_IDS], vec![POSITION_COUNTS], vec![POSITIONS]];
    let together = [vec![IDS, LENGTHS], vec![ENDS, POSTING_COUNTS], vec![POSTING_IDS, POSITION_COUNTS]];
    for long in alone.iter().chain(&together) {
        let mut case = Case::on(Call::Write, &[]);
        for list in long {
            case.lists[*list] = zeros;
        }
        runner.ask_full(&case, &nothing);
        runner.ask_full(&case.named(b"a"), &nothing);
    }
    runner.ask_full(&Case::on(Call::Write, &[]).named(text), &nothing);
    let mut question = Case::on(Call::Phrase, &[]);
    question.lists[ENDS] = zeros;
    runner.ask_full(&question, &nothing);
}

pub fn all(runner: &mut Runner) {
    let text = vec![b'a'; LIMIT + 1];
    let zeros = vec![0u32; LIMIT + 1];
    for over in 0..=1 {
        names(runner, &text[..LIMIT + over]);
        lists(runner, &zeros[..LIMIT + over], &text[..LIMIT + over]);
    }
    at_the_limit(runner);
}
