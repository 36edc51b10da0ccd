//! Inputs in the corners that document 01's words leave open, each with the refusal that the Rust was seen to give.

use crate::case::{Call, Case, ENDS};
use crate::compare::{found, opened, Runner};
use crate::given::{Flat, Given, Posting, Term};
use crate::parts::{Entry, Parts};
use crate::reply::Refusal;

type Numbers = (u32, u32, u64);

fn expect(runner: &mut Runner, case: &Case, numbers: Option<Numbers>, what: &str) {
    let opened = opened(case.segment);
    runner.ask_full(case, &opened);
    if case.call != Call::Write {
        runner.sheets.some(&opened);
    }
    let told = found(case, &opened).err().map(|(_, Refusal { kind, which, index })| (kind, which, index));
    if told != numbers {
        runner.stray(format!("{what}: {told:?} instead of {numbers:?}"));
    }
}

fn segment(documents: u32, metadata: &[u8]) -> Parts {
    Parts { documents, metadata: metadata.to_vec(), ..Parts::empty() }
}

/// One document of id 0 and length 4, terms a, b, .. with these lists.
fn with_lists(lists: &[&[u8]]) -> Parts {
    let mut parts = segment(1, &[0, 4]);
    for (i, list) in lists.iter().enumerate() {
        parts.names.push(b'a' + i as u8);
        parts.entries.push(Entry { name_at: i as u32, name_len: 1, list_at: 0, list_len: 0, df: 1, checksum: 0 });
        parts.put_list(i, list);
    }
    parts.terms = lists.len() as u32;
    parts.sign_lists();
    parts
}

fn metadata(runner: &mut Runner) {
    let all: [(u32, &[u8], Option<Numbers>); 9] = [
        (2, &[1, 1, 0xFF, 0xFF, 0xFF, 0xFF, 0x0F, 0x80], Some((7, 4, 1))),
        (2, &[1, 1, 0xFF, 0xFF, 0xFF, 0xFF, 0x0F, 0x01], Some((8, 0, 1))),
        (u32::MAX, &[], Some((7, 4, 0))),
        (1, &[0xFF, 0xFF, 0xFF, 0xFF, 0x0F, 0], None),
        (1, &[0xFF, 0xFF, 0xFF, 0xFF, 0x10, 0], Some((7, 4, 0))),
        (1, &[0x80, 0x00, 0], None),
        (1, &[0x80], Some((7, 4, 0))),
        (1, &[0x80, 0x80, 0x80, 0x80, 0x00, 0], None),
        (1, &[0x80, 0x80, 0x80, 0x80, 0x80, 0x00, 0], Some((7, 4, 0))),
    ];
    for (documents, bytes, numbers) in all {
        let mut parts = segment(documents, bytes);
        expect(runner, &Case::on(Call::Open, &parts.bytes()), numbers, "metadata");
        // metadata comes before the directory's length
        parts.directory_tail = vec![0];
        expect(runner, &Case::on(Call::Open, &parts.bytes()), numbers.or(Some((6, 5, 0))), "metadata, then the directory");
    }
}

fn ranges(runner: &mut Runner) {
    for (length, numbers) in [(u64::MAX - 71, (6, 2, 0)), (u64::MAX - 72, (1, 2, 0)), (1, (1, 2, 0))] {
        let mut parts = Parts::empty();
        parts.wrong_lengths[0] = length;
        expect(runner, &Case::on(Call::Open, &parts.bytes()), Some(numbers), "a header's range");
    }
    let lists = with_lists(&[&[0, 1, 0]]);
    for (at, length, numbers) in [(u64::MAX, 1, (6, 2, 0)), (u64::MAX, 0, (1, 5, 0)), (4, 0, (1, 5, 0)), (0, 4, (1, 5, 0))] {
        let mut parts = lists.clone();
        (parts.entries[0].list_at, parts.entries[0].list_len) = (at, length);
        expect(runner, &Case::on(Call::Open, &parts.bytes()), Some(numbers), "a list's range");
    }
    for (at, length, numbers) in [(u32::MAX, u32::MAX, (1, 3, 0)), (1, 0, (6, 6, 0)), (2, 0, (1, 3, 0)), (0, 2, (1, 3, 0))] {
        let mut parts = lists.clone();
        (parts.entries[0].name_at, parts.entries[0].name_len) = (at, length);
        expect(runner, &Case::on(Call::Open, &parts.bytes()), Some(numbers), "a name's range");
    }
}

fn lists(runner: &mut Runner) {
    let mut parts = with_lists(&[&[0, 1, 0]]);
    parts.entries[0].df = u32::MAX;
    let bytes = parts.bytes();
    expect(runner, &Case::on(Call::DocsWithTerm, &bytes).named(b"a"), Some((7, 5, 1)), "df larger than the list");
    expect(runner, &Case::on(Call::Df, &bytes).named(b"a"), None, "df larger than the list, not decoded");
    let empty = with_lists(&[&[]]).bytes();
    expect(runner, &Case::on(Call::DocsWithTerm, &empty).named(b"a"), Some((7, 5, 0)), "an empty list");
    // decoding goes by first mention, and no absent name stops it
    let bad = with_lists(&[&[0x80], &[0, 0]]).bytes();
    let asked: [(&[u8], &[u32], Option<Numbers>); 6] = [
        (b"ab", &[1, 2], Some((7, 5, 0))),
        (b"ba", &[1, 2], Some((6, 11, 0))),
        (b"xb", &[1, 2], Some((6, 11, 0))),
        (b"xba", &[1, 2, 3], Some((6, 11, 0))),
        (b"a", &[1], Some((7, 5, 0))),
        (b"", &[], None),
    ];
    for (text, ends, numbers) in asked {
        for (call, window) in [(Call::Phrase, 0), (Call::NearTerms, 1), (Call::NearTerms, 0)] {
            let mut case = Case::on(call, &bad).named(text).numbered(window);
            case.lists[ENDS] = ends;
            // a near question of under two names or with a window of 0 opens the segment and decodes nothing
            let idle = call == Call::NearTerms && (window == 0 || ends.len() < 2);
            expect(runner, &case, if idle { None } else { numbers }, "the order of decoding");
            expect(runner, &Case { segment: &bad[..71], ..case }, Some((1, 1, 0)), "an idle question opens");
            expect(runner, &Case { text: b"\xFF", ..case }, bad_text(ends), "an idle question checks its names");
        }
    }
}

fn bad_text(ends: &[u32]) -> Option<Numbers> {
    Some(if ends == [1] { (10, 0, 0) } else { (11, 0, 0) })
}

fn write(runner: &mut Runner, text: &[u8], lists: [&[u32]; 7], numbers: Numbers, what: &str) {
    expect(runner, &Case { text, lists, ..Case::on(Call::Write, &[]) }, Some(numbers), what);
}

fn writing(runner: &mut Runner) {
    write(runner, b"a\xFF", [&[1, 2], &[0], &[1], &[1, 1], &[0, 0], &[1, 1], &[1, 0]], (6, 21, 0), "term by term");
    write(runner, b"\xC3\xA9", [&[1, 2], &[0], &[1], &[1, 1], &[0, 0], &[1, 1], &[0, 0]], (10, 0, 0), "UTF-8 name by name");
    write(runner, b"a", [&[1], &[5], &[1], &[2], &[5, 4], &[1, 1], &[0, 0]], (6, 10, 0), "unknown before underflow");
    let wraps = [&[u32::MAX, 2][..], &[1 << 31, 1 << 31, 1], &[2, u32::MAX]];
    for counts in wraps {
        let ends: Vec<u32> = vec![0; counts.len()];
        write(runner, b"", [&ends, &[0], &[1], counts, &[0], &[1], &[0]], (11, 0, 0), "posting counts do not wrap");
        let zeros = vec![0; counts.len()];
        let n = [counts.len() as u32];
        write(runner, b"a", [&[1], &[0], &[1], &n, &zeros, counts, &[0]], (11, 0, 0), "position counts do not wrap");
    }
    write(runner, b"a", [&[], &[], &[], &[], &[], &[], &[]], (11, 0, 0), "a text without ends");
    write(runner, b"", [&[u32::MAX], &[], &[], &[0], &[], &[], &[]], (11, 0, 0), "an end past the text");
}

/// 127 to 129 different names, each on its own position: as many slots as a question can need.
fn many_names(runner: &mut Runner) {
    let name = |i: u32| vec![b'A' + (i / 16) as u8, b'a' + (i % 16) as u8];
    let terms = (0..129).map(|i| Term { name: name(i), postings: vec![Posting { id: 9, positions: vec![i, i + 200] }] });
    let given = Given { documents: vec![(4, 1), (9, 400)], terms: terms.collect() };
    let Flat { text, lists } = given.flat();
    let nothing = opened(&[]);
    let Some(answer) = runner.ask_full(&given.flat().case(), &nothing) else {
        return runner.stray("129 terms are refused".to_string());
    };
    let segment = opened(&answer.bytes);
    runner.sheets.some_of(&segment, &given, 4);
    for count in [127, 128, 129] {
        for (call, window, ordered) in [
            (Call::Phrase, 0, false),
            (Call::NearTerms, count as u32 - 1, false),
            (Call::NearTerms, count as u32 - 1, true),
            (Call::NearTerms, count as u32 - 2, false),
            (Call::NearTerms, count as u32 - 2, true),
        ] {
            let mut case = Case { ordered, ..Case::on(call, &answer.bytes).named(&text[..2 * count]).numbered(window) };
            case.lists[ENDS] = &lists[ENDS][..count];
            let hits = window as usize + 1 >= count || call == Call::Phrase;
            let met = runner.ask_full(&case, &segment).map(|answer| answer.first);
            if met != (count <= 128).then_some(hits.into()) {
                runner.stray(format!("{count} names, {}, window {window}: {met:?}", call.name()));
            }
        }
    }
}

pub fn all(runner: &mut Runner) {
    metadata(runner);
    ranges(runner);
    lists(runner);
    writing(runner);
    many_names(runner);
}
