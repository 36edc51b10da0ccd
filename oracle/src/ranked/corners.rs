//! Where one test meets another: the order of refusals, 128 names, names that nothing has, the ends of u32, lists that cannot be decoded.

use super::compare::{question, Ranked};
use super::worked::{expect, Expected};
use crate::bars::term;
use crate::compare::opened;
use crate::given::{Given, Posting, Term};
use crate::parts::Parts;
use crate::sheet::written;

/// A list whose first number has no end.
const NO_LIST: &[u8] = &[0x80];

const NOTHING: Expected = Ok((&[], &[]));
const NO_END: Expected = Err((7, 5, 0));

/// Two bars with the sounds a, b and c, of which some lists cannot be decoded: cut, or with a wrong checksum.
fn segment(cut: &[usize], forged: &[usize]) -> Vec<u8> {
    let given = Given {
        documents: vec![(4, 3), (6, 9)],
        terms: ["a", "b", "c"].map(|name| term(name, &[(4, &[0, 1, 2]), (6, &[0, 1, 2, 3, 8])])).to_vec(),
    };
    let mut parts = Parts::of(&written(&given)).unwrap_or(Parts::empty());
    for place in cut {
        parts.put_list(*place, NO_LIST);
    }
    parts.sign_lists();
    for place in forged {
        parts.entries[*place].checksum ^= 1;
    }
    parts.bytes()
}

/// Decoding goes by first mention; nothing absent or impossible stops it, and no names decode nothing.
fn decoding(ranked: &mut Ranked) {
    const FORGED: Expected = Err((5, 6, 0));
    let both = segment(&[0], &[1]);
    expect(ranked, &both, &[], None, NOTHING);
    expect(ranked, &both, &["a", "b"], None, NO_END);
    expect(ranked, &both, &["b", "a"], None, FORGED);
    expect(ranked, &both, &["c", "b", "a"], None, FORGED);
    expect(ranked, &both, &["x", "", "b"], None, FORGED);
    expect(ranked, &both, &["c", "x", "c", "a"], Some([0, 0]), NO_END);
    expect(ranked, &both, &["c"], None, Ok((&[6, 4], &[5, 3])));
    let mut long = vec!["c"; 127];
    long.push("b");
    expect(ranked, &both, &long, None, FORGED);
    // the bar has no room for the phrase, and there is none for the answer: decoded all the same
    let cut = segment(&[2], &[]);
    expect(ranked, &cut, &["a", "a", "a", "a", "c"], Some([0, 0]), NO_END);
    expect(ranked, &cut, &["a", "b", "a"], None, Ok((&[6, 4], &[2, 1])));
    expect(ranked, &cut, &["a", "b", "a"], Some([1, 0]), Err((13, 1, 2)));
    expect(ranked, &cut, &["a", "b", "a"], Some([2, 1]), Err((13, 2, 2)));
}

/// Names that nothing has, and phrases longer than a bar.
fn names(ranked: &mut Ranked) {
    let whole = segment(&[], &[]);
    for names in [&[""][..], &["", ""], &["a", ""], &["", "a"], &["x"], &["a", "x", "b"], &["aa"], &["A"]] {
        expect(ranked, &whole, names, None, NOTHING);
        expect(ranked, &whole, names, Some([0, 0]), NOTHING);
    }
    expect(ranked, &whole, &["a"; 3], None, Ok((&[6, 4], &[2, 1])));
    expect(ranked, &whole, &["a"; 4], None, Ok((&[6], &[1])));
    expect(ranked, &whole, &["a"; 5], None, NOTHING);
    expect(ranked, &whole, &["a"; 10], None, NOTHING);
    expect(ranked, &whole, &["a"; 128], None, NOTHING);
    expect(ranked, &whole, &["a"; 129], None, Err((12, 0, 0)));
    expect(ranked, &Parts::empty().bytes(), &["a"], None, NOTHING);
    expect(ranked, &Parts::empty().bytes(), &[], None, NOTHING);
}

/// 12, then 11, then 10, then opening: each with all that comes behind it failing too.
fn order(ranked: &mut Ranked) {
    let broken = segment(&[0, 1, 2], &[]);
    let too_many: Vec<u32> = (1..=129).rev().collect();
    let all: [(&[u8], &[u32], (u32, u32, u64)); 8] = [
        (b"a\xFF", &too_many, (12, 0, 0)),
        (b"a\xFF", &[2, 1], (11, 0, 0)),
        (b"a\xFF", &[1], (11, 0, 0)),
        (b"a", &[], (11, 0, 0)),
        (b"", &[u32::MAX], (11, 0, 0)),
        (b"a\xFF", &[1, 2], (10, 0, 0)),
        (b"\xC3\xA9", &[1, 2], (10, 0, 0)),
        (b"a", &[1], (1, 1, 0)),
    ];
    for (text, ends, numbers) in all {
        for segment in [&broken[..71], &broken] {
            let found = ranked.every_room(&question(segment, text, ends));
            let numbers = if numbers == (1, 1, 0) && segment.len() > 71 { (7, 5, 0) } else { numbers };
            let told = found.as_ref().err().map(|(_, refusal)| (refusal.kind, refusal.which, refusal.index));
            if told != Some(numbers) {
                ranked.stray(format!("{text:?} {ends:?}: {told:?} instead of {numbers:?}"));
            }
        }
    }
    let text = vec![b'a'; 16_777_217];
    for (length, numbers) in [(16_777_216, None), (16_777_217, Some(12))] {
        let found = ranked.every_room(&question(&segment(&[], &[]), &text[..length], &[length as u32]));
        if found.as_ref().err().map(|(_, refusal)| refusal.kind) != numbers {
            ranked.stray(format!("a name of {length} bytes: {found:?}"));
        }
    }
}

/// 127 to 129 different names, each on its own position twice over; and one name as often.
fn many_names(ranked: &mut Ranked) {
    let name = |i: u32| String::from_utf8(vec![b'A' + (i / 16) as u8, b'a' + (i % 16) as u8]).expect("letters");
    let all: Vec<String> = (0..129).map(name).collect();
    let terms = (0..129).map(|i| Term {
        name: name(i).into_bytes(),
        postings: vec![Posting { id: 3, positions: vec![i] }, Posting { id: 9, positions: vec![i, i + 200] }],
    });
    let different = written(&Given { documents: vec![(3, 129), (4, 1), (9, 400)], terms: terms.collect() });
    let run: Vec<u32> = (0..300).collect();
    let one = written(&Given { documents: vec![(1, 300), (2, 200)], terms: vec![term("a", &[(1, &run), (2, &run[..200])])] });
    for count in [1, 2, 127, 128, 129usize] {
        let names: Vec<&str> = all[..count].iter().map(|name| &name[..]).collect();
        let starts = [301 - count as u32, 201 - count as u32];
        let over = Err((12, 0, 0));
        expect(ranked, &different, &names, None, if count > 128 { over } else { Ok((&[9, 3], &[2, 1])) });
        expect(ranked, &one, &vec!["a"; count], None, if count > 128 { over } else { Ok((&[1, 2], &starts)) });
    }
}

/// Positions at the end of u32, from which a phrase would run past it to where names stand again.
fn ends_of_numbers(ranked: &mut Ranked) {
    const LAST: u32 = u32::MAX - 1;
    let given = Given {
        documents: vec![(0, u32::MAX), (1, 8), (LAST, u32::MAX), (u32::MAX, u32::MAX)],
        terms: vec![
            term("a", &[(0, &[LAST - 2, LAST - 1, LAST]), (1, &[6, 7]), (LAST, &[LAST]), (u32::MAX, &[0, 1, LAST - 1, LAST])]),
            term("b", &[(0, &[0, 1, LAST - 1, LAST]), (LAST, &[0, 1, 2, LAST]), (u32::MAX, &[0, LAST])]),
        ],
    };
    let segment = written(&given);
    expect(ranked, &segment, &["a"], None, Ok((&[u32::MAX, 0, 1, LAST], &[4, 3, 2, 1])));
    expect(ranked, &segment, &["b"], None, Ok((&[0, LAST, u32::MAX], &[4, 4, 2])));
    expect(ranked, &segment, &["a", "a"], None, Ok((&[0, u32::MAX, 1], &[2, 2, 1])));
    expect(ranked, &segment, &["a", "b"], None, Ok((&[0, u32::MAX], &[2, 1])));
    expect(ranked, &segment, &["a", "a", "b"], None, Ok((&[0], &[1])));
    expect(ranked, &segment, &["a", "a", "b", "b"], None, NOTHING);
    expect(ranked, &segment, &["b", "a"], None, Ok((&[0, u32::MAX], &[1, 1])));
    for count in 1..=6 {
        let text = vec![b'a'; count];
        let ends: Vec<u32> = (1..=count as u32).collect();
        drop(ranked.ask(&question(&segment, &text, &ends), &opened(&segment), Some(&given)));
    }
}

/// Ids on both sides of every width's edge, all with one count: compared as numbers of 32 bits without sign.
fn ties_at_edges(ranked: &mut Ranked) {
    let ids = [0, 1, 127, 128, 255, 256, 65_535, 65_536, (1 << 31) - 1, 1 << 31, (1 << 31) + 1, u32::MAX - 1, u32::MAX];
    let given = Given {
        documents: ids.map(|id| (id, 4)).to_vec(),
        terms: vec![Term { name: b"a".to_vec(), postings: ids.map(|id| Posting { id, positions: vec![1, 2] }).to_vec() }],
    };
    let segment = written(&given);
    expect(ranked, &segment, &["a"], None, Ok((&ids, &vec![2; ids.len()])));
    expect(ranked, &segment, &["a", "a"], None, Ok((&ids, &vec![1; ids.len()])));
}

pub fn all(ranked: &mut Ranked) {
    decoding(ranked);
    names(ranked);
    order(ranked);
    many_names(ranked);
    ends_of_numbers(ranked);
    ties_at_edges(ranked);
}
