//! Random bars: what is written is read back, and every question is answered as its rule says, worked out from the bars in the plainest
//! way.

mod common;

use std::collections::{BTreeMap, BTreeSet};

use common::Random;
use pstp::{
    write_positional_segment, PositionalPosting, PositionalTermPostings, RawPositionalPosting,
    RawPositionalSegment,
};

const NAMES: [&str; 5] = ["a", "ab", "b", "h\u{e4}t", "\u{3ba}\u{1f79}"];

/// Lengths of bars; hits by sound, then bar.
struct Bars {
    lengths: Vec<(u32, u32)>,
    hits: BTreeMap<&'static str, BTreeMap<u32, Vec<u32>>>,
}

impl Bars {
    fn some(random: &mut Random) -> Self {
        let mut lengths = Vec::new();
        let mut hits: BTreeMap<_, BTreeMap<_, _>> = BTreeMap::new();
        let mut id = random.below(200);
        let density = 1 + random.below(4);
        for _ in 0..random.below(6) {
            let length = random.below(12);
            lengths.push((id, length));
            for name in NAMES {
                let steps: Vec<u32> = (0..length).filter(|_| random.below(5) < density).collect();
                if !steps.is_empty() && random.below(4) > 0 {
                    hits.entry(name).or_default().insert(id, steps);
                }
            }
            id += 1 + random.below(3) * random.below(100_000);
        }
        Self { lengths, hits }
    }

    fn written(&self) -> Vec<u8> {
        let terms: Vec<_> = self
            .hits
            .iter()
            .map(|(term, postings)| PositionalTermPostings {
                term,
                postings: postings
                    .iter()
                    .map(|(&doc_id, positions)| PositionalPosting { doc_id, positions })
                    .collect(),
            })
            .collect();
        write_positional_segment(&self.lengths, &terms).unwrap()
    }

    fn own(&self, name: &str, id: u32) -> &[u32] {
        self.hits
            .get(name)
            .and_then(|bars| bars.get(&id))
            .map_or(&[], Vec::as_slice)
    }

    fn meeting(&self, rule: impl Fn(u32) -> bool) -> Vec<u32> {
        self.lengths
            .iter()
            .map(|&(id, _)| id)
            .filter(|&id| rule(id))
            .collect()
    }

    /// At how many starts the phrase fits.
    fn starts(&self, names: &[&str], id: u32) -> u32 {
        let fits = |&start: &u32| {
            names
                .iter()
                .zip(start..)
                .all(|(name, step)| self.own(name, id).contains(&step))
        };
        (0..12).filter(fits).count() as u32
    }

    /// The bars that have the phrase, most starts first, then by id.
    fn ranked(&self, names: &[&str]) -> Vec<(u32, u32)> {
        let found = self.meeting(|id| self.starts(names, id) > 0);
        let mut ranked: Vec<_> = found
            .iter()
            .map(|&id| (id, self.starts(names, id)))
            .collect();
        ranked.sort_by_key(|&(id, starts)| (u32::MAX - starts, id));
        ranked
    }

    /// Some rising choice of steps, one for each sound in turn, the last at most `end`.
    fn rising(&self, names: &[&str], id: u32, from: u32, end: u32) -> bool {
        names.split_first().is_none_or(|(name, rest)| {
            self.own(name, id)
                .iter()
                .any(|&step| step >= from && step <= end && self.rising(rest, id, step + 1, end))
        })
    }

    fn ordered(&self, names: &[&str], window: u32, id: u32) -> bool {
        self.own(names[0], id)
            .iter()
            .any(|&first| self.rising(&names[1..], id, first + 1, first + window))
    }

    fn unordered(&self, names: &[&str], window: u32, id: u32) -> bool {
        let different: BTreeSet<_> = names.iter().collect();
        (0..12).any(|start| {
            different.iter().all(|&name| {
                let span = start..=start + window;
                let seen = self
                    .own(name, id)
                    .iter()
                    .filter(|step| span.contains(step))
                    .count();
                seen >= names.iter().filter(|other| *other == name).count()
            })
        })
    }
}

#[test]
fn as_the_rules_say() {
    let mut random = Random(0x9E37_79B9_7F4A_7C15);
    let (mut questions, mut answers) = (0, 0);
    for _ in 0..2000 {
        let bars = Bars::some(&mut random);
        let bytes = bars.written();
        let segment = RawPositionalSegment::open(&bytes).unwrap();
        assert_eq!(segment.document_lengths().unwrap(), bars.lengths);
        assert_eq!(segment.term_count() as usize, bars.hits.len());
        for name in NAMES {
            let postings: Vec<_> = bars.hits.get(name).into_iter().flatten().collect();
            let want: Vec<_> = postings
                .iter()
                .map(|&(&doc_id, positions)| RawPositionalPosting {
                    doc_id,
                    positions: positions.clone(),
                })
                .collect();
            assert_eq!(segment.term_postings(name).unwrap(), want);
            assert_eq!(segment.df(name).unwrap() as usize, want.len());
            let ids: Vec<_> = want.iter().map(|posting| posting.doc_id).collect();
            assert_eq!(segment.docs_with_term(name).unwrap(), ids);
        }
        for &(id, length) in &bars.lengths {
            assert_eq!(segment.document_len(id).unwrap(), Some(length));
            assert_eq!(segment.positions("ab", id).unwrap(), bars.own("ab", id));
        }
        for _ in 0..8 {
            let names: Vec<_> = (0..2 + random.below(3))
                .map(|_| NAMES[random.below(5) as usize])
                .collect();
            let window = 1 + random.below(9);
            let phrase = bars.meeting(|id| bars.starts(&names, id) > 0);
            let ordered = bars.meeting(|id| bars.ordered(&names, window, id));
            let unordered = bars.meeting(|id| bars.unordered(&names, window, id));
            assert_eq!(segment.phrase_match_strs(&names).unwrap(), phrase);
            for names in [&names[..], &names[..1]] {
                assert_eq!(
                    segment.phrase_match_ranked(names).unwrap(),
                    bars.ranked(names)
                );
            }
            assert_eq!(
                segment.near_match_terms_strs(&names, window, true).unwrap(),
                ordered
            );
            assert_eq!(
                segment
                    .near_match_terms_strs(&names, window, false)
                    .unwrap(),
                unordered
            );
            if let [a, b] = names[..] {
                assert_eq!(segment.near_match(a, b, window).unwrap(), unordered);
            }
            questions += 3;
            answers += phrase.len() + ordered.len() + unordered.len();
        }
    }
    assert!(
        answers > questions / 4,
        "{answers} answers to {questions} questions"
    );
    println!("{answers} answers to {questions} questions");
}

#[test]
fn answers_larger_than_the_first_room() {
    let positions: Vec<u32> = (0..1_500_000).collect();
    let hit = |doc_id| PositionalPosting {
        doc_id,
        positions: &positions,
    };
    let terms = [
        PositionalTermPostings {
            term: "a",
            postings: vec![hit(1), hit(2), hit(9)],
        },
        PositionalTermPostings {
            term: "b",
            postings: vec![hit(9)],
        },
    ];
    let bytes = write_positional_segment(&[(1, 1_500_000), (2, 1_500_000), (9, 1_500_000)], &terms)
        .unwrap();
    assert!(bytes.len() > 6_000_000);
    let segment = RawPositionalSegment::open(&bytes).unwrap();
    assert_eq!(segment.positions("b", 9).unwrap(), positions);
    let postings = segment.term_postings("a").unwrap();
    assert_eq!(
        postings
            .iter()
            .map(|posting| posting.doc_id)
            .collect::<Vec<_>>(),
        [1, 2, 9]
    );
    assert!(postings
        .iter()
        .all(|posting| posting.positions == positions));
    assert_eq!(segment.phrase_match_strs(&["a", "b"]).unwrap(), [9]);
}
