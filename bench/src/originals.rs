//! The original, twice: with its crc32fast, and with a table in its place.

/// One module for each build of the original.
macro_rules! original {
    ($name:ident, $from:ident) => {
        pub mod $name {
            use crate::calls::{Answer, Call};
            use crate::counted::{self, Posting};
            use crate::data::Lists;
            use crate::drawn;
            use std::hint::black_box;
            use $from::positional::raw::{write_positional_segment, RawPositionalPosting, RawPositionalSegment};
            use $from::positional::{PositionalPosting, PositionalTermPostings};

            pub type Segment<'a> = RawPositionalSegment<'a>;

            pub fn open(bytes: &[u8]) -> Segment<'_> {
                RawPositionalSegment::open(bytes).expect("opens")
            }

            /// The call on an open segment; its answer is dropped.
            pub fn ask(call: &Call, s: &Segment<'_>) {
                match call {
                    Call::Open => {}
                    Call::DocumentLengths => drop(black_box(s.document_lengths())),
                    Call::DocumentLen(id) => drop(black_box(s.document_len(*id))),
                    Call::Df(t) => drop(black_box(s.df(t))),
                    Call::DocsWithTerm(t) => drop(black_box(s.docs_with_term(t).expect("decodes"))),
                    Call::TermPostings(t) => drop(black_box(s.term_postings(t).expect("decodes"))),
                    Call::Positions(t, id) => drop(black_box(s.positions(t, *id).expect("decodes"))),
                    Call::Phrase(q) => drop(black_box(s.phrase_match_strs(&q.strs).expect("decodes"))),
                    Call::NearMatch(a, b, w) => drop(black_box(s.near_match(a, b, *w).expect("decodes"))),
                    Call::Near(q, w, ordered) => {
                        drop(black_box(s.near_match_terms_strs(&q.strs, *w, *ordered).expect("decodes")))
                    }
                    Call::BarSheet(names, id) => drop(black_box(sheet(s, &names.strs, *id))),
                    Call::Ranked(q) => drop(black_box(ranked(s, &q.strs))),
                }
            }

            pub fn answer(call: &Call, s: &Segment<'_>) -> Answer {
                let mut a = Answer::default();
                match call {
                    Call::Open => a.numbers.push(s.document_lengths().len() as u64),
                    Call::DocumentLengths => {
                        a.lists.push(s.document_lengths().iter().map(|d| d.0).collect());
                        a.lists.push(s.document_lengths().iter().map(|d| d.1).collect());
                    }
                    Call::DocumentLen(id) => {
                        let length = s.document_len(*id);
                        a.numbers = vec![length.is_some() as u64, length.unwrap_or(0) as u64];
                    }
                    Call::Df(t) => a.numbers.push(s.df(t) as u64),
                    Call::DocsWithTerm(t) => a.lists.push(s.docs_with_term(t).expect("decodes")),
                    Call::TermPostings(t) => {
                        let postings = s.term_postings(t).expect("decodes");
                        a.lists.push(postings.iter().map(|p| p.doc_id).collect());
                        a.lists.push(postings.iter().map(|p| p.positions.len() as u32).collect());
                        a.lists.push(postings.iter().flat_map(|p| p.positions.iter().copied()).collect());
                    }
                    Call::Positions(t, id) => a.lists.push(s.positions(t, *id).expect("decodes")),
                    Call::Phrase(q) => a.lists.push(s.phrase_match_strs(&q.strs).expect("decodes")),
                    Call::NearMatch(x, y, w) => a.lists.push(s.near_match(x, y, *w).expect("decodes")),
                    Call::Near(q, w, ordered) => a.lists.push(s.near_match_terms_strs(&q.strs, *w, *ordered).expect("decodes")),
                    Call::BarSheet(names, id) => a.text = sheet(s, &names.strs, *id),
                    Call::Ranked(q) => {
                        let (ids, counts) = ranked(s, &q.strs).into_iter().unzip();
                        a.lists = vec![ids, counts];
                    }
                }
                a
            }

            /// What a program without `bar_sheet` does: each list decoded by the original, and the bar's lines drawn.
            fn sheet(s: &Segment<'_>, names: &[&str], id: u32) -> Vec<u8> {
                let length = s.document_len(id).expect("a bar");
                let mut sheet = drawn::first_line(id, length);
                for name in names {
                    let hits = s.positions(name, id).expect("decodes");
                    if !hits.is_empty() {
                        drawn::line(&mut sheet, name, length, &hits);
                    }
                }
                sheet
            }

            impl Posting for RawPositionalPosting {
                fn id(&self) -> u32 {
                    self.doc_id
                }

                fn positions(&self) -> &[u32] {
                    &self.positions
                }
            }

            /// What a program without a ranked answer does: the bars found by the original, each list decoded once more for the starts.
            pub fn ranked(s: &Segment<'_>, names: &[&str]) -> Vec<(u32, u32)> {
                let ids = s.phrase_match_strs(names).expect("decodes");
                best_first(s, names, Some(ids))
            }

            /// The same without the original's search: each list is decoded once, and the bars of the rarest are tried.
            pub fn ranked_at_once(s: &Segment<'_>, names: &[&str]) -> Vec<(u32, u32)> {
                best_first(s, names, None)
            }

            fn best_first(s: &Segment<'_>, names: &[&str], ids: Option<Vec<u32>>) -> Vec<(u32, u32)> {
                let mut different = names.to_vec();
                different.sort_unstable();
                different.dedup();
                let lists: Vec<_> = different.iter().map(|name| s.term_postings(name).expect("decodes")).collect();
                let of = |name: &&str| &lists[different.binary_search(name).expect("one of them")][..];
                let each: Vec<&[RawPositionalPosting]> = names.iter().map(of).collect();
                let mut found = match ids {
                    Some(ids) => counted::counted(ids, &each),
                    None => {
                        let rarest = lists.iter().min_by_key(|list| list.len()).expect("a name");
                        counted::counted(rarest.iter().map(|posting| posting.doc_id), &each)
                    }
                };
                counted::sort(&mut found);
                found
            }

            /// What the original's writer takes, over the same lists.
            pub struct Given<'a> {
                documents: Vec<(u32, u32)>,
                terms: Vec<PositionalTermPostings<'a>>,
            }

            pub fn given(l: &Lists) -> Given<'_> {
                let documents = l.ids.iter().copied().zip(l.lengths.iter().copied()).collect();
                let text = std::str::from_utf8(&l.text).expect("UTF-8");
                let (mut name, mut posting, mut position) = (0, 0, 0);
                let mut terms = Vec::with_capacity(l.ends.len());
                for (&end, &count) in l.ends.iter().zip(&l.posting_counts) {
                    let mut postings = Vec::with_capacity(count as usize);
                    for _ in 0..count {
                        let to = position + l.position_counts[posting] as usize;
                        postings
                            .push(PositionalPosting { doc_id: l.posting_ids[posting], positions: &l.positions[position..to] });
                        posting += 1;
                        position = to;
                    }
                    terms.push(PositionalTermPostings { term: &text[name..end as usize], postings });
                    name = end as usize;
                }
                Given { documents, terms }
            }

            pub fn write(g: &Given<'_>) -> Vec<u8> {
                write_positional_segment(&g.documents, &g.terms).expect("written")
            }
        }
    };
}

original!(fast, postings_fast);
original!(table, postings_table);
