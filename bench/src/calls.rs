//! The calls that are timed, and what they answer.
use crate::library::{self, Buffers, Reply};

/// Names as the library takes them, one text with ends, and as the Rust does.
pub struct Names {
    pub strs: Vec<&'static str>,
    pub text: Vec<u8>,
    pub ends: Vec<u32>,
}

impl Names {
    pub fn new(strs: &[&'static str]) -> Names {
        let text = strs.concat().into_bytes();
        let ends = strs
            .iter()
            .scan(0, |end, name| {
                *end += name.len() as u32;
                Some(*end)
            })
            .collect();
        Names { strs: strs.to_vec(), text, ends }
    }
}

pub enum Call {
    Open,
    DocumentLengths,
    DocumentLen(u32),
    Df(&'static str),
    DocsWithTerm(&'static str),
    TermPostings(&'static str),
    Positions(&'static str, u32),
    Phrase(Names),
    NearMatch(&'static str, &'static str, u32),
    Near(Names, u32, bool),
    /// The names of the directory, which the original does not give out, and the bar.
    BarSheet(Names, u32),
    /// A phrase, the best bars first.
    Ranked(Names),
}

impl Call {
    pub fn name(&self) -> String {
        match self {
            Call::Open => "open".into(),
            Call::DocumentLengths => "document_lengths".into(),
            Call::DocumentLen(_) => "document_len".into(),
            Call::Df(_) => "df".into(),
            Call::DocsWithTerm(_) => "docs_with_term".into(),
            Call::TermPostings(_) => "term_postings".into(),
            Call::Positions(..) => "positions".into(),
            Call::Phrase(names) => format!("phrase of {}", names.strs.len()),
            Call::NearMatch(..) => "near_match".into(),
            Call::Near(names, _, true) => format!("near of {}, ordered", names.strs.len()),
            Call::Near(names, _, false) => format!("near of {}, unordered", names.strs.len()),
            Call::BarSheet(..) => "bar_sheet".into(),
            Call::Ranked(names) => format!("ranked phrase of {}", names.strs.len()),
        }
    }
}

/// Every call, over the bars of `data`. `id` is a document in which the snare stands.
pub fn all(id: u32) -> Vec<Call> {
    let fill = crate::data::FILL;
    let three = ["kick", "snare", "open hat"];
    vec![
        Call::Open,
        Call::DocumentLengths,
        Call::DocumentLen(id),
        Call::Df("snare"),
        Call::DocsWithTerm("snare"),
        Call::TermPostings("snare"),
        Call::Positions("snare", id),
        Call::Phrase(Names::new(&fill[..2])),
        Call::Phrase(Names::new(&fill[..4])),
        Call::Phrase(Names::new(&fill)),
        Call::Near(Names::new(&three), 4, true),
        Call::Near(Names::new(&three), 4, false),
        Call::NearMatch("snare", "clap", 4),
        Call::BarSheet(Names::new(&crate::data::names()), id),
        Call::Ranked(Names::new(&fill[..2])),
        Call::Ranked(Names::new(&fill[..4])),
    ]
}

/// What a call answers: its numbers, what it lists, and what it draws.
#[derive(Debug, Default, PartialEq, Eq)]
pub struct Answer {
    pub numbers: Vec<u64>,
    pub lists: Vec<Vec<u32>>,
    pub text: Vec<u8>,
}

/// The library's answer; a refusal is a fault here.
pub fn answer(call: &Call, s: &[u8], b: &mut Buffers) -> Answer {
    let r = library::ask(call, s, b);
    answered(call, r, b)
}

/// What a reply says, with the buffers that its call filled.
pub fn answered(call: &Call, r: Reply, b: &Buffers) -> Answer {
    assert_eq!(r.kind, 0, "{} is refused: {r:?}", call.name());
    let first = r.first as usize;
    let mut text = Vec::new();
    let (numbers, lists) = match call {
        Call::Open => (vec![r.first], vec![]),
        Call::DocumentLen(_) => (vec![r.first, r.second], vec![]),
        Call::Df(_) => (vec![r.first], vec![]),
        Call::DocumentLengths | Call::Ranked(_) => (vec![], vec![b.ids[..first].to_vec(), b.seconds[..first].to_vec()]),
        Call::TermPostings(_) => {
            let positions = b.positions[..r.second as usize].to_vec();
            (vec![], vec![b.ids[..first].to_vec(), b.seconds[..first].to_vec(), positions])
        }
        Call::Positions(..) => (vec![], vec![b.positions[..first].to_vec()]),
        Call::BarSheet(..) => {
            text = b.sheet[..first].to_vec();
            (vec![], vec![])
        }
        _ => (vec![], vec![b.ids[..first].to_vec()]),
    };
    Answer { numbers, lists, text }
}
