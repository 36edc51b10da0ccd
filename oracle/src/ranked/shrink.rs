//! A pasted case tried, and a differing one made smaller for as long as it differs.

use super::compare::{full_room, lengths, Ranked};
use super::model::{found, in_room, reply, Lengths};
use crate::case::{Call, Kept, Room};
use crate::compare::opened;
use crate::given::Given;
use crate::sheet::{given_of, written, Paper};
use crate::show;
use crate::shrink::{candidates, is_large, smaller_given};
use std::process::ExitCode;
use std::time::{Duration, Instant};

const LONGEST: Duration = Duration::from_secs(60);

/// As it is pasted after `--ranked-case`; of a case that no command line holds, the length.
pub fn shown(kept: &Kept) -> String {
    if is_large(kept) {
        return format!("a segment of {} bytes, room {:?}", kept.segment.len(), lengths(kept));
    }
    format!("--ranked-case '{}'", show::shown(kept))
}

pub fn differs(ranked: &mut Ranked, kept: &Kept, room: Lengths) -> Option<String> {
    let case = kept.case();
    let found = found(&case, &opened(case.segment));
    ranked.differs(&case, &found, room)
}

/// Tries one pasted case: that of a phrase question. Without room both buffers are exactly full.
pub fn one_case(line: &str) -> ExitCode {
    let Some(kept) = show::parsed(line).filter(|kept| kept.call == Call::Phrase) else {
        eprintln!("not a case of {}: {line}", Call::Phrase.name());
        return ExitCode::from(2);
    };
    let case = kept.case();
    let found = found(&case, &opened(case.segment));
    let room = if line.contains("room=") { lengths(&kept) } else { full_room(&found) };
    match &found {
        Ok(ranking) => println!("the model: ids {:?}, counts {:?}", ranking.ids, ranking.counts),
        Err((stage, _)) => println!("the model: refused, {stage:?}"),
    }
    println!("as a reply: {:?}", reply(in_room(&found, room)));
    match Ranked::new(1).differs(&case, &found, room) {
        None => {
            println!("no difference");
            ExitCode::SUCCESS
        }
        Some(said) => {
            print!("{said}");
            ExitCode::FAILURE
        }
    }
}

/// The lists with the first half of the bars, and with the second.
fn halves(given: &Given) -> Vec<Given> {
    let (first, second) = given.documents.split_at(given.documents.len() / 2);
    let with = |documents: &[(u32, u32)]| {
        let mut half = Given { documents: documents.to_vec(), terms: given.terms.clone() };
        for term in &mut half.terms {
            term.postings.retain(|posting| documents.iter().any(|document| document.0 == posting.id));
        }
        half.terms.retain(|term| !term.postings.is_empty());
        half
    };
    [first, second].map(with).to_vec()
}

/// The same question over the segment's own lists, made smaller and written again.
fn rewritten(kept: &Kept) -> impl Iterator<Item = Kept> + '_ {
    let opened = opened(&kept.segment);
    let given = given_of(&Paper::new(&opened));
    let smaller = given.map_or(Vec::new(), |given| [halves(&given), smaller_given(&given)].concat());
    smaller.into_iter().map(|given| Kept { segment: written(&given), ..kept.clone() })
}

/// The first smaller case that still differs, with its own buffers or with ones that just fit or just do not.
fn smaller(ranked: &mut Ranked, kept: &Kept, until: Instant) -> Option<Kept> {
    for smaller in rewritten(kept).chain(std::iter::once_with(|| candidates(kept)).flatten()) {
        let [full, _] = full_room(&found(&smaller.case(), &opened(&smaller.segment)));
        let short = full.saturating_sub(1);
        let rooms = [lengths(&smaller), [full, full], [short, full], [full, short], [short, short], [full + 1, full + 1]];
        for [ids, counts] in rooms {
            let smaller = Kept { room: Room { places: [ids, counts, 0], bytes: 0 }, ..smaller.clone() };
            if smaller.size() < kept.size() && differs(ranked, &smaller, [ids, counts]).is_some() {
                return Some(smaller);
            }
        }
        if Instant::now() > until {
            break;
        }
    }
    None
}

/// Made smaller for at most so long as `LONGEST` says.
pub fn shrunk(ranked: &mut Ranked, mut kept: Kept) -> Kept {
    let until = Instant::now() + LONGEST;
    while !is_large(&kept) {
        match smaller(ranked, &kept, until) {
            Some(smaller) => kept = smaller,
            None => break,
        }
    }
    kept
}
