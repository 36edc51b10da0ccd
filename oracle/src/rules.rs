//! Demand 3's rules, tried over the lists handed in as its words have them: nothing here knows of a segment.
//!
//! Phrase: some start has sound i on start + i. Ordered near: strictly rising steps, one for each sound in turn, last minus
//! first at most the window. Unordered near: some window + 1 consecutive steps hold each different sound at least as often as
//! it is named.

use crate::given::Given;

#[derive(Clone, Copy, Debug)]
pub enum Rule {
    Phrase,
    Ordered(u32),
    Unordered(u32),
}

/// Whether demand 3 speaks of such a question.
pub fn speaks_of(rule: Rule, names: usize) -> bool {
    match rule {
        Rule::Phrase => (1..=128).contains(&names),
        Rule::Ordered(window) | Rule::Unordered(window) => (2..=128).contains(&names) && window >= 1,
    }
}

/// The ids of the documents handed in whose own steps meet the question.
pub fn meeting(given: &Given, names: &[&[u8]], rule: Rule) -> Vec<u32> {
    let mut ids = Vec::new();
    for (id, length) in &given.documents {
        let own: Vec<Vec<u64>> = names.iter().map(|name| given.own(name, *id).into_iter().map(u64::from).collect()).collect();
        let meets = match rule {
            Rule::Phrase => phrase(&own),
            Rule::Ordered(window) => ordered(&own, window.into()),
            Rule::Unordered(window) => unordered(names, &own, window.into(), (*length).into()),
        };
        if meets {
            ids.push(*id);
        }
    }
    ids
}

fn phrase(own: &[Vec<u64>]) -> bool {
    // a start is itself a step of sound 0
    own[0].iter().any(|start| own.iter().enumerate().all(|(i, steps)| steps.contains(&(start + i as u64))))
}

fn ordered(own: &[Vec<u64>], window: u64) -> bool {
    let choices = own.iter().fold(1usize, |n, steps| n.saturating_mul(steps.len()));
    own[0].iter().any(|first| {
        if choices <= 4096 {
            chosen(&own[1..], *first, *first, window)
        } else {
            reached(&own[1..], *first, window)
        }
    })
}

/// Every choice of rising steps, one after the other.
fn chosen(rest: &[Vec<u64>], first: u64, last: u64, window: u64) -> bool {
    let Some((steps, rest)) = rest.split_first() else {
        return last - first <= window;
    };
    steps.iter().any(|step| *step > last && chosen(rest, first, *step, window))
}

/// The same where the choices are too many: all the steps on which a choice can end, sound by sound.
fn reached(rest: &[Vec<u64>], first: u64, window: u64) -> bool {
    let mut ends = vec![first];
    for steps in rest {
        ends = steps.iter().copied().filter(|step| ends.iter().any(|end| end < step)).collect();
    }
    ends.iter().any(|last| last - first <= window)
}

fn unordered(names: &[&[u8]], own: &[Vec<u64>], window: u64, length: u64) -> bool {
    let holds = |start: u64| {
        names.iter().zip(own).all(|(name, steps)| {
            let named = names.iter().filter(|other| *other == name).count();
            steps.iter().filter(|step| (start..=start + window).contains(*step)).count() >= named
        })
    };
    if length <= 64 {
        (0..=length).any(holds)
    } else {
        // window + 1 steps that hold a sound can begin on the first one that they hold
        own.iter().flatten().any(|start| holds(*start))
    }
}
