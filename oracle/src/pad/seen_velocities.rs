//! What the velocities of a call, or of the hits that a pad holds, can have, clause by clause.

use super::model::{place, Hit, Test, HITS, LARGEST};
use super::seen::{Clause, Facts};

fn out_of_range(velocity: u8) -> bool {
    !(1..=127).contains(&velocity)
}

/// A refusal for the velocity at one place alone: without that hit, and so without its velocity, the others would pass.
fn alone(f: &Facts, at: impl Fn(usize) -> usize) -> bool {
    let mut hits = f.given();
    if !f.refused(Test::Velocity) || hits.len() < 3 {
        return false;
    }
    let hit = hits.remove(at(hits.len()));
    out_of_range(hit.2) && f.would_pass(&hits)
}

/// Some hit twice, side by side, whose velocities are so.
fn twice(f: &Facts, is: impl Fn(u8, u8) -> bool) -> bool {
    f.next_to(|hit, next| place(&hit) == place(&next) && is(hit.2, next.2))
}

/// The lists' lengths: this one is another than the two others, which are equal.
fn odd(f: &Facts, longer: bool) -> bool {
    let others = f.sounds().len();
    let is = if longer { f.velocities().len() > others } else { f.velocities().len() < others };
    f.refused(Test::Lengths) && f.steps().len() == others && is
}

/// A refusal for a velocity behind a fault of another test, which ends before this place.
fn behind(f: &Facts, fault: impl Fn(&[Hit]) -> Option<usize>) -> bool {
    if !f.refused(Test::Velocity) {
        return false;
    }
    let hits = f.given();
    fault(&hits).is_some_and(|end| hits[..end].iter().all(|hit| !out_of_range(hit.2)))
}

fn fall_and_rise(hits: &[Hit]) -> bool {
    let any = |is: fn(&u8, &u8) -> bool| hits.windows(2).any(|pair| is(&pair[0].2, &pair[1].2));
    any(u8::lt) && any(u8::gt)
}

/// The velocities of the bar that is asked for.
fn read(f: &Facts) -> Vec<u8> {
    f.bar().filter(|_| f.ok()).map_or(Vec::new(), |bar| bar.hits.iter().map(|hit| hit.2).collect())
}

/// Bars with hits on this side of the call's id, of which saving and erasing move those behind.
fn others(f: &Facts, behind: bool) -> bool {
    let loud = |id: &u32| f.pad.map()[id].hits.len() > 1;
    f.ok() && f.pad.map().keys().any(|id| loud(id) && if behind { *id > f.id() } else { *id < f.id() })
}

pub const SAVE: &[Clause] = &[
    ("saved: velocity 1", |f| f.ok() && f.velocities().contains(&1)),
    ("saved: velocity 127", |f| f.ok() && f.velocities().contains(&127)),
    ("saved: velocities that fall and rise", |f| f.ok() && fall_and_rise(&f.given())),
    ("saved: hits before it", |f| f.new_hits() > 0 && others(f, false)),
    ("saved: hits behind it, which move", |f| f.new_hits() > 0 && others(f, true)),
    ("18 of the held bar but for its velocities", |f| {
        let bar = f.bar().filter(|bar| f.refused(Test::Held) && bar.hits.len() == f.given().len());
        bar.is_some_and(|bar| bar.hits != f.given() && bar.hits.iter().map(place).eq(f.given().iter().map(place)))
    }),
    ("12 of velocities alone", |f| f.refused(Test::LongList) && f.sounds().len().max(f.steps().len()) <= LARGEST),
    ("11, velocities longer than both others", |f| odd(f, true)),
    ("11, velocities shorter than both others", |f| odd(f, false)),
    ("11, no velocities", |f| odd(f, false) && f.velocities().is_empty()),
    ("11, velocities alone", |f| odd(f, true) && f.sounds().is_empty()),
    ("11, velocities as long as sounds, not as steps", |f| {
        f.refused(Test::Lengths) && f.velocities().len() == f.sounds().len() && f.steps().len() != f.sounds().len()
    }),
    ("11, velocities as long as steps, not as sounds", |f| {
        f.refused(Test::Lengths) && f.velocities().len() == f.steps().len() && f.steps().len() != f.sounds().len()
    }),
    ("11, three lengths", |f| {
        let [a, b, c] = [f.sounds().len(), f.steps().len(), f.velocities().len()];
        f.refused(Test::Lengths) && a != b && b != c && a != c
    }),
    ("22 of velocity 0", |f| f.refused(Test::Velocity) && f.velocities().contains(&0)),
    ("22 of velocity 128", |f| f.refused(Test::Velocity) && f.velocities().contains(&128)),
    ("22 of velocity 255", |f| f.refused(Test::Velocity) && f.velocities().contains(&255)),
    ("22 of the first hit alone", |f| alone(f, |_| 0)),
    ("22 of a middle hit alone", |f| alone(f, |n| n / 2)),
    ("22 of the last hit alone", |f| alone(f, |n| n - 1)),
    ("22 of the last of over 8,192 hits alone", |f| f.new_hits() > HITS && alone(f, |n| n - 1)),
    ("22 of 16,777,216 hits, one alone", |f| {
        let out = f.velocities().iter().filter(|velocity| out_of_range(**velocity));
        f.refused(Test::Velocity) && f.new_hits() == LARGEST && out.count() == 1
    }),
    ("22 of every hit", |f| f.refused(Test::Velocity) && f.velocities().iter().all(|velocity| out_of_range(*velocity))),
    ("22 of the only hit", |f| f.refused(Test::Velocity) && f.given().len() == 1),
    ("22 behind two hits out of order", |f| {
        behind(f, |hits| hits.windows(2).position(|pair| place(&pair[0]) >= place(&pair[1])).map(|at| at + 2))
    }),
    ("22 behind a step not below the length", |f| {
        behind(f, |hits| hits.iter().position(|hit| hit.1 >= f.length()).map(|at| at + 1))
    }),
    ("12 of a sound behind a velocity out of range", |f| {
        let high = f.sounds().iter().position(|sound| *sound > 127);
        f.refused(Test::Sound) && high.is_some_and(|at| f.velocities()[..at].iter().any(|velocity| out_of_range(*velocity)))
    }),
    ("6 20 of a hit twice with one velocity", |f| twice(f, |one, other| one == other)),
    ("6 20 of a hit twice, the second louder", |f| twice(f, |one, other| one < other)),
    ("6 20 of a hit twice, the second softer", |f| twice(f, |one, other| one > other)),
];

pub const ERASE: &[Clause] = &[
    ("erased: hits before it", |f| f.bar_hits() > 0 && others(f, false)),
    ("erased: hits behind it, which move", |f| f.bar_hits() > 0 && others(f, true)),
];

pub const READ: &[Clause] = &[
    ("read: velocity 1", |f| read(f).contains(&1)),
    ("read: velocity 127", |f| read(f).contains(&127)),
    ("read: velocities that fall and rise", |f| f.ok() && f.bar().is_some_and(|bar| fall_and_rise(&bar.hits))),
    ("read: hits before it", |f| f.bar_hits() > 0 && others(f, false)),
    ("read: hits behind it", |f| f.bar_hits() > 0 && others(f, true)),
    ("read, 13 of velocities with no places", |f| f.refused(Test::Velocities) && f.no_places(2)),
    ("read, 13 of velocities with one place too few, the others exactly full", |f| {
        f.refused(Test::Velocities) && f.spare() == [0, 0, -1]
    }),
    ("read, 13 of velocities with one place too few, the others with places left", |f| {
        f.refused(Test::Velocities) && f.spare()[0] > 0 && f.spare()[1] > 0 && f.spare()[2] == -1
    }),
    ("read, 13 of steps with one place too few, velocities too", |f| f.refused(Test::Steps) && f.spare() == [0, -1, -1]),
];

pub const WRITE: &[Clause] = &[
    ("written: hits of one sound with several velocities", |f| {
        f.ok() && f.pad.map().values().any(|bar| bar.hits.windows(2).any(|pair| pair[0].0 == pair[1].0 && pair[0].2 != pair[1].2))
    }),
    ("written: velocities 1 and 127", |f| {
        let has = |velocity| f.pad.map().values().any(|bar| bar.hits.iter().any(|hit| hit.2 == velocity));
        f.ok() && has(1) && has(127)
    }),
];
