//! What a call on a pad can have, clause by clause: each has to be reached.

use super::call::{Call, Lists};
use super::compare::Pad;
use super::model::{hits_in, place, Bar, Hit, Test, Told, BARS, HITS, LARGEST};
use super::{seen_hits, seen_names, seen_velocities};

/// A call, before the pad is changed.
pub struct Facts<'a> {
    pub pad: &'a Pad,
    pub call: &'a Call,
    pub told: &'a Told,
    pub bars: usize,
    pub hits: usize,
    /// how many held ids are below the call's, and whether it is held
    below: usize,
    held: bool,
}

pub type Clause = (&'static str, fn(&Facts) -> bool);

/// By call its clauses, and behind them those of the velocities.
pub const TABLES: [[&[Clause]; 2]; 5] = [
    [SAVE, seen_velocities::SAVE],
    [ERASE, seen_velocities::ERASE],
    [READ, seen_velocities::READ],
    [seen_names::WRITE, seen_velocities::WRITE],
    [seen_hits::HITS_ASKED, &[]],
];

impl<'a> Facts<'a> {
    pub fn new(pad: &'a Pad, call: &'a Call, told: &'a Told) -> Self {
        let map = pad.map();
        let id = match call {
            Call::Save { id, .. } | Call::Erase { id } | Call::Read { id, .. } => *id,
            Call::Write { .. } | Call::Hits => 0,
        };
        let (below, held) = (map.range(..id).count(), map.contains_key(&id));
        Facts { pad, call, told, bars: map.len(), hits: hits_in(map), below, held }
    }

    pub fn ok(&self) -> bool {
        self.told.is_ok()
    }

    pub fn refused(&self, test: Test) -> bool {
        self.told.as_ref().is_err_and(|refused| refused.failing[0] == test)
    }

    pub fn id(&self) -> u32 {
        match self.call {
            Call::Save { id, .. } | Call::Erase { id } | Call::Read { id, .. } => *id,
            Call::Write { .. } | Call::Hits => 0,
        }
    }

    /// The length that is saved.
    pub fn length(&self) -> u32 {
        if let Call::Save { length, .. } = self.call {
            *length
        } else {
            0
        }
    }

    pub fn sounds(&self) -> &[u8] {
        lists(self.call).map_or(&[], |lists| &lists.sounds)
    }

    pub fn steps(&self) -> &[u32] {
        lists(self.call).map_or(&[], |lists| &lists.steps)
    }

    pub fn velocities(&self) -> &[u8] {
        lists(self.call).map_or(&[], |lists| &lists.velocities)
    }

    /// The hits that are saved, as far as all three lists have them.
    pub fn given(&self) -> Vec<Hit> {
        lists(self.call).map_or(Vec::new(), Lists::hits)
    }

    pub fn new_hits(&self) -> usize {
        self.sounds().len()
    }

    /// The held bar that is asked for.
    pub fn bar(&self) -> Option<&Bar> {
        self.pad.map().get(&self.id())
    }

    pub fn bar_hits(&self) -> usize {
        self.bar().map_or(0, |bar| bar.hits.len())
    }

    /// The places that reading back has for sounds, for steps and for velocities, less those that it needs.
    pub fn spare(&self) -> [i64; 3] {
        let room = if let Call::Read { room, .. } = self.call { *room } else { [0; 3] };
        room.map(|places| places as i64 - self.bar_hits() as i64)
    }

    /// Some list has places left, and all that have not are exactly full.
    fn left_in(&self, lists: [bool; 3]) -> bool {
        self.ok() && self.spare().iter().zip(lists).all(|(spare, left)| (*spare > 0) == left)
    }

    pub fn no_places(&self, buffer: usize) -> bool {
        matches!(self.call, Call::Read { room, .. } if room[buffer] == 0)
    }

    fn first(&self) -> bool {
        self.ok() && self.bars > 1 && self.below == 0
    }

    fn last(&self) -> bool {
        self.ok() && self.bars > 1 && self.held && self.below + 1 == self.bars
    }

    fn inner(&self) -> bool {
        self.ok() && self.below > 0 && self.below + 1 < self.bars
    }

    fn several_erased(&self) -> bool {
        self.pad.erased.is_some_and(|erased| erased > 1)
    }

    pub fn free_words(&self) -> bool {
        let used = 2 + 3 * self.bars + 2 * self.hits;
        self.ok() && self.pad.words[used..].iter().any(|word| *word != 0)
    }

    /// Whether these two of the lists' hits, side by side, are so; only of a save with a fault of order.
    pub fn next_to(&self, is: impl Fn(Hit, Hit) -> bool) -> bool {
        self.refused(Test::Order) && self.given().windows(2).any(|pair| is(pair[0], pair[1]))
    }

    /// All but the last hit would pass.
    pub fn last_alone(&self) -> bool {
        let mut hits = self.given();
        hits.pop().is_some() && !hits.is_empty() && self.would_pass(&hits)
    }

    pub fn would_pass(&self, hits: &[Hit]) -> bool {
        let each = |hit: &Hit| hit.0 < 128 && hit.1 < self.length() && (1..128).contains(&hit.2);
        hits.iter().all(each) && hits.windows(2).all(|pair| place(&pair[0]) < place(&pair[1]))
    }
}

fn lists(call: &Call) -> Option<&Lists> {
    if let Call::Save { lists, .. } = call {
        Some(lists)
    } else {
        None
    }
}

const SAVE: &[Clause] = &[
    ("saved: a bar without hits", |f| f.ok() && f.new_hits() == 0),
    ("saved: a bar without hits where 8,192 are held", |f| f.ok() && f.new_hits() == 0 && f.hits == HITS),
    ("saved: length 0", |f| f.ok() && f.length() == 0),
    ("saved: length 1 with a hit", |f| f.ok() && f.length() == 1 && f.new_hits() > 0),
    ("saved: length 2^32 - 1", |f| f.ok() && f.length() == u32::MAX),
    ("saved: id 0", |f| f.ok() && f.id() == 0),
    ("saved: id 2^32 - 1", |f| f.ok() && f.id() == u32::MAX),
    ("saved: sound 0", |f| f.ok() && f.sounds().contains(&0)),
    ("saved: sound 127", |f| f.ok() && f.sounds().contains(&127)),
    ("saved: a hit on the bar's last step", |f| f.ok() && f.steps().iter().any(|step| *step == f.length() - 1)),
    ("saved: a hit on step 2^32 - 2", |f| f.ok() && f.steps().contains(&(u32::MAX - 1))),
    ("saved: on an empty pad", |f| f.ok() && f.bars == 0),
    ("saved: before all other bars", |f| f.ok() && f.bars > 0 && f.below == 0),
    ("saved: between two bars", |f| f.ok() && f.below > 0 && f.below < f.bars),
    ("saved: behind all other bars", |f| f.ok() && f.bars > 0 && f.below == f.bars),
    ("saved: the 256th bar", |f| f.ok() && f.bars == BARS - 1),
    ("saved: hits up to 8,192 exactly", |f| f.ok() && f.new_hits() > 0 && f.hits + f.new_hits() == HITS),
    ("saved: 8,192 hits in one bar", |f| f.ok() && f.new_hits() == HITS),
    ("saved: 256 bars and 8,192 hits with it", |f| f.ok() && f.bars == BARS - 1 && f.hits + f.new_hits() == HITS),
    ("saved: 8,192 hits again, after several bars were erased", |f| {
        f.ok() && f.several_erased() && f.new_hits() > 0 && f.hits + f.new_hits() == HITS
    }),
    ("saved: 256 bars again, after several bars were erased", |f| f.ok() && f.several_erased() && f.bars == BARS - 1),
    ("saved: on free words that are not 0", |f| f.free_words()),
    ("18 of a bar without hits", |f| f.refused(Test::Held) && f.bar_hits() == 0),
    ("18 with the very bar that is held", |f| f.refused(Test::Held) && f.bar().is_some_and(|bar| same_bar(f, bar))),
    ("12 of sounds alone", |f| f.refused(Test::LongList) && f.steps().len().max(f.velocities().len()) <= LARGEST),
    ("12 of steps alone", |f| f.refused(Test::LongList) && f.new_hits().max(f.velocities().len()) <= LARGEST),
    ("11, sounds longer", |f| f.refused(Test::Lengths) && f.new_hits() > f.steps().len()),
    ("11, steps longer", |f| f.refused(Test::Lengths) && f.new_hits() < f.steps().len()),
    ("11, no sounds", |f| f.refused(Test::Lengths) && f.new_hits() == 0),
    ("11, no steps", |f| f.refused(Test::Lengths) && f.steps().is_empty()),
    ("12 of sound 128", |f| f.refused(Test::Sound) && f.sounds().contains(&128)),
    ("12 of sound 255", |f| f.refused(Test::Sound) && f.sounds().contains(&255)),
    ("12 of the last sound alone", |f| f.refused(Test::Sound) && f.last_alone()),
    ("6 20 of a hit twice", |f| f.next_to(|hit, next| place(&hit) == place(&next))),
    ("6 20 of a lower step of one sound", |f| f.next_to(|hit, next| hit.0 == next.0 && hit.1 > next.1)),
    ("6 20 of a lower sound on a higher step", |f| f.next_to(|hit, next| hit.0 > next.0 && hit.1 < next.1)),
    ("6 20 of the last hit alone", |f| f.refused(Test::Order) && f.last_alone()),
    ("6 21 of a step equal to the length", |f| f.refused(Test::Step) && f.steps().contains(&f.length())),
    ("6 21 of step 2^32 - 1", |f| f.refused(Test::Step) && f.steps().contains(&u32::MAX)),
    ("6 21 of length 0", |f| f.refused(Test::Step) && f.length() == 0),
    ("6 21 of the last hit alone", |f| f.refused(Test::Step) && f.last_alone()),
    ("19 of 256 bars, with hits to spare", |f| f.refused(Test::Full) && f.bars == BARS && f.hits + f.new_hits() <= HITS),
    ("19 of 256 bars, for a bar without hits", |f| f.refused(Test::Full) && f.bars == BARS && f.new_hits() == 0),
    ("19 of one hit too many, with bars to spare", |f| {
        f.refused(Test::Full) && f.bars < BARS && f.hits + f.new_hits() == HITS + 1
    }),
    ("19 of one hit too many, after several bars were erased", |f| {
        f.refused(Test::Full) && f.several_erased() && f.bars < BARS && f.hits + f.new_hits() == HITS + 1
    }),
    ("19 of 8,193 hits on an empty pad", |f| f.refused(Test::Full) && f.bars == 0 && f.new_hits() == HITS + 1),
    ("19 of bars and of hits", |f| f.refused(Test::Full) && f.bars == BARS && f.hits + f.new_hits() > HITS),
    ("19 of 16,777,216 hits that are within the rules", |f| f.refused(Test::Full) && f.new_hits() == LARGEST),
];

fn same_bar(f: &Facts, bar: &Bar) -> bool {
    bar.length == f.length() && Lists::of(&bar.hits).lengths() == [f.new_hits(); 3] && bar.hits == f.given()
}

const ERASE: &[Clause] = &[
    ("erased: the only bar", |f| f.ok() && f.bars == 1),
    ("erased: the first of several", |f| f.first()),
    ("erased: between two", |f| f.inner()),
    ("erased: the last of several", |f| f.last()),
    ("erased: a bar without hits", |f| f.ok() && f.bar_hits() == 0),
    ("erased: one of 256 bars", |f| f.ok() && f.bars == BARS),
    ("erased: of 8,192 hits", |f| f.ok() && f.hits == HITS),
    ("erased: all 8,192 hits at once", |f| f.ok() && f.bar_hits() == HITS),
    ("erased: id 0", |f| f.ok() && f.id() == 0),
    ("erased: id 2^32 - 1", |f| f.ok() && f.id() == u32::MAX),
    ("erased: with free words that are not 0", |f| f.free_words()),
    ("erase, 16 of an empty pad", |f| f.refused(Test::Unknown) && f.bars == 0),
    ("erase, 16 below all ids", |f| f.refused(Test::Unknown) && f.bars > 0 && f.below == 0),
    ("erase, 16 between two", |f| f.refused(Test::Unknown) && f.below > 0 && f.below < f.bars),
    ("erase, 16 above all ids", |f| f.refused(Test::Unknown) && f.bars > 0 && f.below == f.bars),
];

const READ: &[Clause] = &[
    ("read: no hits, no places", |f| f.bar_hits() == 0 && f.left_in([false, false, false])),
    ("read: no hits, places left", |f| f.bar_hits() == 0 && f.left_in([true, true, true])),
    ("read: all lists exactly full", |f| f.bar_hits() > 0 && f.left_in([false, false, false])),
    ("read: all with places left", |f| f.bar_hits() > 0 && f.left_in([true, true, true])),
    ("read: sounds with places left, the others exactly full", |f| f.bar_hits() > 0 && f.left_in([true, false, false])),
    ("read: steps with places left, the others exactly full", |f| f.bar_hits() > 0 && f.left_in([false, true, false])),
    ("read: velocities with places left, the others exactly full", |f| f.bar_hits() > 0 && f.left_in([false, false, true])),
    ("read: sounds exactly full, the others with places left", |f| f.bar_hits() > 0 && f.left_in([false, true, true])),
    ("read: steps exactly full, the others with places left", |f| f.bar_hits() > 0 && f.left_in([true, false, true])),
    ("read: velocities exactly full, the others with places left", |f| f.bar_hits() > 0 && f.left_in([true, true, false])),
    ("read: the first of several", |f| f.first()),
    ("read: between two", |f| f.inner()),
    ("read: the last of several", |f| f.last()),
    ("read: the last of 256 bars", |f| f.last() && f.bars == BARS),
    ("read: of 8,192 hits", |f| f.ok() && f.hits == HITS),
    ("read: 8,192 hits in one bar", |f| f.ok() && f.bar_hits() == HITS),
    ("read: hits whose steps do not rise", |f| {
        f.ok() && f.bar().is_some_and(|bar| bar.hits.windows(2).any(|pair| pair[0].1 > pair[1].1))
    }),
    ("read: id 0", |f| f.ok() && f.id() == 0),
    ("read: id 2^32 - 1", |f| f.ok() && f.id() == u32::MAX),
    ("read: length 2^32 - 1", |f| f.ok() && f.bar().is_some_and(|bar| bar.length == u32::MAX)),
    ("read: with free words that are not 0", |f| f.free_words()),
    ("read, 16 of an empty pad", |f| f.refused(Test::Unknown) && f.bars == 0),
    ("read, 16 with no places", |f| f.refused(Test::Unknown) && (0..3).all(|buffer| f.no_places(buffer))),
    ("read, 16 below all ids", |f| f.refused(Test::Unknown) && f.bars > 0 && f.below == 0),
    ("read, 16 above all ids", |f| f.refused(Test::Unknown) && f.bars > 0 && f.below == f.bars),
    ("read, 13 of sounds with no places", |f| f.refused(Test::Sounds) && f.no_places(0)),
    ("read, 13 of sounds with one place too few, the others with places left", |f| {
        f.refused(Test::Sounds) && f.spare()[0] == -1 && f.spare()[1] > 0 && f.spare()[2] > 0
    }),
    ("read, 13 of steps with no places", |f| f.refused(Test::Steps) && f.no_places(1)),
    ("read, 13 of steps with one place too few, the others exactly full", |f| f.refused(Test::Steps) && f.spare() == [0, -1, 0]),
];
