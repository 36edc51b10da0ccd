//! What a lookup can have, clause by clause: each has to be reached.

use super::model::{first_not_above, Lists, Test, Told, LARGEST};

/// A lookup, and what is told of it.
pub struct Facts<'a> {
    ids: &'a [u32],
    lengths: &'a [u32],
    id: u32,
    told: &'a Told,
    /// the place of the first id that is not above the one before it, whatever is told
    not_above: Option<usize>,
    /// the first place and the last on which the asked id stands
    first: Option<usize>,
    last: Option<usize>,
}

pub type Clause = (&'static str, fn(&Facts) -> bool);

impl<'a> Facts<'a> {
    pub fn new(lists: &'a Lists, id: u32, told: &'a Told) -> Self {
        let Lists { ids, lengths } = lists;
        let (first, last) = (ids.iter().position(|known| *known == id), ids.iter().rposition(|known| *known == id));
        Facts { ids, lengths, id, told, not_above: first_not_above(ids), first, last }
    }

    fn n(&self) -> usize {
        self.ids.len()
    }

    fn refused(&self, test: Test) -> bool {
        self.told.as_ref().is_err_and(|refused| refused.failing[0] == test)
    }

    /// 12, of ids or of lengths.
    fn too_long(&self) -> bool {
        self.refused(Test::LongIds) || self.refused(Test::LongLengths)
    }

    fn unequal(&self) -> bool {
        self.refused(Test::Shape)
    }

    /// The place that 21 tells.
    fn falls(&self) -> Option<usize> {
        self.not_above.filter(|_| self.refused(Test::NotRising))
    }

    /// By how much that id is below the one before it.
    fn fall(&self) -> Option<u32> {
        self.falls().map(|place| self.ids[place - 1] - self.ids[place])
    }

    /// Whether there is another such id behind the first.
    fn falls_again(&self) -> bool {
        self.falls().is_some_and(|place| first_not_above(&self.ids[place..]).is_some())
    }

    /// The place of the asked id, and its length.
    fn known(&self) -> Option<(usize, u32)> {
        self.told.as_ref().ok().copied().flatten().and_then(|length| Some((self.first?, length)))
    }

    fn known_at(&self, place: usize) -> bool {
        self.known().is_some_and(|(at, _)| at == place)
    }

    fn is_absent(&self) -> bool {
        *self.told == Ok(None)
    }

    /// Both ids beside the asked one are in the list.
    fn between_neighbours(&self) -> bool {
        let has = |id: Option<u32>| id.is_some_and(|id| self.ids.contains(&id));
        has(self.id.checked_sub(1)) && has(self.id.checked_add(1))
    }

    /// Where the ids rise: the lowest and the highest.
    fn ends(&self) -> Option<(u32, u32)> {
        Some((*self.ids.first()?, *self.ids.last()?)).filter(|_| self.told.is_ok())
    }

    /// As many ids as a power of two above 4, less or more by so many.
    fn power(&self, more: isize) -> bool {
        let n = self.n() as isize - more;
        self.told.is_ok() && n > 4 && (n as usize).is_power_of_two()
    }
}

const MIDDLE: u32 = 1 << 31;

pub const CLAUSES: &[Clause] = &[
    ("known: the only id", |f| f.known_at(0) && f.n() == 1),
    ("known: the first of several", |f| f.known_at(0) && f.n() > 1),
    ("known: the second of several", |f| f.known_at(1) && f.n() > 2),
    ("known: between first and last", |f| f.known().is_some_and(|(at, _)| at > 0 && at + 1 < f.n())),
    ("known: the last but one of several", |f| f.n() > 2 && f.known_at(f.n() - 2)),
    ("known: the last of several", |f| f.n() > 1 && f.known_at(f.n() - 1)),
    ("known: the last of over 1,000", |f| f.n() > 1000 && f.known_at(f.n() - 1)),
    ("known: the first of 16,777,216", |f| f.n() == LARGEST && f.known_at(0)),
    ("known: the last of 16,777,216", |f| f.n() == LARGEST && f.known_at(f.n() - 1)),
    ("known: id 0", |f| f.id == 0 && f.known().is_some()),
    ("known: id 2^32 - 1", |f| f.id == u32::MAX && f.known().is_some()),
    ("known: id 2^31, with ids below it", |f| f.id == MIDDLE && f.known().is_some_and(|(at, _)| at > 0)),
    ("known: both ids beside it as well", |f| f.known().is_some() && f.between_neighbours()),
    ("known: length 0", |f| f.known().is_some_and(|(_, length)| length == 0)),
    ("known: length 0, between others that are not", |f| {
        f.known()
            .is_some_and(|(at, length)| length == 0 && at > 0 && at + 1 < f.n() && f.lengths[at - 1] > 0 && f.lengths[at + 1] > 0)
    }),
    ("known: length 2^32 - 1", |f| f.known().is_some_and(|(_, length)| length == u32::MAX)),
    ("known: a length that is the id of another place", |f| {
        f.known().is_some_and(|(at, length)| f.ids.iter().position(|id| *id == length).is_some_and(|other| other != at))
    }),
    ("absent: empty lists", |f| f.is_absent() && f.n() == 0),
    ("absent: one id, below it", |f| f.is_absent() && f.n() == 1 && f.id < f.ids[0]),
    ("absent: one id, above it", |f| f.is_absent() && f.n() == 1 && f.id > f.ids[0]),
    ("absent: below all of several", |f| f.is_absent() && f.n() > 1 && f.id < f.ids[0]),
    ("absent: one below the first", |f| f.is_absent() && f.n() > 1 && f.id.checked_add(1) == Some(f.ids[0])),
    ("absent: between two", |f| f.is_absent() && f.ends().is_some_and(|(low, high)| low < f.id && f.id < high)),
    ("absent: between two that are both beside it", |f| f.is_absent() && f.between_neighbours()),
    ("absent: one above the last", |f| f.is_absent() && f.n() > 1 && f.id.checked_sub(1) == f.ids.last().copied()),
    ("absent: above all of several", |f| f.is_absent() && f.n() > 1 && f.ends().is_some_and(|(_, high)| high < f.id)),
    ("absent: id 0", |f| f.is_absent() && f.n() > 0 && f.id == 0),
    ("absent: id 2^32 - 1", |f| f.is_absent() && f.n() > 0 && f.id == u32::MAX),
    ("absent: of 16,777,216", |f| f.is_absent() && f.n() == LARGEST),
    ("absent: a length is what is asked for", |f| f.is_absent() && f.lengths.contains(&f.id)),
    ("absent: a length is 0", |f| f.is_absent() && f.id > 0 && f.lengths.contains(&0)),
    ("accepted: ids on both sides of 2^31", |f| f.ends().is_some_and(|(low, high)| low < MIDDLE && high >= MIDDLE)),
    ("accepted: from id 0 to id 2^32 - 1", |f| f.ends() == Some((0, u32::MAX))),
    ("accepted: one id fewer than a power of two", |f| f.power(-1)),
    ("accepted: as many ids as a power of two", |f| f.power(0)),
    ("accepted: one id more than a power of two", |f| f.power(1)),
    ("12 of ids alone", |f| f.too_long() && f.lengths.len() <= LARGEST),
    ("12 of lengths alone", |f| f.too_long() && f.n() <= LARGEST),
    ("12 of both, as many of one as of the other", |f| f.too_long() && f.n() == f.lengths.len()),
    ("12 of one id too many", |f| f.too_long() && f.n() == LARGEST + 1),
    ("12 of one length too many", |f| f.too_long() && f.lengths.len() == LARGEST + 1),
    ("12 of ids, without lengths", |f| f.too_long() && f.lengths.is_empty()),
    ("12 of lengths, without ids", |f| f.too_long() && f.ids.is_empty()),
    ("12, and the ids rise", |f| f.too_long() && f.n() > 1 && f.not_above.is_none()),
    ("12, and the id is there", |f| f.too_long() && f.first.is_some()),
    ("11, one id too many", |f| f.unequal() && f.n() == f.lengths.len() + 1),
    ("11, one length too many", |f| f.unequal() && f.n() + 1 == f.lengths.len()),
    ("11, no ids", |f| f.unequal() && f.n() == 0),
    ("11, no lengths", |f| f.unequal() && f.lengths.is_empty()),
    ("11, and the id has a length beside it", |f| f.unequal() && f.first.is_some_and(|at| at < f.lengths.len())),
    ("11, and the id is not there", |f| f.unequal() && f.first.is_none()),
    ("11, 16,777,216 ids", |f| f.unequal() && f.n() == LARGEST),
    ("11, 16,777,216 lengths", |f| f.unequal() && f.lengths.len() == LARGEST),
    ("21 of two ids", |f| f.falls().is_some() && f.n() == 2),
    ("21 at place 1 of several", |f| f.n() > 2 && f.falls() == Some(1)),
    ("21 between place 1 and the last", |f| f.falls().is_some_and(|place| place > 1 && place + 1 < f.n())),
    ("21 at the last place of several", |f| f.n() > 2 && f.falls() == Some(f.n() - 1)),
    ("21 at the last place of over 1,000", |f| f.n() > 1000 && f.falls() == Some(f.n() - 1)),
    ("21 at the last place of 16,777,216", |f| f.n() == LARGEST && f.falls() == Some(f.n() - 1)),
    ("21 of equal ids", |f| f.fall() == Some(0)),
    ("21 of ids 0 and 0", |f| f.fall() == Some(0) && f.ids[f.falls().unwrap_or(0)] == 0),
    ("21 of ids 2^32 - 1 and 2^32 - 1", |f| f.fall() == Some(0) && f.ids[f.falls().unwrap_or(0)] == u32::MAX),
    ("21 by a fall of 1", |f| f.fall() == Some(1)),
    ("21 by a fall of more", |f| f.fall().is_some_and(|fall| fall > 1)),
    ("21 by a fall from 2^32 - 1 to 0", |f| f.fall() == Some(u32::MAX)),
    ("21 by a fall over 2^31", |f| f.falls().is_some_and(|place| f.ids[place - 1] >= MIDDLE && f.ids[place] < MIDDLE)),
    ("21 of the first of several such ids", |f| f.falls_again()),
    ("21 of the only such id", |f| f.falls().is_some() && !f.falls_again()),
    ("21, the asked id in front of it", |f| f.falls().is_some_and(|place| f.last.is_some_and(|at| at < place))),
    ("21, the asked id in front of it and not beside it", |f| {
        f.falls().is_some_and(|place| f.last.is_some_and(|at| at + 2 < place))
    }),
    ("21, the asked id on its place alone", |f| f.falls().is_some() && f.falls() == f.first && f.first == f.last),
    ("21, the asked id behind it", |f| f.falls().is_some_and(|place| f.first.is_some_and(|at| at > place))),
    ("21, the asked id behind it and not beside it", |f| f.falls().is_some_and(|place| f.first.is_some_and(|at| at > place + 2))),
    ("21, the asked id in front of it and behind it", |f| {
        f.falls().is_some_and(|place| f.first.is_some_and(|at| at < place) && f.last.is_some_and(|at| at > place))
    }),
    ("21, the asked id twice, side by side", |f| {
        f.fall() == Some(0) && f.first.is_some_and(|at| Some(at + 1) == f.falls()) && f.last == f.falls()
    }),
    ("21, the list lacks the asked id", |f| f.falls().is_some() && f.first.is_none()),
];
