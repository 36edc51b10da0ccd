//! Lent buffers: every place holds a pattern before the call, and so do some places before and behind that are not lent.

use crate::case::Room;

const GUARD: usize = 4;

pub trait Place: Copy + PartialEq {
    fn pattern(i: usize) -> Self;
    const FENCE: Self;
}

impl Place for u32 {
    fn pattern(i: usize) -> u32 {
        0xDEAD_0000u32.wrapping_add(i as u32)
    }
    const FENCE: u32 = 0x5EED_F00D;
}

impl Place for u8 {
    fn pattern(i: usize) -> u8 {
        90u8.wrapping_add(i as u8)
    }
    const FENCE: u8 = 0xC7;
}

pub struct Lent<T> {
    places: Vec<T>,
}

impl<T: Place> Lent<T> {
    pub fn new() -> Self {
        Lent { places: Vec::new() }
    }

    pub fn lend(&mut self, room: usize) {
        self.places.clear();
        self.places.extend([T::FENCE; GUARD]);
        self.places.extend((0..room).map(T::pattern));
        self.places.extend([T::FENCE; GUARD]);
    }

    fn room(&self) -> usize {
        self.places.len() - 2 * GUARD
    }

    pub fn raw(&mut self) -> (*mut T, usize) {
        let room = self.room();
        (self.places[GUARD..].as_mut_ptr(), room)
    }

    /// The places as they are now.
    pub fn now(&self) -> &[T] {
        &self.places[GUARD..GUARD + self.room()]
    }

    /// The answer stands in front, everything else is as it was.
    pub fn holds(&self, answer: &[T]) -> bool {
        let (before, rest) = self.places.split_at(GUARD);
        let (lent, behind) = rest.split_at(self.room());
        answer.len() <= lent.len()
            && &lent[..answer.len()] == answer
            && lent.iter().enumerate().skip(answer.len()).all(|(i, x)| *x == T::pattern(i))
            && before.iter().chain(behind).all(|x| *x == T::FENCE)
    }
}

/// All that is lent to one call.
pub struct Buffers {
    pub places: [Lent<u32>; 3],
    pub bytes: Lent<u8>,
}

impl Buffers {
    pub fn new() -> Self {
        Buffers { places: [Lent::new(), Lent::new(), Lent::new()], bytes: Lent::new() }
    }

    pub fn lend(&mut self, room: Room) {
        for (buffer, places) in self.places.iter_mut().zip(room.places) {
            buffer.lend(places);
        }
        self.bytes.lend(room.bytes);
    }

    pub fn hold(&self, places: [&[u32]; 3], bytes: &[u8]) -> bool {
        self.places.iter().zip(places).all(|(buffer, answer)| buffer.holds(answer)) && self.bytes.holds(bytes)
    }
}
