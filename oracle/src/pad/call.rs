//! The calls on a pad through the C interface: each slice that is handed in lies between pages that cannot be touched, and every place of
//! the lists that are lent for an answer is watched.

use super::model::Hit;
use super::shrink::shown;
use crate::handle::Pages;
use crate::lent::Lent;
use crate::reply::Reply;
use std::ptr::null_mut;
use std::sync::atomic::{AtomicPtr, Ordering};

/// The lists of a save, which ought to be side by side.
#[derive(Clone, Debug, Default, PartialEq, Eq)]
pub struct Lists {
    pub sounds: Vec<u8>,
    pub steps: Vec<u32>,
    pub velocities: Vec<u8>,
}

impl Lists {
    pub fn of(hits: &[Hit]) -> Self {
        Lists {
            sounds: hits.iter().map(|hit| hit.0).collect(),
            steps: hits.iter().map(|hit| hit.1).collect(),
            velocities: hits.iter().map(|hit| hit.2).collect(),
        }
    }

    /// The hits that all three lists have.
    pub fn hits(&self) -> Vec<Hit> {
        let beside = self.sounds.iter().zip(&self.steps).zip(&self.velocities);
        beside.map(|((sound, step), velocity)| (*sound, *step, *velocity)).collect()
    }

    pub fn lengths(&self) -> [usize; 3] {
        [self.sounds.len(), self.steps.len(), self.velocities.len()]
    }
}

#[derive(Clone, Debug, PartialEq, Eq)]
pub enum Call {
    Save {
        id: u32,
        length: u32,
        lists: Lists,
    },
    Erase {
        id: u32,
    },
    /// with so many places for sounds, for steps and for velocities
    Read {
        id: u32,
        room: [usize; 3],
    },
    Write {
        text: Vec<u8>,
        ends: Vec<u32>,
        room: usize,
    },
    /// the counter, which is also asked after every call
    Hits,
}

pub const CALLS: [&str; 5] = ["pad_save", "pad_erase", "pad_read", "pad_write", "pad_hits"];

impl Call {
    pub fn save(id: u32, length: u32, hits: &[Hit]) -> Self {
        Call::Save { id, length, lists: Lists::of(hits) }
    }

    /// Which of `CALLS` it is.
    pub fn number(&self) -> usize {
        match self {
            Call::Save { .. } => 0,
            Call::Erase { .. } => 1,
            Call::Read { .. } => 2,
            Call::Write { .. } => 3,
            Call::Hits => 4,
        }
    }
}

#[link(name = "pstp", kind = "static")]
extern "C" {
    fn pstp_pad_save(
        pad: *mut u32,
        pad_n: usize,
        id: u32,
        length: u32,
        sounds: *const u8,
        sounds_n: usize,
        steps: *const u32,
        steps_n: usize,
        velocities: *const u8,
        velocities_n: usize,
    ) -> Reply;
    fn pstp_pad_erase(pad: *mut u32, pad_n: usize, id: u32) -> Reply;
    fn pstp_pad_read(
        pad: *const u32,
        pad_n: usize,
        id: u32,
        sounds: *mut u8,
        sounds_n: usize,
        steps: *mut u32,
        steps_n: usize,
        velocities: *mut u8,
        velocities_n: usize,
    ) -> Reply;
    fn pstp_pad_write(
        pad: *const u32,
        pad_n: usize,
        text: *const u8,
        text_n: usize,
        ends: *const u32,
        ends_n: usize,
        out: *mut u8,
        out_n: usize,
    ) -> Reply;
    fn pstp_pad_hits(pad: *const u32, pad_n: usize) -> Reply;
    fn signal(number: i32, handler: extern "C" fn(i32)) -> usize;
    fn _exit(status: i32) -> !;
}

/// The pad's words and the call that is being made, for a fault.
type Tried<'a> = (&'a [u32], &'a Call);

static TRIED: AtomicPtr<Tried<'static>> = AtomicPtr::new(null_mut());

/// A fault inside the library: nothing of this program is under way, so that the case can still be printed.
extern "C" fn fault(number: i32) {
    let tried = TRIED.load(Ordering::SeqCst);
    if tried.is_null() {
        println!("signal {number}, outside the calls on pads");
    } else {
        // SAFETY: `ask` is still under way, and what it set lives as long.
        let (words, call) = unsafe { *tried };
        println!("signal {number} in this call, or in the counter behind it: {}", shown(words, call));
    }
    // SAFETY: it ends the program.
    unsafe { _exit(1) }
}

/// Memory that cannot be touched, or an instruction that cannot be run, ends the run with the case that led there.
pub fn report_faults() {
    for number in [4, 7, 8, 11] {
        // SAFETY: the handler prints and ends the program.
        unsafe { signal(number, fault) };
    }
}

/// Memory for every slice of a call.
pub struct Slices {
    pad: Pages,
    bytes: Pages,
    numbers: Pages,
    more_bytes: Pages,
    pub sounds: Lent<u8>,
    pub steps: Lent<u32>,
    pub velocities: Lent<u8>,
    pub out: Lent<u8>,
    /// whether the last call left what it only reads
    pub given_left: bool,
    at_end: bool,
}

impl Slices {
    pub fn new() -> Self {
        let (sounds, steps, velocities, out) = (Lent::new(), Lent::new(), Lent::new(), Lent::new());
        let (pad, bytes, numbers, more_bytes) = (Pages::new(), Pages::new(), Pages::new(), Pages::new());
        Slices { pad, bytes, numbers, more_bytes, sounds, steps, velocities, out, given_left: true, at_end: false }
    }

    /// Makes the call on a copy of these words, by turns at the end of its pages and at the beginning, and asks the counter of what it
    /// left, unless that was the call: asked twice, it could undo what it wrote. Gives both replies, and the words after both.
    pub fn ask(&mut self, words: &[u32], call: &Call) -> ([Reply; 2], &[u32]) {
        self.at_end = !self.at_end;
        let pad = self.pad.put(words, self.at_end);
        let (p, n) = (pad.as_mut_ptr(), pad.len());
        let [sounds_room, steps_room, velocities_room] = if let Call::Read { room, .. } = call { *room } else { [0; 3] };
        self.sounds.lend(sounds_room);
        self.steps.lend(steps_room);
        self.velocities.lend(velocities_room);
        self.out.lend(if let Call::Write { room, .. } = call { *room } else { 0 });
        let (bytes, numbers, more): (&[u8], &[u32], &[u8]) = match call {
            Call::Save { lists, .. } => (&lists.sounds, &lists.steps, &lists.velocities),
            Call::Write { text, ends, .. } => (text, ends, &[]),
            _ => (&[], &[], &[]),
        };
        let (b, m) = (self.bytes.put(bytes, self.at_end), self.numbers.put(numbers, self.at_end));
        let l = self.more_bytes.put(more, self.at_end);
        let ((bp, bn), (mp, mn), (lp, ln)) = ((b.as_ptr(), b.len()), (m.as_ptr(), m.len()), (l.as_ptr(), l.len()));
        let ((s, sn), (t, tn), (v, vn), (out, out_n)) =
            (self.sounds.raw(), self.steps.raw(), self.velocities.raw(), self.out.raw());
        let mut tried = (words, call);
        TRIED.store((&mut tried as *mut Tried).cast(), Ordering::SeqCst);
        // SAFETY: every pointer comes with the length of a slice that outlives the call, and the lent ones overlap nothing.
        let replies = unsafe {
            let reply = match call {
                Call::Save { id, length, .. } => pstp_pad_save(p, n, *id, *length, bp, bn, mp, mn, lp, ln),
                Call::Erase { id } => pstp_pad_erase(p, n, *id),
                Call::Read { id, .. } => pstp_pad_read(p, n, *id, s, sn, t, tn, v, vn),
                Call::Write { .. } => pstp_pad_write(p, n, bp, bn, mp, mn, out, out_n),
                Call::Hits => pstp_pad_hits(p, n),
            };
            [reply, if *call == Call::Hits { reply } else { pstp_pad_hits(p, n) }]
        };
        TRIED.store(null_mut(), Ordering::SeqCst);
        self.given_left = b == bytes && m == numbers && l == more;
        (replies, pad)
    }
}
