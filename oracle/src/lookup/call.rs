//! `pstp_length_of` through the C interface: each of the two lists lies between pages that cannot be touched.

use super::model::Lists;
use super::shrink::shown;
use crate::handle::Pages;
use crate::reply::Reply;
use std::ptr::null_mut;
use std::sync::atomic::{AtomicPtr, Ordering};

#[link(name = "pstp", kind = "static")]
extern "C" {
    fn pstp_length_of(ids: *const u32, ids_n: usize, lengths: *const u32, lengths_n: usize, id: u32) -> Reply;
    fn signal(number: i32, handler: extern "C" fn(i32)) -> usize;
    fn _exit(status: i32) -> !;
}

/// The lists and the id that are being tried, for a fault.
type Tried<'a> = (&'a Lists, u32);

static TRIED: AtomicPtr<Tried<'static>> = AtomicPtr::new(null_mut());

/// A fault inside the library: nothing of this program is under way, so that the case can still be printed.
extern "C" fn fault(number: i32) {
    let tried = TRIED.load(Ordering::SeqCst);
    if tried.is_null() {
        println!("signal {number}, outside the lookups");
    } else {
        // SAFETY: `ask` is still under way, and what it set lives as long.
        let (lists, id) = unsafe { *tried };
        println!("signal {number} in: {}", shown(lists, id));
    }
    // SAFETY: it ends the program.
    unsafe { _exit(1) }
}

/// Memory that cannot be touched, or an instruction that cannot be run, ends the run with the case that led there.
pub fn report_faults() {
    for number in [4, 7, 8, 11] {
        // SAFETY: the handler prints and ends the program.
        unsafe { signal(number, fault) };
    }
}

/// Memory for the two lists.
pub struct Slices {
    ids: Pages,
    lengths: Pages,
    turn: usize,
}

impl Slices {
    pub fn new() -> Self {
        Slices { ids: Pages::new(), lengths: Pages::new(), turn: 0 }
    }

    /// Asks with copies of the lists, each by turns at the end of its pages and at the beginning; says whether they were left as they were.
    pub fn ask(&mut self, lists: &Lists, id: u32) -> (Reply, bool) {
        self.turn += 1;
        let ids = self.ids.put(&lists.ids, self.turn & 1 == 0);
        let lengths = self.lengths.put(&lists.lengths, self.turn & 2 == 0);
        let mut tried = (lists, id);
        TRIED.store((&mut tried as *mut Tried).cast(), Ordering::SeqCst);
        // SAFETY: every pointer comes with the length of a slice that outlives the call.
        let reply = unsafe { pstp_length_of(ids.as_ptr(), ids.len(), lengths.as_ptr(), lengths.len(), id) };
        TRIED.store(null_mut(), Ordering::SeqCst);
        (reply, ids == lists.ids && lengths == lists.lengths)
    }
}
