//! One call with any handle: it may answer what it likes, but stays inside what it is given.

use super::call::{ask, check, open_once, Handle};
use super::pages::Pages;
use crate::case::{Case, Kept, ENDS};
use crate::lent::{Buffers, Place};
use crate::library;
use crate::reply::Reply;
use crate::show;
use std::sync::Mutex;

/// The case that is being tried, for a fault.
static TRIED: Mutex<Option<(Kept, Handle)>> = Mutex::new(None);

extern "C" {
    fn signal(number: i32, handler: extern "C" fn(i32)) -> usize;
    fn _exit(status: i32) -> !;
}

/// A fault inside the library: nothing of this program is under way, so that the case can still be printed.
extern "C" fn fault(number: i32) {
    if let Ok(tried) = TRIED.try_lock() {
        if let Some((kept, handle)) = &*tried {
            println!("signal {number} in: --handle-case '{}'", shown(kept, *handle));
        }
    }
    // SAFETY: it ends the program.
    unsafe { _exit(1) }
}

/// Memory that cannot be touched, or an instruction that cannot be run, ends the run with the case that led there.
pub fn report_faults() {
    for number in [4, 7, 8, 11] {
        // SAFETY: the handler prints and ends the program.
        unsafe { signal(number, fault) };
    }
}

pub fn shown(kept: &Kept, handle: Handle) -> String {
    let h = handle;
    let numbers = [
        h.kind.into(),
        h.which.into(),
        h.index,
        h.level.into(),
        h.documents.into(),
        h.terms.into(),
        h.spare.into(),
        h.names as u64,
        h.metadata as u64,
        h.lists as u64,
    ];
    format!("{} handle={}", show::shown(kept), numbers.map(|number: u64| number.to_string()).join(","))
}

/// One set of pages for each slice of a call.
pub struct Inside {
    bytes: [Pages; 3],
    ends: Pages,
    lent: [Pages; 3],
    plain: Buffers,
}

impl Inside {
    pub fn new() -> Self {
        let pages = || [(); 3].map(|()| Pages::new());
        Inside { bytes: pages(), ends: Pages::new(), lent: pages(), plain: Buffers::new() }
    }

    /// Makes the call with each slice at the end, or the beginning, of its pages; says what is wrong, and gives the reply.
    pub fn ask(&mut self, kept: &Kept, handle: Handle, at_end: bool) -> (Reply, Option<String>) {
        *TRIED.lock().expect("no one else has it") = Some((kept.clone(), handle));
        let given = kept.case();
        let [segment, text, second] = &mut self.bytes;
        let mut lists = given.lists;
        lists[ENDS] = self.ends.put(given.lists[ENDS], at_end);
        let case = Case {
            segment: segment.put(given.segment, at_end),
            text: text.put(given.text, at_end),
            second: second.put(given.second, at_end),
            lists,
            ..given
        };
        let mut places = [0, 1, 2].map(|i| (0..kept.room.places[i]).map(u32::pattern).collect::<Vec<u32>>());
        let [a, b, c] = &mut self.lent;
        let [p, q, r] = &mut places;
        let mut lent = [a.put(p, at_end), b.put(q, at_end), c.put(r, at_end)];
        let reply = ask(&case, handle, lent.each_mut().map(|buffer| (buffer.as_mut_ptr(), buffer.len())));
        let own = [check(case.segment), open_once(case.segment)];
        let given_left = case.segment == given.segment
            && case.text == given.text
            && case.second == given.second
            && case.lists[ENDS] == given.lists[ENDS];
        for (places, lent) in places.iter_mut().zip(&lent) {
            places.copy_from_slice(lent);
        }
        let said = if !given_left {
            Some("what is only read is written to".to_string())
        } else {
            self.wrong(kept, handle, reply, &places, own)
        };
        (reply, said.map(|said| format!("{said}\nthe reply: {reply:?}\nlent places afterwards: {places:x?}\n")))
    }

    fn wrong(&mut self, kept: &Kept, handle: Handle, reply: Reply, places: &[Vec<u32>; 3], own: [Handle; 2]) -> Option<String> {
        let case = kept.case();
        if own != [check(case.segment), open_once(case.segment)] {
            return Some("check or open_once answers otherwise elsewhere in memory".to_string());
        }
        if own.contains(&handle) {
            self.plain.lend(kept.room);
            let plain = library::ask(&case, &mut self.plain);
            let same = self.plain.places.iter().zip(places).all(|(plain, places)| plain.now() == places);
            return (plain != reply || !same).then(|| format!("the segment's own handle, but without it: {plain:?}"));
        }
        let lengths = [reply.first, reply.first, reply.second];
        let numbers_fit = match reply.kind {
            0 => reply.which == 0 && reply.index == 0 && reply.third == 0 && reply.fourth == 0,
            _ => reply == Reply { first: 0, second: 0, third: 0, fourth: 0, ..reply } && reply.kind <= 13,
        };
        if !numbers_fit {
            return Some("neither an answer nor a refusal".to_string());
        }
        for (i, places) in places.iter().enumerate().take(case.call.buffers()) {
            if lengths[i] > places.len() as u64 {
                return Some(format!("buffer {} is shorter than the answer", i + 1));
            }
            if !places.iter().enumerate().skip(lengths[i] as usize).all(|(i, place)| *place == u32::pattern(i)) {
                return Some(format!("buffer {} is changed behind the answer", i + 1));
            }
        }
        None
    }
}
