//! `pstp_bar_sheet` through the C interface, with a buffer whose every place is watched.

use crate::lent::Lent;
use crate::reply::Reply;

#[link(name = "pstp", kind = "static")]
extern "C" {
    fn pstp_bar_sheet(segment: *const u8, segment_n: usize, id: u32, out: *mut u8, out_n: usize) -> Reply;
}

pub fn bar_sheet(segment: &[u8], id: u32, lent: &mut Lent<u8>) -> Reply {
    let (out, out_n) = lent.raw();
    // SAFETY: both pointers come with the length of a slice that outlives the call, and the lent one overlaps nothing.
    unsafe { pstp_bar_sheet(segment.as_ptr(), segment.len(), id, out, out_n) }
}
