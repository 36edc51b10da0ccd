//! `pstp_midi_bars` through the C interface, with buffers whose every place is watched.

use super::answer::{Answer, Room, NUMBERS, TEXT, VELOCITIES};
use crate::lent::Lent;
use crate::reply::Reply;

type Places = *mut u32;

#[link(name = "pstp", kind = "static")]
extern "C" {
    fn pstp_midi_bars(
        file: *const u8,
        file_n: usize,
        ids: Places,
        ids_n: usize,
        lengths: Places,
        lengths_n: usize,
        text: *mut u8,
        text_n: usize,
        ends: Places,
        ends_n: usize,
        posting_counts: Places,
        posting_counts_n: usize,
        posting_ids: Places,
        posting_ids_n: usize,
        position_counts: Places,
        position_counts_n: usize,
        positions: Places,
        positions_n: usize,
        velocities: *mut u8,
        velocities_n: usize,
    ) -> Reply;
}

/// The nine buffers: the seven of u32 in their order, the text and the velocities.
pub struct Buffers {
    numbers: [Lent<u32>; 7],
    text: Lent<u8>,
    velocities: Lent<u8>,
}

impl Buffers {
    pub fn new() -> Self {
        Buffers { numbers: std::array::from_fn(|_| Lent::new()), text: Lent::new(), velocities: Lent::new() }
    }

    pub fn lend(&mut self, room: Room) {
        for (lent, (buffer, _)) in self.numbers.iter_mut().zip(NUMBERS) {
            lent.lend(room[buffer]);
        }
        self.text.lend(room[TEXT]);
        self.velocities.lend(room[VELOCITIES]);
    }

    /// The answer stands in front, everything else is as it was; after a refusal, everything.
    pub fn hold(&self, answer: Option<&Answer>) -> bool {
        let list = |list: usize| answer.map_or(&[][..], |answer| &answer.flat.lists[list]);
        let text = answer.map_or(&[][..], |answer| &answer.flat.text);
        let velocities = answer.map_or(&[][..], |answer| &answer.velocities);
        let numbers = self.numbers.iter().zip(NUMBERS).all(|(lent, (_, of))| lent.holds(list(of)));
        numbers && self.text.holds(text) && self.velocities.holds(velocities)
    }

    /// The first places of every buffer as they are now.
    pub fn shown(&self) -> String {
        let numbers = self.numbers.each_ref().map(|lent| &lent.now()[..lent.now().len().min(64)]);
        let [text, velocities] = [&self.text, &self.velocities].map(|lent| &lent.now()[..lent.now().len().min(256)]);
        format!("{numbers:x?} {text:x?} {velocities:x?}")
    }
}

pub fn midi_bars(file: &[u8], lent: &mut Buffers) -> Reply {
    let [ids, lengths, ends, posting_counts, posting_ids, position_counts, positions] =
        lent.numbers.each_mut().map(|buffer| buffer.raw());
    let (text, velocities) = (lent.text.raw(), lent.velocities.raw());
    // SAFETY: every pointer comes with the length of a slice that outlives the call, and no two lent buffers overlap.
    unsafe {
        pstp_midi_bars(
            file.as_ptr(),
            file.len(),
            ids.0,
            ids.1,
            lengths.0,
            lengths.1,
            text.0,
            text.1,
            ends.0,
            ends.1,
            posting_counts.0,
            posting_counts.1,
            posting_ids.0,
            posting_ids.1,
            position_counts.0,
            position_counts.1,
            positions.0,
            positions.1,
            velocities.0,
            velocities.1,
        )
    }
}
