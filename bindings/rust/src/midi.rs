//! Bars from MIDI files.

use crate::flat::{Lists, Names};
use crate::room::front;
use crate::sys;
use crate::types::{DocId, PositionalPosting, PositionalTermPostings};
use crate::Error;

/// A longer file is refused, whatever is lent.
const MOST_BYTES: usize = 16_777_216;
/// A hit beyond bar 65,535 is refused.
const MOST_BARS: usize = 65_536;
/// A sound for each note, with a name of four bytes.
const MOST_SOUNDS: usize = 128;

/// The bars of a MIDI file, as [`write_positional_segment`](crate::write_positional_segment) takes them, and how loud each hit is.
#[derive(Clone, Debug, PartialEq, Eq)]
pub struct MidiBars {
    lists: Lists,
    /// Side by side with the positions.
    velocities: Vec<u8>,
}

/// Read a Standard MIDI File 1.0 of format 0 into bars of 16 steps, four to a quarter note.
///
/// Each note-on with a velocity above 0 is a hit of the sound `n` with the note as three digits, `n036` for instance; equal hits on one
/// step count once, and the loudest is kept. Every bar from 0 to the last with a hit is made. `docs/FORMAT.md` of the repository says what
/// a file may have.
///
/// ```
/// use pstp::{midi_bars, write_positional_segment, RawPositionalSegment};
///
/// let file = b"MThd\0\0\0\x06\0\0\0\x01\0\x04MTrk\0\0\0\x0B\0\x99\x24\x64\x01\x26\x7F\0\xFF\x2F\0";
/// let bars = midi_bars(file)?;
/// let bytes = write_positional_segment(&bars.document_lengths(), &bars.terms())?;
/// let segment = RawPositionalSegment::open(&bytes)?;
/// assert_eq!(segment.phrase_match_strs(&["n036", "n038"])?, [0]);
/// assert_eq!(bars.velocities(), [0x64, 0x7F]);
/// # Ok::<(), pstp::Error>(())
/// ```
pub fn midi_bars(file: &[u8]) -> Result<MidiBars, Error> {
    // What is always enough is lent, so that one call suffices: a refusal names the length of one buffer, and to learn all nine would
    // take a reading of the file for each. A hit takes three bytes or more.
    let hits = file.len().min(MOST_BYTES) / 3;
    let mut lists = Lists {
        ids: vec![0; MOST_BARS],
        lengths: vec![0; MOST_BARS],
        names: Names {
            text: vec![0; 4 * MOST_SOUNDS],
            ends: vec![0; MOST_SOUNDS],
        },
        posting_counts: vec![0; MOST_SOUNDS],
        posting_ids: vec![0; hits],
        position_counts: vec![0; hits],
        positions: vec![0; hits],
    };
    let mut velocities = vec![0; hits];
    let reply = sys::midi_bars(file, &mut lists, &mut velocities);
    let [bars, sounds, postings, positions] = reply.numbers()?;
    Ok(MidiBars {
        lists: Lists {
            ids: front(lists.ids, bars),
            lengths: front(lists.lengths, bars),
            names: Names {
                text: front(lists.names.text, 4 * sounds),
                ends: front(lists.names.ends, sounds),
            },
            posting_counts: front(lists.posting_counts, sounds),
            posting_ids: front(lists.posting_ids, postings),
            position_counts: front(lists.position_counts, postings),
            positions: front(lists.positions, positions),
        },
        velocities: front(velocities, positions),
    })
}

impl MidiBars {
    /// Return `(doc_id, token_count)` pairs: every bar from 0 to the last with a hit, each of 16 steps.
    pub fn document_lengths(&self) -> Vec<(DocId, u32)> {
        let lengths = self.lists.lengths.iter().copied();
        self.lists.ids.iter().copied().zip(lengths).collect()
    }

    /// Return the sounds that have hits, by name, each with its bars and steps.
    pub fn terms(&self) -> Vec<PositionalTermPostings<'_>> {
        let lists = &self.lists;
        let text = std::str::from_utf8(&lists.names.text).expect("a letter and digits");
        let mut postings = lists.posting_ids.iter().zip(&lists.position_counts);
        let mut positions = lists.positions.as_slice();
        let mut start = 0;
        let sounds = lists.names.ends.iter().zip(&lists.posting_counts);
        sounds
            .map(|(&end, &bars)| {
                let term = &text[start..end as usize];
                start = end as usize;
                let own = postings.by_ref().take(bars as usize);
                let postings = own.map(|(&doc_id, &steps)| {
                    let (own, rest) = positions.split_at(steps as usize);
                    positions = rest;
                    PositionalPosting {
                        doc_id,
                        positions: own,
                    }
                });
                PositionalTermPostings {
                    term,
                    postings: postings.collect(),
                }
            })
            .collect()
    }

    /// Return how loud the hits are, 1 to 127 each, side by side with the positions of [`terms`](Self::terms): those of the first sound's
    /// first bar, then of its next, then those of the next sound. Of equal hits it is that of the loudest. A segment does not carry them.
    pub fn velocities(&self) -> &[u8] {
        &self.velocities
    }
}
