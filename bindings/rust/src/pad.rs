//! A pad to record on.

use std::fmt;

use crate::flat::Names;
use crate::room::front;
use crate::sys;
use crate::types::{DocId, TokenPos};
use crate::Error;

/// A hit of a bar. The order is that of a bar's hits, by sound, then step; of two on one sound and step the softer comes first.
#[derive(Clone, Copy, Debug, PartialEq, Eq, PartialOrd, Ord, Hash)]
pub struct Hit {
    /// The sound's number, 0 to 127.
    pub sound: u8,
    /// The step, below the bar's length.
    pub step: TokenPos,
    /// How loud it is, 1 to 127. A segment does not carry it.
    pub velocity: u8,
}

/// A bar as a pad holds it.
#[derive(Clone, Debug, PartialEq, Eq)]
pub struct Bar {
    /// The number of steps.
    pub length: u32,
    /// The hits, strictly rising by sound, then step.
    pub hits: Vec<Hit>,
}

/// A pad, which holds bars before they are written as a segment: a map from id to bar, of at most 256 bars with 8,192 hits in all.
///
/// Whatever was saved and erased before, a bar fits if the numbers of bars and hits allow it. A refused call changes nothing.
///
/// ```
/// use pstp::{Hit, Pad, RawPositionalSegment};
///
/// let mut pad = Pad::new();
/// let accent = Hit { sound: 36, step: 0, velocity: 127 };
/// pad.save(3, 16, &[accent, Hit { sound: 38, step: 1, velocity: 80 }])?;
/// pad.save(7, 16, &[Hit { sound: 36, step: 4, velocity: 100 }])?;
/// pad.erase(7)?;
/// assert_eq!(pad.hits(), 2);
/// assert_eq!(pad.read(3)?.hits[0], accent);
///
/// let mut names = [""; Pad::SOUNDS];
/// names[36] = "kick";
/// names[38] = "snare";
/// let bytes = pad.write(&names)?;
/// let segment = RawPositionalSegment::open(&bytes)?;
/// assert_eq!(segment.phrase_match_strs(&["kick", "snare"])?, [3]);
/// # Ok::<(), pstp::Error>(())
/// ```
#[derive(Clone)]
pub struct Pad {
    /// Always a pad, never broken: `from_words` tests it, and every call keeps it one.
    words: Box<[u32]>,
}

impl Pad {
    /// Words of a pad.
    pub const WORDS: usize = 17_154;
    /// Bars that a pad can hold.
    pub const BARS: usize = 256;
    /// Hits that all bars of a pad can have together.
    pub const HITS: usize = 8_192;
    /// Sounds, each with a name when the pad is written.
    pub const SOUNDS: usize = 128;

    /// An empty pad.
    pub fn new() -> Self {
        Self {
            words: vec![0; Self::WORDS].into(),
        }
    }

    /// Save a bar under an id that is not held.
    ///
    /// The hits rise strictly by sound, then step, which is what sorting them and leaving out all but one of those on the same sound and
    /// step does. A bar may have no hits, and any id and length.
    ///
    /// The first that holds is the error: [`Error::AlreadyHeld`]; [`Error::TooLarge`] for over 16,777,216 hits, then for a sound above 127;
    /// [`Error::VelocityRange`] for a velocity that is not 1 to 127; [`Error::InvalidLayout`] for hits that do not rise by sound, then
    /// step, then for a step that is not below the length; [`Error::PadFull`].
    pub fn save(&mut self, id: DocId, length: u32, hits: &[Hit]) -> Result<(), Error> {
        let sounds: Vec<_> = hits.iter().map(|hit| hit.sound).collect();
        let steps: Vec<_> = hits.iter().map(|hit| hit.step).collect();
        let velocities: Vec<_> = hits.iter().map(|hit| hit.velocity).collect();
        sys::pad_save(&mut self.words, id, length, &sounds, &steps, &velocities).answer()?;
        Ok(())
    }

    /// Erase a bar and return how many hits it had; its room serves the next. An id that is not held is [`Error::UnknownBar`].
    pub fn erase(&mut self, id: DocId) -> Result<usize, Error> {
        let (hits, _) = sys::pad_erase(&mut self.words, id).answer()?;
        Ok(hits as usize)
    }

    /// Return a bar as it was saved. An id that is not held is [`Error::UnknownBar`].
    pub fn read(&self, id: DocId) -> Result<Bar, Error> {
        // No bar has more hits than all, so one call suffices.
        let mut sounds = vec![0; self.hits()];
        let mut steps = vec![0; self.hits()];
        let mut velocities = vec![0; self.hits()];
        let reply = sys::pad_read(&self.words, id, &mut sounds, &mut steps, &mut velocities);
        let (hits, length) = reply.answer()?;
        let places = sounds.into_iter().zip(steps).zip(velocities);
        let hit = |((sound, step), velocity)| Hit {
            sound,
            step,
            velocity,
        };
        Ok(Bar {
            length: length as u32,
            hits: places.take(hits as usize).map(hit).collect(),
        })
    }

    /// Write the pad as a segment: what [`write_positional_segment`](crate::write_positional_segment) makes of the bars by rising id and
    /// the sounds by rising number. Sounds without hits are left out, and so are the velocities: what is written does not depend on them.
    ///
    /// The names are those of the sounds by number. Of sounds without hits they may be anything, such as empty; the others are not empty
    /// and rise strictly in byte order, or the error is [`Error::InvalidLayout`]. All names together have at most 16,777,216 bytes, or it
    /// is [`Error::TooLarge`].
    pub fn write(&self, names: &[&str; Self::SOUNDS]) -> Result<Vec<u8>, Error> {
        let names = Names::of(names)?;
        let mut bytes = vec![0; self.most_bytes(&names)];
        let (len, _) = sys::pad_write(&self.words, &names, &mut bytes).answer()?;
        Ok(front(bytes, len))
    }

    /// Return the number of hits of all bars held. It is stored in the pad and not counted, so a display may ask at every beat.
    pub fn hits(&self) -> usize {
        sys::pad_hits(&self.words) as usize
    }

    /// Return the pad's words, to store them. `include/pstp.h` of the repository describes them.
    pub fn as_words(&self) -> &[u32] {
        &self.words
    }

    /// Take up a pad by its words. Words that no pad can have, or another number of them, are [`Error::BrokenPad`]; so are those of a pad
    /// with hits that was recorded before hits had velocities.
    pub fn from_words(words: &[u32]) -> Result<Self, Error> {
        // All calls but `hits` test the words before all else, and this one changes nothing.
        match sys::pad_read(words, 0, &mut [], &mut [], &mut []).answer() {
            Err(Error::BrokenPad) => Err(Error::BrokenPad),
            _ => Ok(Self {
                words: words.into(),
            }),
        }
    }

    fn bars_held(&self) -> usize {
        self.words[0] as usize
    }

    /// No segment of this pad is longer: a stored number has at most five bytes, a bar two of them, a hit at most three.
    fn most_bytes(&self, names: &Names) -> usize {
        let (bars, hits) = (self.bars_held(), self.hits());
        72 + 32 * hits.min(Self::SOUNDS) + names.text.len() + 10 * bars + 15 * hits
    }
}

impl Default for Pad {
    fn default() -> Self {
        Self::new()
    }
}

impl fmt::Debug for Pad {
    fn fmt(&self, f: &mut fmt::Formatter<'_>) -> fmt::Result {
        f.debug_struct("Pad")
            .field("bars", &self.bars_held())
            .field("hits", &self.hits())
            .finish_non_exhaustive()
    }
}
