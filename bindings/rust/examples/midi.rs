//! Reads the bars of a drummer's MIDI file, how loud each hit is, writes them as a segment, and asks in which bars the snare follows the
//! kick.

use pstp::{midi_bars, write_positional_segment, Error, RawPositionalSegment};

/// Two bars, 96 ticks to a quarter note. Kick, snare and closed hat are the notes 36, 38 and 42 of General MIDI.
const FILE: &[u8] = &[
    b'M', b'T', b'h', b'd', 0, 0, 0, 6, 0, 0, 0, 1, 0, 96, // format 0, one track, division 96
    b'M', b'T', b'r', b'k', 0, 0, 0, 34, // 34 bytes of events
    0, 0xFF, 0x51, 3, 0x07, 0xA1, 0x20, // tempo: skipped
    0, 0x99, 36, 100, // kick on step 0
    48, 42, 80, // hat on step 2, by running status
    0, 36, 0, // kick released: no hit
    48, 38, 110, // snare on step 4
    0x81, 0x70, 36, 90, // kick on step 14
    47, 38, 40, // snare on step 15
    1, 36, 127, // kick on step 0 of the next bar
    0, 0xFF, 0x2F, 0, // end of track
];

fn main() -> Result<(), Error> {
    let bars = midi_bars(FILE)?;
    let bytes = write_positional_segment(&bars.document_lengths(), &bars.terms())?;

    let mut velocities = bars.velocities();
    for sound in bars.terms() {
        for posting in sound.postings {
            let (own, rest) = velocities.split_at(posting.positions.len());
            velocities = rest;
            println!(
                "{}: bar {} on {:?}, velocities {own:?}",
                sound.term, posting.doc_id, posting.positions
            );
        }
    }
    let segment = RawPositionalSegment::open(&bytes)?;
    println!("written: {} bytes", bytes.len());
    for phrase in [["n036", "n038"], ["n038", "n036"]] {
        let found = segment.phrase_match_strs(&phrase)?;
        println!("{}: {found:?}", phrase.join(" "));
    }

    let cut = midi_bars(&FILE[..30]);
    println!("cut to 30 bytes: {}", cut.unwrap_err());
    Ok(())
}
