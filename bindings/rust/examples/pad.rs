//! Records three bars on a pad, erases one, reads one back with its accents, writes the others as a segment, and asks in which of them the
//! snare follows the kick.

use pstp::{Error, Hit, Pad, RawPositionalSegment};

/// The numbers of General MIDI.
const KICK: u8 = 36;
const SNARE: u8 = 38;

/// Hits by sound, then step, the first step of a sound with an accent.
fn bar(kicks: &[u32], snares: &[u32]) -> Vec<Hit> {
    let mut hits = Vec::new();
    for (sound, steps) in [(KICK, kicks), (SNARE, snares)] {
        for (i, &step) in steps.iter().enumerate() {
            let velocity = if i == 0 { 127 } else { 90 };
            hits.push(Hit {
                sound,
                step,
                velocity,
            });
        }
    }
    hits
}

fn main() -> Result<(), Error> {
    let mut pad = Pad::new();
    pad.save(12, 16, &bar(&[0, 8], &[4]))?;
    pad.save(5, 16, &bar(&[0, 2], &[3]))?;
    pad.save(7, 16, &bar(&[2, 7], &[8]))?;
    let again = pad.save(5, 16, &[]);
    println!("bar 5 again: {}", again.unwrap_err());
    println!("bar 5 erased: {} hits", pad.erase(5)?);
    println!("on the display: {} hits", pad.hits());
    println!("bar 5: {}", pad.read(5).unwrap_err());
    let kept = pad.read(7)?;
    println!("bar 7: {} steps, {} hits", kept.length, kept.hits.len());
    for hit in &kept.hits {
        println!("  {} on {}, velocity {}", hit.sound, hit.step, hit.velocity);
    }
    let silent = pad.save(
        6,
        16,
        &[Hit {
            velocity: 0,
            ..kept.hits[0]
        }],
    );
    println!("a silent hit: {}", silent.unwrap_err());

    let mut names = [""; Pad::SOUNDS];
    names[usize::from(KICK)] = "kick";
    names[usize::from(SNARE)] = "snare";
    let bytes = pad.write(&names)?;
    println!("written: {} bytes", bytes.len());

    let segment = RawPositionalSegment::open(&bytes)?;
    for phrase in [["kick", "snare"], ["snare", "kick"]] {
        let found = segment.phrase_match_strs(&phrase)?;
        println!("{}: {found:?}", phrase.join(" "));
    }
    Ok(())
}
