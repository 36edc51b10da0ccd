//! Prints two bars of two sounds as sheets of text, and what is said of a bar that is not there.

use pstp::{
    write_positional_segment, Error, PositionalPosting, PositionalTermPostings,
    RawPositionalSegment,
};

fn main() -> Result<(), Error> {
    let hit = |doc_id, positions| PositionalPosting { doc_id, positions };
    let kick = PositionalTermPostings {
        term: "kick",
        postings: vec![hit(3, &[0, 4, 15]), hit(7, &[2])],
    };
    let snare = PositionalTermPostings {
        term: "snare",
        postings: vec![hit(3, &[8, 14]), hit(7, &[3, 4])],
    };
    let bytes = write_positional_segment(&[(3, 16), (7, 16)], &[kick, snare])?;

    let segment = RawPositionalSegment::open(&bytes)?;
    for (id, _) in segment.document_lengths()? {
        print!("{}", segment.bar_sheet(id)?);
    }
    println!("bar 4: {}", segment.bar_sheet(4).unwrap_err());
    Ok(())
}
