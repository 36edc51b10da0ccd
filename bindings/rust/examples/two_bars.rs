//! Writes two bars of two sounds as a segment, lists it, looks lengths up in its lists, and asks which bars have them near one another.

use pstp::{
    length_of, write_positional_segment, Error, PositionalPosting, PositionalTermPostings,
    RawPositionalSegment,
};

fn main() -> Result<(), Error> {
    let hit = |doc_id, positions| PositionalPosting { doc_id, positions };
    let kick = PositionalTermPostings {
        term: "kick",
        postings: vec![hit(3, &[0, 4, 15]), hit(7, &[2])],
    };
    let snare = PositionalTermPostings {
        term: "snare",
        postings: vec![hit(3, &[8, 14]), hit(7, &[3, 4])],
    };
    let bytes = write_positional_segment(&[(3, 16), (7, 16)], &[kick, snare])?;
    println!("written: {} bytes", bytes.len());

    let segment = RawPositionalSegment::open(&bytes)?;
    for (id, length) in segment.document_lengths()? {
        println!("bar {id}: {length} steps");
    }
    let (ids, lengths): (Vec<_>, Vec<_>) = segment.document_lengths()?.into_iter().unzip();
    println!("in lists, bar 7: {:?}", length_of(&ids, &lengths, 7)?);
    println!("in lists, bar 5: {:?}", length_of(&ids, &lengths, 5)?);
    for term in ["kick", "snare", "tom"] {
        println!("{term}: in {} bars", segment.df(term)?);
        for posting in segment.term_postings(term)? {
            println!("  bar {}: {:?}", posting.doc_id, posting.positions);
        }
    }

    let both = ["kick", "snare"];
    println!("kick snare: {:?}", segment.phrase_match_strs(&both)?);
    for window in [3, 4] {
        let bars = segment.near_match_terms_strs(&both, window, true)?;
        println!("kick, then snare within {window}: {bars:?}");
    }
    let bars = segment.near_match("snare", "snare", 5)?;
    println!("two snares within 5: {bars:?}");

    let cut = RawPositionalSegment::open(&bytes[..71]);
    println!("cut to 71 bytes: {}", cut.unwrap_err());
    Ok(())
}
