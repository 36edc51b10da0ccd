//! The clauses of wish 2 that a file can break, each with the refusal that it gives.

use crate::reply::Refusal;

#[derive(Clone, Copy, Debug, PartialEq, Eq, PartialOrd, Ord)]
pub enum Clause {
    TooLarge,
    HeaderCut,
    HeaderType,
    HeaderLength,
    Format,
    Tracks,
    DivisionLow,
    DivisionHigh,
    DivisionFrames,
    DivisionUneven,
    HeadingCut,
    HeadingType,
    TrackShort,
    TrackLong,
    DeltaCut,
    DeltaLong,
    StatusMissing,
    NoStatusAtStart,
    NoStatusAfterMeta,
    NoStatusAfterExclusive,
    SystemCommon,
    RealTime,
    OnlyDataCut,
    OnlyDataHigh,
    FirstDataCut,
    FirstDataHigh,
    SecondDataCut,
    SecondDataHigh,
    MetaTypeCut,
    MetaTypeHigh,
    MetaLengthCut,
    MetaLengthLong,
    MetaCut,
    EndCut,
    EndNotZero,
    EndLongZero,
    ExclusiveLengthCut,
    ExclusiveLengthLong,
    ExclusiveCut,
    EndMissing,
    AfterEnd,
    TooFar,
}

/// In the order in which a file meets them; the words are those of the run's table.
pub const CLAUSES: [(Clause, &str); 42] = [
    (Clause::TooLarge, "12, a file over 16,777,216 bytes"),
    (Clause::HeaderCut, "14 at 0, a file under 14 bytes"),
    (Clause::HeaderType, "14 at 0, a header without MThd"),
    (Clause::HeaderLength, "14 at 0, a header's length that is not 6"),
    (Clause::Format, "14 at 0, a format that is not 0"),
    (Clause::Tracks, "14 at 0, a number of tracks that is not 1"),
    (Clause::DivisionLow, "14 at 0, a division below 4"),
    (Clause::DivisionHigh, "14 at 0, a division of 32,765 to 32,767"),
    (Clause::DivisionFrames, "14 at 0, a division in frames (bit 15 set)"),
    (Clause::DivisionUneven, "14 at 0, a division that is no multiple of 4"),
    (Clause::HeadingCut, "14 at 14, a file under 22 bytes"),
    (Clause::HeadingType, "14 at 14, a heading without MTrk"),
    (Clause::TrackShort, "14 at 14, a track's length below the rest of the file"),
    (Clause::TrackLong, "14 at 14, a track's length above the rest of the file"),
    (Clause::DeltaCut, "14, a delta time cut short"),
    (Clause::DeltaLong, "14, a delta time of over 4 bytes"),
    (Clause::StatusMissing, "14, a delta time with nothing after it"),
    (Clause::NoStatusAtStart, "14, a data byte first, at the track's start"),
    (Clause::NoStatusAfterMeta, "14, a data byte first, after a meta event"),
    (Clause::NoStatusAfterExclusive, "14, a data byte first, after an exclusive event"),
    (Clause::SystemCommon, "14, status F1 to F6"),
    (Clause::RealTime, "14, status F8 to FE"),
    (Clause::OnlyDataCut, "14, the only data byte missing"),
    (Clause::OnlyDataHigh, "14, the only data byte above 127"),
    (Clause::FirstDataCut, "14, the first of two data bytes missing"),
    (Clause::FirstDataHigh, "14, the first of two data bytes above 127"),
    (Clause::SecondDataCut, "14, the second data byte missing"),
    (Clause::SecondDataHigh, "14, the second data byte above 127"),
    (Clause::MetaTypeCut, "14, a meta type missing"),
    (Clause::MetaTypeHigh, "14, a meta type above 127"),
    (Clause::MetaLengthCut, "14, a meta event's length cut short"),
    (Clause::MetaLengthLong, "14, a meta event's length of over 4 bytes"),
    (Clause::MetaCut, "14, a meta event that runs past the file"),
    (Clause::EndCut, "14, FF 2F with nothing after it"),
    (Clause::EndNotZero, "14, FF 2F not followed by 00"),
    (Clause::EndLongZero, "14, FF 2F followed by 80, a long form of a length"),
    (Clause::ExclusiveLengthCut, "14, an exclusive event's length cut short"),
    (Clause::ExclusiveLengthLong, "14, an exclusive event's length of over 4 bytes"),
    (Clause::ExclusiveCut, "14, an exclusive event that runs past the file"),
    (Clause::EndMissing, "14 at the file's end, no end-of-track event"),
    (Clause::AfterEnd, "14 at the byte, a byte after the end-of-track event"),
    (Clause::TooFar, "15, a hit beyond bar 65,535"),
];

/// The first clause that a file breaks, and the refusal's index.
#[derive(Clone, Copy, Debug, PartialEq, Eq)]
pub struct Broken {
    pub clause: Clause,
    pub index: u64,
}

impl Clause {
    pub fn at(self, offset: usize) -> Broken {
        Broken { clause: self, index: offset as u64 }
    }
}

impl From<Broken> for Refusal {
    fn from(broken: Broken) -> Self {
        let kind = match broken.clause {
            Clause::TooLarge => 12,
            Clause::TooFar => 15,
            _ => 14,
        };
        Refusal::new(kind, 0, broken.index)
    }
}
