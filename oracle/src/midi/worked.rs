//! Files worked out by hand from document 02, with their digits; the first event stands at offset 22.

use super::compare::Midi;
use super::expected::{check, parsed};
use crate::compare::Runner;
use crate::show::unhex;

/// A groove with running status, velocity 0, the last tick of a bar and the next bar; then with a place too few, and with none.
const GROOVE: [&str; 5] = [
    "file 4D546864 00000006 0000 0001 0060 4D54726B 00000022 00FF510307A120 00992464 302A50 002400 30266E 8170245A 2F2628 01247F 00FF2F00
     reply 0 0 0 2 3 4 6
     ids 0 1
     lengths 16 16
     text n036n038n042
     ends 4 8 12
     posting_counts 2 1 1
     posting_ids 0 1 0 0
     position_counts 2 1 2 1
     positions 0 14 0 4 15 2
     velocities 100 90 127 110 40 80
     phrase n036 n038 : 0
     phrase n038 n036 : none
     phrase n036 : 0 1",
    "file 4D546864 00000006 0000 0001 0060 4D54726B 00000022 00FF510307A120 00992464 302A50 002400 30266E 8170245A 2F2628 01247F 00FF2F00
     room 2 2 12 3 2 4 4 6 6
     reply 13 5 3 0 0 0 0",
    "file 4D546864 00000006 0000 0001 0060 4D54726B 00000022 00FF510307A120 00992464 302A50 002400 30266E 8170245A 2F2628 01247F 00FF2F00
     room 0 0 0 0 0 0 0 0 0
     reply 13 1 2 0 0 0 0",
    // the velocities alone a place too few; positions too, which come first
    "file 4D546864 00000006 0000 0001 0060 4D54726B 00000022 00FF510307A120 00992464 302A50 002400 30266E 8170245A 2F2628 01247F 00FF2F00
     room 9 9 99 9 9 9 9 9 5
     reply 13 9 6 0 0 0 0",
    "file 4D546864 00000006 0000 0001 0060 4D54726B 00000022 00FF510307A120 00992464 302A50 002400 30266E 8170245A 2F2628 01247F 00FF2F00
     room 2 2 12 3 3 4 4 5 5
     reply 13 8 6 0 0 0 0",
];

/// Which of equal hits is kept, and where its velocity stands.
const LOUD: [&str; 4] = [
    // one note on one step, velocities 7, 100, 99; on the next step 127, 1, 126; on the next 5, 5
    "file 4D546864 00000006 0000 0001 0004 4D54726B 0000001D 00902407 002464 002463 01247F 002401 00247E 012405 002405 00FF2F00
     reply 0 0 0 1 1 1 3
     ids 0
     lengths 16
     text n036
     ends 4
     posting_counts 1
     posting_ids 0
     position_counts 3
     positions 0 1 2
     velocities 100 127 5
     phrase n036 n036 n036 : 0",
    // four ticks to a step: ticks 0, 1 and 3 of step 0 on channels 0, 9 and 9, loudest first; ticks 4 and 7 of step 1, loudest last; tick 8
    "file 4D546864 00000006 0000 0001 0010 4D54726B 0000001D 00902409 01992408 022407 012401 00802440 0390247F 012402 00FF2F00
     reply 0 0 0 1 1 1 3
     ids 0
     lengths 16
     text n036
     ends 4
     posting_counts 1
     posting_ids 0
     position_counts 3
     positions 0 1 2
     velocities 9 127 2",
    // notes 38, 36, 38, 36 and 37 in turn, in bars 0 and 1: the list goes by note, then bar, then position
    "file 4D546864 00000006 0000 0001 0004 4D54726B 0000001A 0090260A 00240B 01260C 0F240D 002514 002515 00250A 00FF2F00
     reply 0 0 0 2 3 4 5
     ids 0 1
     lengths 16 16
     text n036n037n038
     ends 4 8 12
     posting_counts 2 1 1
     posting_ids 0 1 1 0
     position_counts 1 1 1 2
     positions 0 0 0 0 1
     velocities 11 13 21 10 12",
    // velocity 0 and a note-off between two equal hits change nothing, and the velocity of a note-off is nobody's
    "file 4D546864 00000006 0000 0001 0004 4D54726B 00000017 00902420 002400 0080247F 00902410 00A0247F 00FF2F00
     reply 0 0 0 1 1 1 1
     ids 0
     lengths 16
     text n036
     ends 4
     posting_counts 1
     posting_ids 0
     position_counts 1
     positions 0
     velocities 32",
];

const HITS: [&str; 9] = [
    // equal hits on one step, and a bar without hits
    "file 4D546864 00000006 0000 0001 0004 4D54726B 0000001B 00F0037E09F7 00902614 00992650 002632 002440 232601 00FF2F00
     reply 0 0 0 3 2 3 3
     ids 0 1 2
     lengths 16 16 16
     text n036n038
     ends 4 8
     posting_counts 1 2
     posting_ids 0 0 2
     position_counts 1 1 1
     positions 0 0 3
     velocities 64 80 1
     phrase n038 : 0 2
     phrase n036 n038 : none",
    // ticks 0, 32, 64, 383 and 384 of 24 to a step
    "file 4D546864 00000006 0000 0001 0060 4D54726B 00000015 00992D64 202F50 20323C 823F2D5A 012D7F 00FF2F00
     reply 0 0 0 2 3 4 5
     ids 0 1
     lengths 16 16
     text n045n047n050
     ends 4 8 12
     posting_counts 2 1 1
     posting_ids 0 1 0 0
     position_counts 2 1 1 1
     positions 0 15 0 1 2
     velocities 100 90 127 80 60
     phrase n045 n047 n050 : 0
     phrase n045 n045 : none",
    // no hits: nothing need be lent
    "file 4D546864 00000006 0000 0001 7FFC 4D54726B 00000004 00FF2F00
     room 0 0 0 0 0 0 0 0 0
     reply 0 0 0 0 0 0 0",
    // a velocity of 0 keeps the running status; so do a program change and its own
    "file 4D546864 00000006 0000 0001 0004 4D54726B 0000000B 00902400 012640 00FF2F00
     reply 0 0 0 1 1 1 1
     ids 0
     lengths 16
     text n038
     ends 4
     posting_counts 1
     posting_ids 0
     position_counts 1
     positions 1
     velocities 64
     phrase n038 : 0",
    // skipped events are not looked into: FF 2F 00 and a high byte inside an F0 that does not end in F7, a tempo of one byte
    "file 4D546864 00000006 0000 0001 0004 4D54726B 00000014 00F00400FF2F00 00FF5101FF 00902440 00FF2F00
     reply 0 0 0 1 1 1 1
     ids 0
     lengths 16
     text n036
     ends 4
     posting_counts 1
     posting_ids 0
     position_counts 1
     positions 0
     velocities 64",
    // long forms: a delta time of 1 in four bytes, a length of 0 in two
    "file 4D546864 00000006 0000 0001 0004 4D54726B 00000010 80808001902440 00FF018000 00FF2F00
     reply 0 0 0 1 1 1 1
     ids 0
     lengths 16
     text n036
     ends 4
     posting_counts 1
     posting_ids 0
     position_counts 1
     positions 1
     velocities 64",
    // two ticks to a step, hits on ticks 1, 2 and 3: the tick is rounded down, not the delta times
    "file 4D546864 00000006 0000 0001 0008 4D54726B 0000000E 01902440 012440 012640 00FF2F00
     reply 0 0 0 1 2 2 3
     ids 0
     lengths 16
     text n036n038
     ends 4 8
     posting_counts 1 1
     posting_ids 0 0
     position_counts 2 1
     positions 0 1 1
     velocities 64 64 64
     phrase n036 n036 : 0
     phrase n036 n038 : 0
     phrase n038 n036 : none",
    // channels 0 and 15, notes 0 and 127, on one step
    "file 4D546864 00000006 0000 0001 0004 4D54726B 0000000C 009F7F01 0090007F 00FF2F00
     reply 0 0 0 1 2 2 2
     ids 0
     lengths 16
     text n000n127
     ends 4 8
     posting_counts 1 1
     posting_ids 0 0
     position_counts 1 1
     positions 0 0
     velocities 127 1",
    // velocity 0 beyond bar 65,535, and an end of track far beyond
    "file 4D546864 00000006 0000 0001 0004 4D54726B 0000000D C08000902400 FFFFFF7FFF2F00
     reply 0 0 0 0 0 0 0",
];

const REFUSED: [&str; 27] = [
    // a data byte after a meta event, after an exclusive one, at the start
    "file 4D546864 00000006 0000 0001 0060 4D54726B 00000010 00902464 60FF060141 002664 00FF2F00
     reply 14 0 31 0 0 0 0",
    "file 4D546864 00000006 0000 0001 0060 4D54726B 0000000E 00902464 00F700 002664 00FF2F00
     reply 14 0 29 0 0 0 0",
    "file 4D546864 00000006 0000 0001 0060 4D54726B 00000007 002664 00FF2F00
     reply 14 0 22 0 0 0 0",
    // two ends; no end; an end cut short
    "file 4D546864 00000006 0000 0001 0004 4D54726B 0000000C 00902464 00FF2F00 00FF2F00
     reply 14 0 30 0 0 0 0",
    "file 4D546864 00000006 0000 0001 0004 4D54726B 00000004 00902464
     reply 14 0 26 0 0 0 0",
    "file 4D546864 00000006 0000 0001 0004 4D54726B 00000007 00902464 00FF2F
     reply 14 0 26 0 0 0 0",
    "file 4D546864 00000006 0000 0001 0004 4D54726B 00000000
     reply 14 0 22 0 0 0 0",
    // a hit too far stands before a later fault
    "file 4D546864 00000006 0000 0001 0004 4D54726B 0000000B BFFF7F902464 012664 00F1
     reply 15 0 0 0 0 0 0",
    // an earlier fault stands before it, and so does a fault of its own
    "file 4D546864 00000006 0000 0001 0004 4D54726B 00000008 00F1 C08000902464
     reply 14 0 22 0 0 0 0",
    "file 4D546864 00000006 0000 0001 0004 4D54726B 0000000A C08000902480 00FF2F00
     reply 14 0 22 0 0 0 0",
    "file 4D546864 00000006 0000 0001 0004 4D54726B 00000005 C080009024
     reply 14 0 22 0 0 0 0",
    // cut short: a delta time, what follows it, a meta event, a length that runs past the file
    "file 4D546864 00000006 0000 0001 0004 4D54726B 00000005 00902464 81
     reply 14 0 26 0 0 0 0",
    "file 4D546864 00000006 0000 0001 0004 4D54726B 00000005 00902464 00
     reply 14 0 26 0 0 0 0",
    "file 4D546864 00000006 0000 0001 0004 4D54726B 00000002 00FF
     reply 14 0 22 0 0 0 0",
    "file 4D546864 00000006 0000 0001 0004 4D54726B 00000007 00F005 00FF2F00
     reply 14 0 22 0 0 0 0",
    // a fourth byte above 127; FF 2F with a long form of 0; a meta type above 127
    "file 4D546864 00000006 0000 0001 0004 4D54726B 00000008 8080808000902464
     reply 14 0 22 0 0 0 0",
    "file 4D546864 00000006 0000 0001 0004 4D54726B 00000005 00FF2F8000
     reply 14 0 22 0 0 0 0",
    "file 4D546864 00000006 0000 0001 0004 4D54726B 00000008 00FF8000 00FF2F00
     reply 14 0 22 0 0 0 0",
    // a status in the place of a data byte; a status of no event
    "file 4D546864 00000006 0000 0001 0004 4D54726B 00000009 0090F82440 00FF2F00
     reply 14 0 22 0 0 0 0",
    "file 4D546864 00000006 0000 0001 0004 4D54726B 00000005 00C005 00F4
     reply 14 0 25 0 0 0 0",
    // another chunk behind the track; a file under 22 bytes; under 14; empty
    "file 4D546864 00000006 0000 0001 0004 4D54726B 00000004 00FF2F00 4D54726B 00000004 00FF2F00
     reply 14 0 14 0 0 0 0",
    "file 4D546864 00000006 0000 0001 0004 4D54726B 000000
     reply 14 0 14 0 0 0 0",
    "file 4D546864 00000006 0000 0001 00
     reply 14 0 0 0 0 0 0",
    "file
     reply 14 0 0 0 0 0 0",
    // a longer header; format 256; 257 tracks
    "file 4D546864 00000007 0000 0001 0004 00 4D54726B 00000004 00FF2F00
     reply 14 0 0 0 0 0 0",
    "file 4D546864 00000006 0100 0001 0004 4D54726B 00000004 00FF2F00
     reply 14 0 0 0 0 0 0",
    "file 4D546864 00000006 0000 0101 0004 4D54726B 00000004 00FF2F00
     reply 14 0 0 0 0 0 0",
];

pub fn texts() -> impl Iterator<Item = &'static str> {
    GROOVE.into_iter().chain(LOUD).chain(HITS).chain(REFUSED)
}

/// The bytes of a file in hex, with blanks between.
pub fn bytes(digits: &str) -> Vec<u8> {
    unhex(&digits.split_whitespace().collect::<String>()).unwrap_or_default()
}

pub fn all(midi: &mut Midi, runner: &mut Runner) {
    for text in texts() {
        match parsed(text) {
            Some(expected) if expected.loud || expected.empty() => {
                check(midi, runner, &format!("worked file {}", expected.file), &bytes(&expected.file), &expected)
            }
            _ => midi.stray(format!("not an expectation: {text}")),
        }
    }
}
