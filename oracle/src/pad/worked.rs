//! Examples worked out by hand from document 02. A line is a call, then its reply: `accepted FIRST SECOND` or `refused KIND WHICH INDEX`.
//! A hit is sound:step@velocity, without @ of velocity 64. `lists` is a save of sounds, steps and velocities as they are. `read ID` has the
//! places of sounds, of steps and of velocities, and behind the colon what they then hold. `write` has the names that are not empty, by
//! sound number, and the places of out; `bytes` is a part of what was written last, from an offset on, and `phrase` the bars that a phrase
//! finds in it. `run N` repeats a call with @ counting from 0, @2 by twos. `grid N L` is N hits: sound 0 on steps 0 to L - 1, then sound 1,
//! and so on. `hits` asks the counter; `word I W` makes W the word at I, and `words N` cuts or lengthens the pad to N words. Every example
//! begins with a pad of zeros.

use super::call::{Call, Lists};
use super::compare::{Pad, Pads};
use super::corners::{expect, grid, refused};
use super::model::{answer, Answer, Hit, SOUNDS};
use crate::case::{Case, ENDS};
use crate::compare::{opened, Runner};
use crate::questions::ends_of;
use crate::reply::Reply;
use crate::show::{numbers, unhex};

/// Document 01's bars: recorded, read back and written out, bar 3 before bar 7.
const RECORDED: &str = "
save 7 16 36:2 38:3 38:4 = accepted 3 0
save 3 16 36:0 36:4 36:15 38:8 38:14 = accepted 5 0
read 3 5 5 5 = accepted 5 16 : 36:0 36:4 36:15 38:8 38:14
read 3 5 4 5 = refused 13 2 5
read 4 0 0 0 = refused 16 0 0
write 36=kick 38=snare out 164 = refused 13 1 165
write 36=kick 38=snare out 200 = accepted 165 0
bytes 136 6B69636B736E617265 03100410 030300040B040102 0302080604020301
phrase kick snare = 7
phrase snare = 3 7
phrase kick kick =";

/// What saving refuses, and in which order.
const REFUSED: &str = "
save 1 4 5:0 = accepted 1 0
lists 1 4 5,6 0 64,64 = refused 18 0 0
lists 2 4 5,6 0 64,64 = refused 11 0 0
save 2 4 5:9 5:1 128:0 = refused 12 0 0
save 2 4 5:9 5:1 127:0 = refused 6 20 0
save 2 4 5:1 5:1 = refused 6 20 0
save 2 4 5:1 5:9 = refused 6 21 0
save 2 4 5:3 5:4 = refused 6 21 0
save 2 0 = accepted 0 0
erase 1 = accepted 1 0
erase 1 = refused 16 0 0
read 2 0 0 0 = accepted 0 0 :";

/// A full pad, and room in pieces.
const FULL: &str = "
run 64 save @ 64 grid 128 64 = accepted 128 0
save 100 64 0:0 = refused 19 0 0
save 100 64 = accepted 0 0
run 32 erase @2 = accepted 128 0
save 200 64 grid 4097 64 = refused 19 0 0
save 200 64 grid 4096 64 = accepted 4096 0
read 1 128 128 128 = accepted 128 64 : grid 128 64
read 200 4096 4096 4096 = accepted 4096 64 : grid 4096 64
write out 0 = refused 6 6 0";

/// One bar of one sound: its name; bar 1 of length 8; one posting, bar 1 with two steps, 0 and 4.
const ONE: &str = "
save 1 8 36:0 36:4 = accepted 2 0
read 1 1 2 2 = refused 13 1 2
read 1 2 1 2 = refused 13 2 2
write 36=kick out 200 = accepted 114 0
bytes 104 6B69636B 0108 01020004
erase 1 = accepted 2 0
write out 72 = accepted 72 0
write out 71 = refused 13 1 72";

/// Velocities: their range, which refusal comes first, a third list to read back; the bytes of `ONE` whatever they are; and what words may
/// hold: 32548 is sound 36 with velocity 127, 36 the same with velocity 0, 32804 with 128, 65572 with 256, 32676 sound 164,
/// and 4294934308 the first with all higher bits set.
const LOUD: &str = "
save 1 8 36:0@127 36:4@1 = accepted 2 0
save 2 8 36:0@0 = refused 22 0 0
save 2 8 36:0@128 128:0@64 = refused 12 0 0
save 2 8 36:4@128 36:0@64 = refused 22 0 0
save 2 8 36:4@64 36:4@0 = refused 22 0 0
save 2 8 36:9@255 = refused 22 0 0
save 1 8 36:0@0 = refused 18 0 0
save 2 8 36:4@64 36:4@65 = refused 6 20 0
save 2 8 36:4@65 36:4@64 = refused 6 20 0
lists 2 8 36,38 0,1 64 = refused 11 0 0
lists 2 8 36,38 0,1 64,64,64 = refused 11 0 0
lists 2 8 36 0 0,128 = refused 11 0 0
lists 2 8 128 0,1 64,64 = refused 11 0 0
read 1 2 2 1 = refused 13 3 2
read 1 2 1 1 = refused 13 2 2
read 1 2 2 2 = accepted 2 8 : 36:0@127 36:4@1
write 36=kick out 200 = accepted 114 0
bytes 104 6B69636B 0108 01020004
save 0 8 9:7@5 = accepted 1 0
save 2 8 127:7@99 = accepted 1 0
read 1 2 2 2 = accepted 2 8 : 36:0@127 36:4@1
erase 0 = accepted 1 0
read 1 2 2 2 = accepted 2 8 : 36:0@127 36:4@1
read 2 1 1 1 = accepted 1 8 : 127:7@99
word 5 32548
read 1 2 2 2 = accepted 2 8 : 36:0@127 36:4@1
word 5 16420
read 1 2 2 2 = accepted 2 8 : 36:0@64 36:4@1
word 5 36
read 1 2 2 2 = refused 20 0 0
save 3 8 = refused 20 0 0
erase 2 = refused 20 0 0
write 36=kick 127=z out 200 = refused 20 0 0
hits = accepted 3 0
word 5 32804
erase 2 = refused 20 0 0
word 5 65572
erase 2 = refused 20 0 0
word 5 32676
erase 2 = refused 20 0 0
word 5 4294934308
erase 2 = refused 20 0 0
word 5 292
erase 2 = accepted 1 0
read 1 2 2 2 = accepted 2 8 : 36:0@1 36:4@1";

/// 256 bars, all but one without hits: 72, an entry of 32, a name of 1, metadata of 2 for each bar, and a list of 4, since 256 takes two.
const BARS: &str = "
run 256 save @ 0 = accepted 0 0
save 256 1 0:0 = refused 19 0 0
save 255 1 0:0 = refused 18 0 0
erase 7 = accepted 0 0
save 256 1 0:0 = accepted 1 0
read 256 1 1 1 = accepted 1 1 : 0:0
write 0=a out 2000 = accepted 621 0";

/// The counter: the sum over the bars held, which refused calls leave; then a wrong total, a right one on words that are no pad, and slices
/// of other lengths.
const COUNTED: &str = "
hits = accepted 0 0
save 7 16 36:2 38:3 38:4 = accepted 3 0
hits = accepted 3 0
save 3 16 36:0 36:4 = accepted 2 0
hits = accepted 5 0
save 3 16 36:0 = refused 18 0 0
save 9 16 36:16 = refused 6 21 0
erase 4 = refused 16 0 0
hits = accepted 5 0
word 1 6
hits = accepted 6 0
save 9 16 36:0 = refused 20 0 0
erase 7 = refused 20 0 0
read 7 3 3 3 = refused 20 0 0
write 36=a 38=b out 500 = refused 20 0 0
hits = accepted 6 0
word 1 4
hits = accepted 4 0
erase 7 = refused 20 0 0
word 1 4294967295
hits = accepted 4294967295 0
word 1 5
word 0 257
hits = accepted 5 0
erase 7 = refused 20 0 0
word 0 2
erase 7 = accepted 3 0
hits = accepted 2 0
words 17155
hits = accepted 2 0
erase 3 = refused 20 0 0
words 2
hits = accepted 2 0
words 1
hits = accepted 0 0
words 0
hits = accepted 0 0";

fn hit(word: &str) -> Option<Hit> {
    let (sound, step) = word.split_once(':')?;
    let (step, velocity) = step.split_once('@').unwrap_or((step, "64"));
    Some((sound.parse().ok()?, step.parse().ok()?, velocity.parse().ok()?))
}

fn hits(words: &[&str]) -> Option<Vec<Hit>> {
    match words {
        ["grid", count, length] => Some(grid(count.parse().ok()?, length.parse().ok()?)),
        _ => words.iter().map(|word| hit(word)).collect(),
    }
}

fn write(names: &[&str], room: &str) -> Option<Call> {
    let mut all = vec![Vec::new(); SOUNDS];
    for name in names {
        let (sound, name) = name.split_once('=')?;
        all[sound.parse::<usize>().ok()?] = name.as_bytes().to_vec();
    }
    Some(Call::Write { text: all.concat(), ends: ends_of(&all), room: room.parse().ok()? })
}

fn call(words: &[&str]) -> Option<Call> {
    Some(match words {
        ["save", id, length, hit_words @ ..] => Call::save(id.parse().ok()?, length.parse().ok()?, &hits(hit_words)?),
        ["lists", id, length, sounds, steps, velocities] => {
            let lists = Lists { sounds: numbers(sounds)?, steps: numbers(steps)?, velocities: numbers(velocities)? };
            Call::Save { id: id.parse().ok()?, length: length.parse().ok()?, lists }
        }
        ["erase", id] => Call::Erase { id: id.parse().ok()? },
        ["read", id, sounds, steps, velocities] => {
            let room = [sounds.parse().ok()?, steps.parse().ok()?, velocities.parse().ok()?];
            Call::Read { id: id.parse().ok()?, room }
        }
        ["write", names @ .., "out", room] => write(names, room)?,
        ["hits"] => Call::Hits,
        _ => return None,
    })
}

fn reply(words: &[&str]) -> Option<Reply> {
    let number = |word: &str| word.parse::<u64>().ok();
    Some(match words {
        ["accepted", first, second] => Reply::accepted(number(first)?, number(second)?),
        ["refused", kind, which, index] => refused(kind.parse().ok()?, which.parse().ok()?, number(index)?),
        _ => return None,
    })
}

/// The calls of a line: one, or as many as `run` says.
fn calls(words: &[&str]) -> Option<Vec<Call>> {
    let ["run", count, rest @ ..] = words else { return Some(vec![call(words)?]) };
    let at = |i: usize| {
        rest.iter()
            .map(|word| match *word {
                "@" => i.to_string(),
                "@2" => (2 * i).to_string(),
                word => word.to_string(),
            })
            .collect::<Vec<String>>()
    };
    (0..count.parse().ok()?).map(|i| call(&at(i).iter().map(String::as_str).collect::<Vec<_>>())).collect()
}

/// The bars that a phrase finds in the bytes, by library and Rust.
fn found(runner: &mut Runner, bytes: &[u8], names: &[&str]) -> Option<Vec<u32>> {
    let (text, ends) = (names.concat().into_bytes(), ends_of(names));
    let mut case = Case::on(crate::case::Call::Phrase, bytes).named(&text);
    case.lists[ENDS] = &ends;
    runner.ask_full(&case, &opened(bytes)).map(|mut answer| std::mem::take(&mut answer.places[0]))
}

/// One line; none if it is not as it has to be.
fn line(pads: &mut Pads, runner: &mut Runner, pad: &mut Pad, written: &mut Vec<u8>, line: &str) -> Option<()> {
    let (asked, said) = line.split_once(" =").unwrap_or((line, ""));
    let asked: Vec<&str> = asked.split_whitespace().collect();
    let (said, behind) = said.split_once(':').filter(|_| asked[0] == "read").unwrap_or((said, ""));
    let said: Vec<&str> = said.split_whitespace().collect();
    match &asked[..] {
        ["bytes", offset, hex @ ..] => {
            let part = unhex(&hex.concat())?;
            return (written.get(offset.parse::<usize>().ok()?..)? == part).then_some(());
        }
        ["phrase", names @ ..] => {
            let ids: Vec<u32> = said.iter().map(|id| id.parse().ok()).collect::<Option<_>>()?;
            return (found(runner, written, names)? == ids).then_some(());
        }
        ["word", at, word] => {
            *pad.words.get_mut(at.parse::<usize>().ok()?)? = word.parse().ok()?;
            *pad = Pad::of(std::mem::take(&mut pad.words));
            return Some(());
        }
        ["words", count] => {
            pad.words.resize(count.parse().ok()?, 0);
            *pad = Pad::of(std::mem::take(&mut pad.words));
            return Some(());
        }
        _ => {}
    }
    let expected = reply(&said)?;
    for call in calls(&asked)? {
        let told = answer(&pad.held, &call);
        if let (Ok(answer), Call::Read { .. }) = (&told, &call) {
            let Answer { sounds, steps, velocities, .. } = answer;
            let held = Lists { sounds: sounds.clone(), steps: steps.clone(), velocities: velocities.clone() };
            if held.hits() != hits(&behind.split_whitespace().collect::<Vec<_>>())? {
                return None;
            }
        }
        if let (Ok(answer), Call::Write { .. }) = (told, &call) {
            *written = answer.bytes;
        }
        expect(pads, pad, &call, expected, line);
    }
    Some(())
}

pub fn all(pads: &mut Pads, runner: &mut Runner) {
    for example in [RECORDED, REFUSED, FULL, ONE, LOUD, BARS, COUNTED] {
        let (mut pad, mut written) = (Pad::empty(), Vec::new());
        for said in example.lines().filter(|said| !said.is_empty()) {
            if line(pads, runner, &mut pad, &mut written, said).is_none() {
                pads.stray(format!("an example is not as the model has it: {said}"));
            }
        }
    }
}
