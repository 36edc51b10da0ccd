//! What stands above the tables.

pub const DATA: &str = "\
Bars as a drum machine has them, from a generator that always gives the same (`bench/src/data.rs`): ids rise by 1 to 3; a bar has 16, 32, 48
or 64 steps and 8 to 12 hits on any of its steps; a hit is one of 24 sounds, of which a few are frequent (closed hat 24, kick 20, snare 16 of
121 hits) and most are rare (1 to 8); one bar in 32 also has a fill, eight sounds on consecutive steps. The phrases are the fill's first 2, 4
and 8 sounds. The near questions ask for kick, snare and open hat within 4 steps, near_match for snare and clap.
";

pub const WHOLE: &str = "\
Each call opens the segment, on both sides. Opening is a pass over all bytes for the checksums, so the two columns of a size differ most
where a call does little else.
";

pub const APART: &str = "\
The library's time is the call's less an open's, taken in the same round; the Rust's is that of the method on a segment that is open, for
`bar_sheet` of the plain drawing, for the ranked phrases of the search with the plain counting and sort. Both check the lists' own
checksums, decode them and search. (What the calls that are left out answer, the Rust keeps from its open.)
";

pub const GROWTH: &str = "\
Nanoseconds a document, opened each time, on the machine that wrote this page: the library's, and the Rust's with crc32fast. A row that stays
level is linear.
";

pub const OFTEN: &str = "\
A program that asks one segment many questions need not open it each time. `open_once` and `check` answer a handle, a few numbers, which it
keeps beside the bytes and passes to the calls: of a segment that was opened once, whose lists a question still checks; or of one whose
lists were all checked, where a question is the walk alone. The Rust's like is a method on a segment that is open: it checks and decodes
the question's lists each time, so it stands beside both.

These bars can be said as a text too, for a search in texts (`bench/src/words.rs`): 16 steps, on each one of 50 sounds or, on a step in
four, a rest; the second sound is hit half as often as the first, the third a third as often, and so on; ids rise by 1 to 3. One bar in 32
has the eight most frequent sounds on consecutive steps. The phrases that are found are the beginnings of these eight; those not found
have its first two sounds exchanged: all these sounds are there, but in no bar the second right before the first. The near questions ask
for the first, third and fifth sound within 8 steps, near_match for the second and the fourth; the unknown name is behind the fourth.
";

pub const FTS5: &str = "\
A bar is a text of 16 words, a rest being one too, in a table without content and with full detail, in memory, written in one
transaction and merged by `optimize`. The statement is prepared once; a question binds its text and steps through all rows, whose ids are
collected. A phrase means the same there. NEAR has no order and counts the words between the first and the last name, so within 8 steps is
`NEAR(s01 s03 s05, 7)`; an ordered near cannot be asked.
";

pub const RATIOS: &str = "\
The answers of all were compared first: the Rust's, the library's with no handle and with each of the two, and FTS5's where it is asked.
Then all were asked in turn, round after round; a ratio is taken within a round, and the median of the rounds is shown. **The Rust opened
once is 1.** (Of 1,000 bars that are asked over and over the processor learns the branches by heart, on every side.)
";

pub const READS: &str = "\
At 100,000 bars, of the fourth sound, and of the middle one of the bars that have it. The Rust's `document_len` looks into a table on the
heap, which its open made, and its `df` needs no list; what the library has of a segment is its bytes and the handle's few numbers.
";

pub const OPENING: &str = "\
Against the Rust's open, with its crc32fast and with a table, and for the writer against the Rust's. `check` does more than an open: it
also decodes every list, as the Rust does in the row below it. A column of nanoseconds a bar that stays level from size to size is linear.
";

pub const BOUNDS: &str = "\
At 100,000 bars. What a call that opens takes more than one that was opened once is opening; what that takes more than a checked one is the
check of the question's lists; what is left is the walk (of the other calls: reading the answer). The checksums in them are worked out
from the bytes and the time of a byte, which is that of opening a segment of one list that is as long. The first five columns are shares of
a call that opens. A checked call is bounded by its walk. Last, from which question on a `check` and checked calls take less than calls that
open.
";

pub const OFTEN_GROWTH: &str = "\
Nanoseconds a bar: a row that stays level from size to size is linear, one that falls grows less than that. 1,000 bars stand here twice: one
segment asked over and over, whose branches the processor learns by heart, and in 100 different segments that take turns, where it cannot,
no more than in a large one.
";

pub const AIMS: &str = "\
At most so much of the other's time. Growth starts from the 100 segments, and is counted as linear up to 1.2 times their nanoseconds a bar;
from one segment asked over and over it is the larger factor that the table above shows.
";

pub const CHECKSUM: &str = "\
A segment of one list, opened: all but some 110 bytes are the list's, and opening takes their checksum and no more. The library's source
works out eight steps for each byte, of which the kit's compiler makes a lookup (decision 74). The last column is of the steps as they
stand: written in Rust and kept from such a compiler, over the list's bytes and nothing else. MB: a million bytes.
";

pub const HOSTILE: &str = "\
One document. Two sounds alternate two steps apart, and the questions want them closer: none is found, and every position has to be looked at
(up to 16,777,216 positions, half of each sound). Last, one sound in runs of 127 steps, and a phrase that names it 128 times. Level is linear.
";

pub const LIMITS: &str = "\
16,777,216 elements, the limit of document 01, in every list that can have as many at once: ids, lengths, text, posting ids, position counts,
positions. The ids are 255 apart, lengths and positions take five bytes each. One element more is refused with 12. Each segment was accepted,
equals the Rust's byte for byte, opens, and the first, middle and last of its lists read back as the Rust reads them. Timed once.
";

pub const MIDI: &str = "\
`midi_bars` has no original. Beside it runs a plain reader in Rust (`bench/src/plain.rs`): one pass over the bytes with the same rules, a
vector of steps and velocities for each note, of equal hits the loudest, and the nine lists from them; what it allocates it also drops. The
library fills lent buffers. The lists of both were compared first; a ratio is the library's time over the plain reader's. The files with
hits of 2 and of all 128 notes have the same ticks, postings and positions and differ in the notes alone: two at a time, in the second
other ones in each bar. The drummer's file is 48 bars of kick, snare and hats, with a release for each stroke; the last is texts and
exclusive events of up to 63 bytes, with a hit for every sixteen.
";

pub const SHEETS: &str = "\
`bar_sheet` has no original. Beside it runs what a program would do with the Rust's calls, here and in the tables above: it opens the
segment, asks for the positions of every sound in the bar, which decodes every list, and draws the lines (`bench/src/drawn.rs`). It is given
the names. Here every bar has 16 steps, and 8 to 12 hits of 50 sounds that are hit equally often. The sheets were compared first. A column
of nanoseconds a document that stays level is linear.
";

pub const SCATTERED: &str = "\
Sounds that the first and the last bar alone have, in bars of 16 steps. The check of a list looks each document up from the nearest of 128
places in the metadata, or from the one before, whichever is further on (decision 70); the Rust, in a table on the heap.
";

pub const RANKED: &str = "\
`phrase_match_ranked` has no original: the Rust has no ranked answer. Beside it, here and in the tables above, runs what a program would
do with the Rust's calls: it opens the segment, asks for the phrase's documents, decodes the list of each name for the starts, which the
search does not say, counts them document by document and sorts with `sort_unstable_by_key` (`bench/src/counted.rs`). That decodes each
list twice, so it also runs without the Rust's search (\"decoded once\"): the counting finds the documents, among those of the rarest
list. What is allocated is also dropped. The data is that of the first tables; the phrases are the fill's first sound, its first two and
its first four. The answers of all were compared first. The last column is what ranking adds to the library's own `phrase_match_strs`:
1.00 would be nothing.
";

pub const WAYS: &str = "\
The walk starts from the rarest of the phrase's lists and finds at most its documents. With a place for each of them in both buffers the
call walks once, and fills as it finds; with less room it walks once to count and, if the room is enough, once more to fill: here with a
place for each document found. For one name the two are the same. With a place less, for ids or for counts, it is refused with 13 after
the walk that counts, and nothing is sorted; the replies were compared, and that both buffers stay as they were. Every call opens the
segment and checks the lists. The last two columns are ratios to a plain search that is accepted.
";

pub const ORDERS: &str = "\
One sound, found in every bar on as many steps as the order says: on 16 in each; on 1 to 31 in stairs that rise with the id, fall, or rise
to the middle and fall again; on 1 to 31 at random; on 1 to 3 at random. (Counts that all differ would take more positions than a list may
have.) The walk meets the bars by rising id, so in these orders the sort gets them. The answers were compared first. Nanoseconds a bar at
each number of bars, then the factor from one number to the next, ten times as many: 1.00 is linear; n log n is 1.25 from 10,000 to 100,000
and 1.20 to 1,000,000, and more where the bars leave a cache; a quadratic case would show as 10. (Few bars that are ranked over and over the
processor learns by heart, on every side.)
";

pub const ORDERS_AIM: &str = "\
No quadratic case: from one number of bars to ten times as many, the nanoseconds a bar at most double. The largest factor of all:
";

pub const PAD: &str = "\
The calls on a pad have no original. Beside them runs a plain map in Rust (`bench/src/plain_pad.rs`): a `BTreeMap` from id to bar, with a
vector of hits each, velocities included, and the same rules for saving. It is kept from call to call and trusts itself. The library is
given 17,154 words that may be anything, and every call but the counter first looks at all that they hold, for 20: that is the last row of
each size, a save whose id is held, and most of the others. So the map also runs as a program would use it that has to keep its pad in such
words: read from them and checked in each call, and put back by a call that changes it. Bars of 64 steps with hits of any sounds and
velocities, ids 3 apart; the first bar is the one with most bars behind it to be moved. Replies, words and what was read back were compared
first.
";

pub const PAD_COUNTER: &str = "\
The number of hits, which a display asks for at every beat. `pad_hits` reads one word and looks at no other. The map has the total as well,
since saving needs it for 19; beside it the same added up over its bars, and the map read from the words and checked, as above. The last
column is the loop around each, with nothing called:
";

pub const PAD_WRITTEN: &str = "\
Writing out, beside the Rust's own writer from the map that is kept: the map's lists are made, then written, and all is dropped. The bytes
were compared first, and afterwards again.
";

pub const PAD_AIM: &str = "\
A save or a reading back of a full pad in well under a millisecond:
";

pub const LOOKUP: &str = "\
`length_of` has no original: the Rust looks lengths up in its own segments. Beside it runs plain Rust that answers and refuses the same
(`bench/src/lookup.rs`): `windows(2).position(..)` for the first id that is not above the one before it, then `binary_search`. Ids rise by 1
to 3; those asked for are drawn at random, and about half of them are there. The answers were compared first. The call reads the whole list
before it looks for the id, whatever id is asked, so it is linear in the ids; the search alone, `binary_search` over ids that it trusts,
shows what the test costs. The last column is the loop around each, with nothing called; nanoseconds an id are without it.
";

pub const LOOKUP_AIM: &str = "\
Linear in the number of ids: from one number to sixteen times as many, the nanoseconds an id at most double. The largest factor of all:
";

pub const STACK: &str = "\
The library allocates nothing. What a call touches of the stack, measured on a painted one, over 1,000 documents, over a MIDI file of
65,536 bytes with hits of all notes, and over a full pad; in the last two columns with a handle. Bytes:
";
