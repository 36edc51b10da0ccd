/* Positional segments: documents, terms and positions in one sequence of bytes, and the search over them.
 *
 * In a drum machine a document is a bar, a term a sound, a position a step. The calls are those of src/positional/raw.rs of
 * arclabs561/postings (see NOTICE), ported to Rattle and proved, and beyond them pstp_midi_bars, which reads bars from a MIDI file,
 * pstp_bar_sheet, which shows a bar in lines of text, pstp_phrase_match_ranked, which lists the best bars first, pstp_length_of, which
 * looks a length up in lists of the caller's own, the calls with a handle (pstp_check), for a segment that is checked once and asked often,
 * and those on a pad (pstp_pad_save), which holds bars before they are written. docs/FORMAT.md describes the format, the order of the
 * checks and the rules of the search; docs/GLOSSARY.md explains the words.
 * Link with libpstp.a (`tests/staticlib`, x86-64 Linux). C99 and C++.
 *
 * What every call guarantees
 *
 *  - A slice is a pointer and a number of elements. The contents may be anything: broken segments, MIDI files and pads, lists that do not
 *    fit together or do not rise, any name and any buffer length are either accepted or refused.
 *  - A reply with kind PSTP_ACCEPTED has the answer in `first` to `fourth` (0 where the call names none), and which = index = 0. Any other
 *    kind is a refusal: kind, which and index say what was refused, first to fourth are 0, and every lent buffer is unchanged.
 *  - After acceptance an answer of n elements fills the first n elements of its buffer; the elements behind them are unchanged.
 *  - No call allocates memory, opens a file or keeps state, and all calls are thread-safe. No pointer is kept after the return.
 *  - Stack: under 36 KiB for the searches, under 16 KiB for a search with a checked handle and for pstp_check, pstp_midi_bars and
 *    pstp_bar_sheet (tables of 128 places), under 64 KiB for pstp_pad_write (a sound's steps), under 4 KiB for every other call. This is
 *    measured (tests/c/stack.c), not proved.
 *
 * What the caller must ensure
 *
 *  - Each pointer is valid for its number of elements and aligned for its type (uint32_t and records: 4 bytes).
 *  - A lent buffer (not const) overlaps nothing else that is passed in the same call. Slices that are only read may overlap or be equal.
 *  - While the call runs, no other thread writes to what is passed in, or reads a lent buffer.
 *  - A pointer is not NULL, even with 0 elements: pass any valid, aligned address. The proofs cover valid slices only. (In fact nothing is
 *    read or written through the pointer of an empty slice: tests/c/empty.c passes NULL to every call.)
 *  - `ordered` is a bool: 0 or 1.
 *
 * How large a buffer must be
 *
 *  Lend an empty buffer: PSTP_NO_ROOM returns in `which` the first buffer that is too short (from 1, in the order of the parameters; a pad
 *  is not counted) and in `index` the length it needs. An answer of no elements is accepted at once. Or lend what is always enough and save
 *  the second call (each call without a handle opens and checks the whole segment again): for ids, lengths and counts, the number of
 *  documents that pstp_open returns and an accepted handle has. pstp_midi_bars, pstp_bar_sheet, pstp_pad_read and pstp_pad_write say
 *  themselves what is always enough.
 */
#ifndef PSTP_H
#define PSTP_H

#include <stdbool.h>
#include <stddef.h>
#include <stdint.h>

#ifdef __cplusplus
extern "C" {
#endif

/* A reply, returned by value. */
typedef struct pstp_reply {
    uint32_t kind;   /* PSTP_ACCEPTED, or the kind of the refusal */
    uint32_t which;  /* refusal: a section, a reason or a buffer, depending on the kind; otherwise 0 */
    uint64_t index;  /* refusal: a value, an index or a length, depending on the kind; otherwise 0 */
    uint64_t first;  /* accepted: the first number of the answer */
    uint64_t second; /* accepted: the second number, or 0 */
    uint64_t third;  /* accepted: the third number, or 0 */
    uint64_t fourth; /* accepted: the fourth number, or 0 */
} pstp_reply;

/* Kinds: `kind` of a reply. In brackets, what `which` and `index` hold; otherwise they are 0. */
enum {
    PSTP_ACCEPTED = 0,

    /* Caused by the segment. */
    PSTP_TRUNCATED = 1,           /* a range ends past its section or the segment (which: section) */
    PSTP_INVALID_MAGIC = 2,       /* the segment does not begin with PSTP0001 */
    PSTP_UNSUPPORTED_VERSION = 3, /* not version 2 (index: the version) */
    PSTP_UNSUPPORTED_FLAGS = 4,   /* flags other than 0 (index: the flags) */
    PSTP_CHECKSUM_MISMATCH = 5,   /* wrong checksum (which: section) */
    PSTP_INVALID_LAYOUT = 6,      /* invalid layout, also of what is written or saved (which: reason) */
    PSTP_INVALID_VARINT = 7,      /* not a number of 1 to 5 bytes below 2^32 (which: section; index: of the element) */
    PSTP_DOC_ID_OVERFLOW = 8,     /* a document id above 2^32 - 1 (index: of the element) */
    PSTP_POSITION_OVERFLOW = 9,   /* a position above 2^32 - 1 (index: of the element) */

    /* Caused by the segment, or by a name that the caller passes. */
    PSTP_INVALID_UTF8 = 10, /* a name is not UTF-8 */

    /* Caused by the caller. */
    PSTP_LIST_SHAPE = 11, /* the lists do not fit together: ends decrease or do not end at the text's length, parallel lists differ in
                             length, counts do not add up, or a pad's names are not PSTP_PAD_SOUNDS */
    PSTP_TOO_LARGE = 12,  /* a list, text or MIDI file of over PSTP_LIMIT elements, a question of over PSTP_NAMES names, or a sound to
                             save that is above 127 */
    PSTP_NO_ROOM = 13,    /* a lent buffer is too short for the whole answer (which: buffer, from 1; index: the length needed) */

    /* Caused by the MIDI file. */
    PSTP_MIDI_FILE = 14,   /* a file outside the rules of pstp_midi_bars (index: 0 for the header, 14 for the track's heading, otherwise
                              an offset: of the wrong event's delta time, of the first byte after the end of track, or the file's length
                              where that end is missing) */
    PSTP_BAR_TOO_FAR = 15, /* a hit beyond bar 65,535 */

    /* Caused by the id of the bar that the caller asks for. */
    PSTP_UNKNOWN_BAR = 16,  /* no bar has this id */
    PSTP_BAR_TOO_LONG = 17, /* the bar has over PSTP_SHEET_STEPS steps */

    /* Caused by a pad and what is to be saved on it. */
    PSTP_ALREADY_HELD = 18, /* the pad holds a bar of this id */
    PSTP_PAD_FULL = 19,     /* the pad holds PSTP_PAD_BARS bars, or would hold over PSTP_PAD_HITS hits */
    PSTP_BROKEN_PAD = 20,   /* the words are no pad ("A pad to record on") */

    /* Caused by the ids in lists of the caller's own. */
    PSTP_IDS_NOT_RISING = 21, /* an id is not above the one before it (index: of the first such id, from 0, so at least 1) */

    /* Caused by the hits that are to be saved on a pad. */
    PSTP_VELOCITY_RANGE = 22 /* a velocity that is not 1 to 127 */
};

/* Sections: `which` of kinds 1, 5 and 7. */
enum {
    PSTP_SECTION_HEADER = 1,
    PSTP_SECTION_TERM_DIRECTORY = 2,
    PSTP_SECTION_TERM_BYTES = 3,
    PSTP_SECTION_DOCUMENT_METADATA = 4,
    PSTP_SECTION_POSTINGS = 5,
    PSTP_SECTION_TERM_POSTINGS = 6 /* the list of one term: kind 5 only */
};

/* Reasons: `which` of kind 6. */
enum {
    /* Reading; 6, 8, 10 and 11 also writing. */
    PSTP_REASON_TRAILING_BYTES = 1,
    PSTP_REASON_SECTION_RANGE_OVERFLOW = 2,
    PSTP_REASON_TRAILING_DOCUMENT_METADATA = 3,
    PSTP_REASON_NON_INCREASING_DOCUMENT_ID = 4,
    PSTP_REASON_DIRECTORY_LENGTH_MISMATCH = 5,
    PSTP_REASON_EMPTY_TERM = 6,
    PSTP_REASON_NON_INCREASING_TERM = 7,
    PSTP_REASON_EMPTY_TERM_POSTING_LIST = 8,
    PSTP_REASON_NON_INCREASING_POSTING_ID = 9,
    PSTP_REASON_UNKNOWN_DOCUMENT = 10,
    PSTP_REASON_EMPTY_POSITION_LIST = 11,
    PSTP_REASON_NON_INCREASING_POSITION = 12,
    PSTP_REASON_POSITION_EXCEEDS_LENGTH = 13,
    PSTP_REASON_TRAILING_POSTING_BYTES = 14,

    /* Writing; 20 and 21 also saving on a pad. */
    PSTP_REASON_DOCUMENT_LENGTHS_NOT_INCREASING = 15,
    PSTP_REASON_TERMS_NOT_INCREASING = 16,
    PSTP_REASON_POSTING_ID_GAP_UNDERFLOW = 17,
    PSTP_REASON_POSTING_IDS_NOT_INCREASING = 18,
    PSTP_REASON_POSITION_GAP_UNDERFLOW = 19,
    PSTP_REASON_POSITIONS_NOT_INCREASING = 20,
    PSTP_REASON_WRITTEN_POSITION_EXCEEDS_LENGTH = 21
};

/* Limits. Segments and lent buffers have none; a pad has PSTP_PAD_WORDS words. */
#define PSTP_LIMIT 16777216 /* elements of a list, text or MIDI file that is passed in */
#define PSTP_NAMES 128      /* names of a question */
#define PSTP_SHEET_STEPS 64 /* steps of a bar on a sheet */

/* The checks have a fixed order (docs/FORMAT.md), and the first that fails gives the refusal. Each call lists its refusals in that order,
 * as kind or kind/which. Two sequences are common to several calls:
 *
 * Opening: 1/1 (under 72 bytes); 2; 3; 4; for each of sections 2 to 5 its range, 6/2 or 1/section; 6/1; the checksums 5/2, 5/3,
 *   5/4, 5/5; for each document 7/4 (either number), 8, 6/4; 6/3; 6/5; for each directory entry 1/3, 10, 6/6, 6/7, 6/2 or 1/5, 6/8.
 *   The index of 7 and 8 is that of the document, from 0. Posting lists are not decoded.
 *
 * Decoding a term's list: 5/6; for each posting 7/5, 8, 6/9, 6/10, 7/5, 6/11 and for each of its positions 7/5, 9, 6/12, 6/13; at the end
 *   6/14. The index of 7 to 9 is that of the posting, from 0, plus, for a position, its index in the posting.
 *
 * A name is any UTF-8 text, without a terminating 0. The names of a question are one text and, for each name, the offset in it where that
 * name ends: "kick" and "snare" are the text "kicksnare" with ends 4, 9. A name begins where the one before it ends, the first at 0; the
 * last ends where the text ends. A questioned name may be empty: no segment has such a term. Each name is checked for UTF-8 by itself.
 */

/* Opens a segment: checks header, checksums, documents and directory; posting lists are not decoded.
 * first: number of documents; second: number of terms.
 * Refusals: opening. */
pstp_reply pstp_open(const uint8_t *segment, size_t segment_len);

/* Every document's id and length, by increasing id.
 * first: number of documents, each with one element of ids and of lengths.
 * Refusals: opening; 13/1 ids, 13/2 lengths. */
pstp_reply pstp_document_lengths(const uint8_t *segment, size_t segment_len, uint32_t *ids, size_t ids_len, uint32_t *lengths,
                                 size_t lengths_len);

/* One document's length. (pstp_length_of looks it up in lists of the caller's own.)
 * first: 1 and second: the length; both 0 for a document that the segment does not have.
 * Refusals: opening. */
pstp_reply pstp_document_len(const uint8_t *segment, size_t segment_len, uint32_t id);

/* The number of documents that contain a term, as stored in the directory; the list is not decoded.
 * first: that number; 0 for an unknown term.
 * Refusals: 12; 10; opening. */
pstp_reply pstp_df(const uint8_t *segment, size_t segment_len, const uint8_t *name, size_t name_len);

/* The documents that contain a term, by increasing id.
 * first: number of documents, each with one element of ids; 0 for an unknown term.
 * Refusals: 12; 10; opening; decoding the list; 13/1 ids. */
pstp_reply pstp_docs_with_term(const uint8_t *segment, size_t segment_len, const uint8_t *name, size_t name_len, uint32_t *ids,
                               size_t ids_len);

/* A term's postings: for each document that contains it, by increasing id, its positions there, increasing.
 * first: number of postings, each with one element of ids and of counts; second: number of positions of all postings, which follow each
 * other in positions, counts[i] of them for ids[i]. Both 0 for an unknown term.
 * Refusals: 12; 10; opening; decoding the list; 13/1 ids, 13/2 counts, 13/3 positions. */
pstp_reply pstp_term_postings(const uint8_t *segment, size_t segment_len, const uint8_t *name, size_t name_len, uint32_t *ids,
                              size_t ids_len, uint32_t *counts, size_t counts_len, uint32_t *positions, size_t positions_len);

/* A term's positions in one document, increasing.
 * first: number of positions, each with one element of positions; 0 for an unknown term, an unknown document or one without the term.
 * Refusals: 12; 10; opening; decoding the whole list, whatever the document; 13/1 positions. */
pstp_reply pstp_positions(const uint8_t *segment, size_t segment_len, const uint8_t *name, size_t name_len, uint32_t id,
                          uint32_t *positions, size_t positions_len);

/* The three searches return the documents that match a question.
 * first: number of documents, each with one element of ids, increasing.
 * Refusals: 12; 11 (not near_match); 10; opening; decoding the list of each different term in the order of first mention, even if another
 * name is unknown; 13/1 ids.
 * An idle question (a phrase of no names, a near question of fewer than two names, a window of 0) is checked and the segment opened, but
 * no list is decoded; its answer is empty. */

/* Phrase: the names on consecutive positions; name i, from 0, is on start + i, for some start. */
pstp_reply pstp_phrase_match_strs(const uint8_t *segment, size_t segment_len, const uint8_t *text, size_t text_len,
                                  const uint32_t *ends, size_t ends_len, uint32_t *ids, size_t ids_len);

/* Two names at most `window` positions apart, in any order; the same name twice must occur twice. This is pstp_near_match_terms_strs with
 * these two names and ordered false, except that 12 applies to each name by itself and 11 cannot occur. */
pstp_reply pstp_near_match(const uint8_t *segment, size_t segment_len, const uint8_t *a, size_t a_len, const uint8_t *b, size_t b_len,
                           uint32_t window, uint32_t *ids, size_t ids_len);

/* Ordered: the names on strictly increasing positions, in the order named, last minus first at most `window`.
 * Unordered: some window + 1 consecutive positions contain each different name at least as often as it is mentioned; two different names
 * may share a position. */
pstp_reply pstp_near_match_terms_strs(const uint8_t *segment, size_t segment_len, const uint8_t *text, size_t text_len,
                                      const uint32_t *ends, size_t ends_len, uint32_t window, bool ordered, uint32_t *ids,
                                      size_t ids_len);

/* The phrase search, the best bars first: the documents of pstp_phrase_match_strs, each once, with the number of different starts at
 * which the phrase fits in it. Starts whose phrases overlap are different: a term on 0, 1, 2, 3 has the phrase of that term twice at 3.
 * first: number of documents, each with one element of ids and of counts: counts[i] is that of ids[i], at least 1. By decreasing count, and
 * of equal counts by increasing id.
 * Refusals: those of pstp_phrase_match_strs, the last of them 13/1 ids; 13/2 counts. The index of both is the number of documents.
 * No names: none, as there. The answer is sorted in place, in n log n steps for n documents, whatever their order. */
pstp_reply pstp_phrase_match_ranked(const uint8_t *segment, size_t segment_len, const uint8_t *text, size_t text_len,
                                    const uint32_t *ends, size_t ends_len, uint32_t *ids, size_t ids_len, uint32_t *counts,
                                    size_t counts_len);

/* Checked once, asked often
 *
 * Each call above opens the segment again, which reads all of it, and decodes the lists that it needs. Who has many questions to one
 * segment has it checked once, keeps the handle, and passes it to the calls of the same names with _checked, which leave out what the
 * handle vouches for:
 *
 *  - If the handle is what pstp_check or pstp_open_once returned for these bytes, a refused handle included, the reply and every lent
 *    buffer are those of the call without _checked.
 *  - For any bytes and any handle, also one of other bytes or made up, the call ends and reads inside the slices; a refusal leaves every
 *    lent buffer unchanged; an accepted answer fits its buffers, and the elements behind it are unchanged. What it answers is then not
 *    said.
 *
 * A handle is numbers only and points to nothing: it may be copied, kept and sent, and never needs to be released. It knows nothing of what
 * happens to the bytes: who changes them must check again.
 */

/* Levels: `level` of a handle. */
enum {
    PSTP_LEVEL_REFUSED = 0, /* the segment, or with pstp_check one of its lists, is refused */
    PSTP_LEVEL_OPENED = 1,  /* the segment opens; lists are decoded for each question, as without a handle */
    PSTP_LEVEL_CHECKED = 2  /* the segment opens and every list decodes: nothing is checked again */
};

/* A handle, returned and passed by value. */
typedef struct pstp_handle {
    uint32_t kind;      /* PSTP_ACCEPTED, or the kind of the refusal, with which and index as in a reply; then all from level on are 0 */
    uint32_t which;     /* refusal: a section or a reason, depending on the kind; otherwise 0 */
    uint64_t index;     /* refusal: a value or an index, depending on the kind; otherwise 0 */
    uint32_t level;     /* PSTP_LEVEL_.. */
    uint32_t documents; /* accepted: number of documents */
    uint32_t terms;     /* accepted: number of terms */
    uint32_t spare;     /* 0 */
    size_t names;       /* accepted: the offset in the segment where the names begin */
    size_t metadata;    /* accepted: where the metadata begins */
    size_t lists;       /* accepted: where the lists begin */
} pstp_handle;

/* Opens a segment as pstp_open does, at the same cost.
 * A handle with PSTP_LEVEL_OPENED. It serves a segment of which some list does not decode, or one that is asked little.
 * Refusals, as kind, which and index of a handle with PSTP_LEVEL_REFUSED: opening. */
pstp_handle pstp_open_once(const uint8_t *segment, size_t segment_len);

/* Opens a segment and decodes the list of every term. Lists may share bytes; these are read for each of them.
 * A handle with PSTP_LEVEL_CHECKED.
 * Refusals, as kind, which and index of a handle with PSTP_LEVEL_REFUSED: opening; decoding the list of every term in the order of the
 * directory. The calls below accept such a handle and answer as without one: a name whose list decodes is found, whatever list is
 * refused. */
pstp_handle pstp_check(const uint8_t *segment, size_t segment_len);

/* The eight calls with a handle. Each is lent the same buffers as the call without _checked, and with a handle of these bytes has its first
 * and second, and its refusals in their order. */

/* One document's length: as pstp_document_len. */
pstp_reply pstp_document_len_checked(const uint8_t *segment, size_t segment_len, pstp_handle handle, uint32_t id);

/* The number of documents that contain a term, as stored in the directory: as pstp_df. */
pstp_reply pstp_df_checked(const uint8_t *segment, size_t segment_len, pstp_handle handle, const uint8_t *name, size_t name_len);

/* The documents that contain a term: as pstp_docs_with_term. */
pstp_reply pstp_docs_with_term_checked(const uint8_t *segment, size_t segment_len, pstp_handle handle, const uint8_t *name,
                                       size_t name_len, uint32_t *ids, size_t ids_len);

/* A term's postings: as pstp_term_postings. */
pstp_reply pstp_term_postings_checked(const uint8_t *segment, size_t segment_len, pstp_handle handle, const uint8_t *name,
                                      size_t name_len, uint32_t *ids, size_t ids_len, uint32_t *counts, size_t counts_len,
                                      uint32_t *positions, size_t positions_len);

/* A term's positions in one document: as pstp_positions. */
pstp_reply pstp_positions_checked(const uint8_t *segment, size_t segment_len, pstp_handle handle, const uint8_t *name, size_t name_len,
                                  uint32_t id, uint32_t *positions, size_t positions_len);

/* Phrase: as pstp_phrase_match_strs. */
pstp_reply pstp_phrase_match_strs_checked(const uint8_t *segment, size_t segment_len, pstp_handle handle, const uint8_t *text,
                                          size_t text_len, const uint32_t *ends, size_t ends_len, uint32_t *ids, size_t ids_len);

/* Two names near each other: as pstp_near_match. */
pstp_reply pstp_near_match_checked(const uint8_t *segment, size_t segment_len, pstp_handle handle, const uint8_t *a, size_t a_len,
                                   const uint8_t *b, size_t b_len, uint32_t window, uint32_t *ids, size_t ids_len);

/* Names near each other, ordered or not: as pstp_near_match_terms_strs. */
pstp_reply pstp_near_match_terms_strs_checked(const uint8_t *segment, size_t segment_len, pstp_handle handle, const uint8_t *text,
                                              size_t text_len, const uint32_t *ends, size_t ends_len, uint32_t window, bool ordered,
                                              uint32_t *ids, size_t ids_len);

/* Writes documents and terms as a segment to the beginning of out.
 * first: the segment's length in bytes.
 *
 *  ids, lengths                 the documents, by strictly increasing id
 *  text, ends                   the names of the terms, strictly increasing in byte order
 *  posting_counts               for each term its number of postings
 *  posting_ids, position_counts the postings of the first term, then of the next: document, and number of positions
 *  positions                    the positions of the first posting, then of the next, strictly increasing in each posting
 *
 * Refusals: 12 for any of the eight lists; 11; 6/15; for each term 10, 6/6, 6/16, 6/8, for each of its postings 6/10, 6/17, 6/18, 6/11 and
 * for each of its positions 6/19, 6/20, 6/21; 13/1 out. After a greater id or position: 17 or 19; after an equal one: 18 or 20. */
pstp_reply pstp_write_positional_segment(const uint32_t *ids, size_t ids_len, const uint32_t *lengths, size_t lengths_len,
                                         const uint8_t *text, size_t text_len, const uint32_t *ends, size_t ends_len,
                                         const uint32_t *posting_counts, size_t posting_counts_len, const uint32_t *posting_ids,
                                         size_t posting_ids_len, const uint32_t *position_counts, size_t position_counts_len,
                                         const uint32_t *positions, size_t positions_len, uint8_t *out, size_t out_len);

/* A document as a record. */
typedef struct pstp_document_length {
    uint32_t id;
    uint32_t len;
} pstp_document_length;

/* pstp_write_positional_segment with the documents as a list of records.
 * first: the segment's length in bytes.
 *
 *  documents    the documents, by strictly increasing id
 *  ids, lengths two lent buffers of exactly one element for each record, in which the call separates ids and lengths
 *
 * The call writes to all three and restores every element of them before it returns, on acceptance and refusal.
 * Refusals: 12 for the records or any of the six lists; 11 if ids or lengths has more or fewer elements than there are records; then as
 * pstp_write_positional_segment, with 13/1 out. */
pstp_reply pstp_write_positional_segment_records(pstp_document_length *documents, size_t documents_len, uint32_t *ids, size_t ids_len,
                                                 uint32_t *lengths, size_t lengths_len, const uint8_t *text, size_t text_len,
                                                 const uint32_t *ends, size_t ends_len, const uint32_t *posting_counts,
                                                 size_t posting_counts_len, const uint32_t *posting_ids, size_t posting_ids_len,
                                                 const uint32_t *position_counts, size_t position_counts_len, const uint32_t *positions,
                                                 size_t positions_len, uint8_t *out, size_t out_len);

/* Reads a Standard MIDI File 1.0 into the eight lists of pstp_write_positional_segment, which, given room, accepts them, and how loud each
 * hit is into a ninth, which no segment carries.
 * first: number of bars (documents); second: of sounds (terms); third: of postings; fourth: of positions. All 0 for a file without hits.
 *
 *  File          "MThd", length 6, format 0, one track, and the division: ticks to a quarter note, 4 to 32,764, a multiple of 4. Then
 *                "MTrk" and the length of the rest of the file. Then events up to the first end of track, FF 2F 00, which ends the file.
 *  Event         a delta time, then a channel message, whose status may be left out where the event before it has the same (running
 *                status); or a meta event (FF) or an exclusive one (F0, F7), skipped by its length, whatever is in it. A delta
 *                time or a length has 1 to 4 bytes; long forms are read.
 *  Hit           a note-on with a velocity above 0, on any channel
 *  Sound         "n" and the note as three decimal digits: n000 to n127
 *  Step          the hit's tick, that is all delta times up to it added up, divided by a quarter of the division, rounded down
 *  Bar, position the step divided by 16: quotient and remainder. A phrase does not run over a bar line.
 *  Equal hits    those of one sound on one step, whatever their channels, ticks and velocities. They count once, and the loudest is kept.
 *
 * What is filled, how many elements it has, and how many are always enough:
 *
 *  ids             first       65,536  0, 1, 2 and so on: every bar up to the last with a hit
 *  lengths         first       65,536  16 for each
 *  text            4 * second  512     the names of the sounds that have hits, by increasing note
 *  ends            second      128     4, 8, 12 and so on
 *  posting_counts  second      128     for each sound the number of bars that have it
 *  posting_ids     third       n       these bars, increasing, of the first sound, then of the next
 *  position_counts third       n       for each of them the number of its steps that have the sound
 *  positions       fourth      n       these steps, increasing, of the first posting, then of the next
 *  velocities      fourth      n       side by side with positions: velocities[i] is that of the hit on positions[i], 1 to 127, of equal
 *                                      hits the greatest
 *
 * n is file_len / 3: a hit takes 3 bytes of the file or more. No file has more than 5,592,396 hits. To lend less: with ids to
 * posting_counts as above and the other four empty, 13/6 has third in its index; with posting_ids and position_counts that long, 13/8 has
 * fourth, which is also what velocities need.
 *
 * Refusals: 12 (over PSTP_LIMIT bytes); 14 with index 0 (header); 14 with index 14 (the track's heading); for each event, in the order of
 * the file, 14 with the offset of its delta time, or 15; where the file ends without an end of track, 14 with file_len, and where a byte
 * follows it, 14 with that byte's offset; 13/1 ids, 13/2 lengths, 13/3 text, 13/4 ends, 13/5 posting_counts, 13/6 posting_ids,
 * 13/7 position_counts, 13/8 positions, 13/9 velocities.
 * An event is wrong (14) if it is cut short by the file's end; a number has over 4 bytes; a data byte comes where a status must (at the
 * beginning, behind a meta or exclusive event); a data byte or a meta type is above 127; the status is F1 to F6 or F8 to FE; FF 2F is not
 * followed by 00. */
pstp_reply pstp_midi_bars(const uint8_t *file, size_t file_len, uint32_t *ids, size_t ids_len, uint32_t *lengths, size_t lengths_len,
                          uint8_t *text, size_t text_len, uint32_t *ends, size_t ends_len, uint32_t *posting_counts,
                          size_t posting_counts_len, uint32_t *posting_ids, size_t posting_ids_len, uint32_t *position_counts,
                          size_t position_counts_len, uint32_t *positions, size_t positions_len, uint8_t *velocities,
                          size_t velocities_len);

/* A bar on paper: a sheet of lines of exactly 80 characters, each followed by a line feed. out holds it as UTF-8, without a terminating 0.
 * first: the sheet's length in bytes.
 *
 *  First line  id and length of the bar, right-justified in 10 columns each, then 60 blanks
 *  Next lines  one for each sound (term) that has a hit (position) in the bar, in the order of the directory, which is that of the names:
 *                name   12 characters, cut or padded with blanks; those below 32 and 127 are shown as ?
 *                steps  64 characters: o for a hit, a full stop for another step of the bar, a blank past the bar's length
 *                hits   their number, right-justified in 4 columns
 *
 * A character is a Unicode scalar value, of 1 to 4 bytes: a line has 81 to 117 bytes, line feed included. A bar without hits, such as one
 * of length 0, has the first line alone, 81 bytes. Always enough for out: 81 + 117 * terms, the latter being pstp_open's second.
 *
 * Refusals: opening; 16 (no bar has this id); 17 (the bar has over 64 steps); decoding the list of every term in the order of the
 * directory, whether or not the bar has the sound; 13/1 out. */
pstp_reply pstp_bar_sheet(const uint8_t *segment, size_t segment_len, uint32_t id, uint8_t *out, size_t out_len);

/* One document's length, looked up in lists of the caller's own; no segment is needed. In the first n elements of the lists that
 * pstp_document_lengths fills, n being its answer and at most PSTP_LIMIT, it finds what pstp_document_len finds in the segment.
 * first: 1 and second: the length beside the id; both 0 exactly if the list does not have the id. A length of 0 beside the id is 1 and 0.
 *
 *  ids, lengths  the documents, side by side: lengths[i] is that of ids[i], by strictly increasing id
 *
 * The ids are tested to the last, whatever id is asked for and wherever it is: one pass over them, then a binary search in them. Both lists
 * are only read, and may be empty.
 * Refusals: 12 for either list; 11 (the lists differ in length); 21 (an id that is not above the one before it, such as an equal one). */
pstp_reply pstp_length_of(const uint32_t *ids, size_t ids_len, const uint32_t *lengths, size_t lengths_len, uint32_t id);

/* A pad to record on
 *
 * A pad holds bars before they are written as a segment: it is a map from id to bar, of at most 256 bars with 8,192 hits in all. A bar has
 * a length and hits; a hit is a sound, 0 to 127, a step below the length, and a velocity, 1 to 127, which says how loud it is. Every id and
 * length is allowed, 0 too, and a bar may have no hits. The caller owns the pad, PSTP_PAD_WORDS words, and may copy and store it. All zeros
 * is the empty pad:
 *
 *     uint32_t pad[PSTP_PAD_WORDS] = {0};
 *
 * Saving and erasing change the pad; every other call leaves every word of it, as does a refusal. A bar fits whenever the numbers of bars
 * and hits allow it, whatever was saved and erased before.
 *
 * Layout:
 *
 *  word 0           the number of bars, at most 256
 *  word 1           the number of their hits, at most 8,192: what pstp_pad_hits returns
 *  from word 2 on   the bars by strictly increasing id, one behind the other. A bar: its id, its length, the number of its hits, then the
 *                   hits by strictly increasing sound, then step. A hit: its sound + 256 * its velocity, its step
 *  behind the last  free words. They may be anything and no call looks at them. Saving moves the bars of higher id up over them, erasing
 *                   moves these bars down again, and what then lies behind the last bar stays as it was
 *
 * Words laid out like this are a pad. All other words are refused with 20 by every call on a pad but pstp_pad_hits, before all else,
 * whatever else is wrong:
 *
 *  - another number of words than PSTP_PAD_WORDS, or a word 0 above 256, or a word 1 above 8,192;
 *  - an id that is not above that of the bar before it, such as an id twice;
 *  - a bar with hits that pstp_pad_save refuses: a sound (the first word of a hit % 256) above 127, a velocity (that word / 256) that is
 *    not 1 to 127, a hit that is not above the one before it, by sound, then step, or a step not below the length;
 *  - a word 1 that is not the sum of the bars' numbers of hits, taken as numbers that do not wrap.
 *
 * From the empty pad no sequence of calls makes such words. A pad recorded before hits had velocities has 0 for each of them, so it is
 * refused with 20 if it has hits, and is the same pad as before if it has none.
 */
#define PSTP_PAD_WORDS 17154 /* 2, and 3 for each of the bars, and 2 for each of the hits */
#define PSTP_PAD_BARS 256    /* bars of a pad */
#define PSTP_PAD_HITS 8192   /* hits of all bars */
#define PSTP_PAD_SOUNDS 128  /* sounds, each with a name when the pad is written out */

/* Indexes of words: in the pad, from a bar's first word, from a hit's first word; and how many words come before a bar's first hit, and
 * make a hit. */
#define PSTP_PAD_BAR_COUNT 0
#define PSTP_PAD_HIT_COUNT 1
#define PSTP_PAD_FIRST_BAR 2
#define PSTP_PAD_BAR_ID 0
#define PSTP_PAD_BAR_LENGTH 1
#define PSTP_PAD_BAR_HITS 2
#define PSTP_PAD_BAR_WORDS 3
#define PSTP_PAD_HIT_SOUND_VELOCITY 0 /* sound + PSTP_PAD_VELOCITY_UNIT * velocity */
#define PSTP_PAD_HIT_STEP 1
#define PSTP_PAD_HIT_WORDS 2

/* In a hit's first word, w: the sound is w % PSTP_PAD_VELOCITY_UNIT, the velocity w / PSTP_PAD_VELOCITY_UNIT. */
#define PSTP_PAD_VELOCITY_UNIT 256

/* Saves a bar under an id that is not held.
 * first: number of hits.
 *
 *  sounds, steps, velocities  the hits, side by side: sounds[i] on steps[i] with velocities[i], by strictly increasing sound, then step
 *
 * Refusals: 20; 18 (the id is held); 12 (a list of over PSTP_LIMIT elements); 11 (the three lists are not equally long); then, each over
 * all hits before the next, 12 (a sound above 127), 22 (a velocity that is not 1 to 127), 6/20 (a hit that is not above the one before it:
 * one of the same sound and step is not, whatever their velocities), 6/21 (a step not below the length); 19 (256 bars are held, or held
 * and new hits are over 8,192). */
pstp_reply pstp_pad_save(uint32_t *pad, size_t pad_len, uint32_t id, uint32_t length, const uint8_t *sounds, size_t sounds_len,
                         const uint32_t *steps, size_t steps_len, const uint8_t *velocities, size_t velocities_len);

/* Erases a bar; its room serves the next.
 * first: number of hits that it had.
 * Refusals: 20; 16 (the id is not held). */
pstp_reply pstp_pad_erase(uint32_t *pad, size_t pad_len, uint32_t id);

/* Reads a bar back.
 * first: number of hits, each with one element of sounds, of steps and of velocities, in the order saved; second: the bar's length.
 * Always enough for sounds, steps and velocities: 8,192 each.
 * Refusals: 20; 16 (the id is not held); 13/1 sounds, 13/2 steps, 13/3 velocities. */
pstp_reply pstp_pad_read(const uint32_t *pad, size_t pad_len, uint32_t id, uint8_t *sounds, size_t sounds_len, uint32_t *steps,
                         size_t steps_len, uint8_t *velocities, size_t velocities_len);

/* Writes the pad out as a segment to the beginning of out: what pstp_write_positional_segment writes for its bars, by increasing id, and
 * its sounds, by increasing number. A sound without hits is left out, and so are the velocities: neither the bytes nor a refusal behind 20
 * depends on them.
 * first: the segment's length in bytes.
 *
 *  text, ends  the names of the 128 sounds by number, laid out as the names of a question. A name of a sound without hits may be
 *              anything; the others are UTF-8, not empty, and increase strictly in byte order
 *
 * Always enough for out: 129,608 + text_len (a bar takes at most 10 bytes, a hit 15, a sound 32 and its name).
 * Refusals: 20; 12 for text and ends; 11 (not 128 ends, or ends that decrease or do not end at the text's length); for each sound that has
 * hits 10, 6/6, 6/16; 13/1 out. */
pstp_reply pstp_pad_write(const uint32_t *pad, size_t pad_len, const uint8_t *text, size_t text_len, const uint32_t *ends,
                          size_t ends_len, uint8_t *out, size_t out_len);

/* The number of hits that the pad holds, for a display: word 1 as it is stored. Nothing is counted and 20 is not tested for, so the call
 * takes the same time whatever the pad holds.
 * first: that number. On a pad, so after any saves, erasures and refused calls, it is the sum over the bars held. On words that are no pad
 * it is whatever is in word 1, also where they are more or fewer than PSTP_PAD_WORDS; 0 where there is no word 1.
 * Refusals: none. */
pstp_reply pstp_pad_hits(const uint32_t *pad, size_t pad_len);

#ifdef __cplusplus
}
#endif

#endif
