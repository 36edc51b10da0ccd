/* How deep a call goes: each runs on a painted stack of its own, and the lowest place that lost its paint counts. Measured, not proved. */
#define _XOPEN_SOURCE 700
#include "build.h"
#include "check.h"

#include <stdio.h>
#include <string.h>
#include <ucontext.h>

enum { PAD_WRITE = 65536, SEARCH = 36864, TABLES = 16384, OTHER = 4096, PAINT = 0xA5 };

static uint8_t stack[4 * SEARCH];
static ucontext_t host, guest;
static void (*running)(void);

/* A segment of 128 terms, all on steps 0 and 1 of three documents, and the question that names them all. */
static uint8_t segment[16384], text[256];
static size_t segment_len;
static uint32_t ends[128], ids[8], more_ids[8], places[8];
static size_t room;
static pstp_reply reply;
static pstp_handle handle; /* of the segment, at each level in turn */

static uint32_t posting_counts[128], posting_ids[384], position_counts[384], positions[768];

/* A MIDI file with hits of all 128 notes on the first steps of two bars, and its lists. */
static struct bytes file;
static uint32_t bars[2], lengths[2], name_ends[128], bar_counts[128], bar_ids[256], step_counts[256], steps[256];
static uint8_t sounds[512], loud[256], sheet[81 * 129];

static void make_file(void) {
    file = midi(4, "00 90 00 01");
    for (int i = 0; i < 256; i++) {
        const uint8_t hit[] = {i == 128 ? 16 : 0, (uint8_t)(i % 128), (uint8_t)(1 + i % 127)};
        append(&file, hit, 3);
    }
    close_track(&file);
}

/* A pad of all 128 sounds, on 48 steps of bar 1 and 15 of bar 2; a bar of 64 hits more fits twice. */
static uint32_t pad[PSTP_PAD_WORDS], hit_steps[6144];
static uint8_t hit_sounds[6144], hit_loud[6144], pad_segment[16384];

static void make_hits(size_t n, uint32_t steps_of_each) {
    for (size_t i = 0; i < n; i++) {
        hit_sounds[i] = (uint8_t)(i / steps_of_each);
        hit_steps[i] = (uint32_t)(i % steps_of_each);
        hit_loud[i] = (uint8_t)(1 + i % 127);
    }
}

static void make_pad(void) {
    make_hits(6144, 48);
    pstp_pad_save(pad, PSTP_PAD_WORDS, 1, 48, hit_sounds, 6144, hit_steps, 6144, hit_loud, 6144);
    make_hits(1920, 15);
    pstp_pad_save(pad, PSTP_PAD_WORDS, 2, 15, hit_sounds, 1920, hit_steps, 1920, hit_loud, 1920);
}

static void pad_save(void) {
    make_hits(64, 1);
    reply = pstp_pad_save(pad, PSTP_PAD_WORDS, room > 0 ? 0 : 3, 1, hit_sounds, 64, hit_steps, 64, hit_loud, 64);
}
static void pad_erase(void) {
    reply = pstp_pad_erase(pad, PSTP_PAD_WORDS, room > 0 ? 0 : 3);
}
static void pad_read(void) {
    reply = pstp_pad_read(pad, PSTP_PAD_WORDS, 1, hit_sounds, room > 0 ? 6144 : 0, hit_steps, 6144, hit_loud, 6144);
}
static void pad_write(void) {
    reply = pstp_pad_write(pad, PSTP_PAD_WORDS, text, 256, ends, 128, pad_segment, room > 0 ? sizeof pad_segment : 0);
}
static void pad_hits(void) {
    reply = pstp_pad_hits(pad, PSTP_PAD_WORDS);
}

/* Lists of the caller's own, asked for their last id, or for one that they lack. */
static uint32_t own_ids[1023], own_lengths[1023];

static void make_lists(void) {
    for (uint32_t i = 0; i < 1023; i++) {
        own_ids[i] = 2 * i;
        own_lengths[i] = 16 + i;
    }
}

static void length_of(void) {
    reply = pstp_length_of(own_ids, 1023, own_lengths, 1023, room > 0 ? 2044 : 2043);
}

static void midi_bars(void) {
    size_t whole = room > 0;
    reply = pstp_midi_bars(file.at, file.len, bars, 2 * whole, lengths, 2 * whole, sounds, 512 * whole, name_ends, 128 * whole, bar_counts,
                           128 * whole, bar_ids, 256 * whole, step_counts, 256 * whole, steps, 256 * whole, loud, 256 * whole);
}

static void make_segment(void) {
    const uint32_t documents[] = {1, 2, 3}, lengths[] = {2, 2, 2};
    for (uint32_t i = 0; i < 384; i++) {
        text[i % 256] = (uint8_t)(i % 2 ? 'a' + i % 256 / 2 % 16 : 'A' + i % 256 / 32);
        ends[i % 128] = 2 * (i % 128 + 1);
        posting_counts[i % 128] = 3;
        posting_ids[i] = 1 + i % 3;
        position_counts[i] = 2;
        positions[2 * i] = 0;
        positions[2 * i + 1] = 1;
    }
    reply = pstp_write_positional_segment(documents, 3, lengths, 3, text, 256, ends, 128, posting_counts, 128, posting_ids, 384,
                                          position_counts, 384, positions, 768, segment, sizeof segment);
    segment_len = (size_t)reply.first;
}

static void make_segment_of_records(void) {
    pstp_document_length documents[] = {{1, 2}, {2, 2}, {3, 2}};
    reply = pstp_write_positional_segment_records(documents, 3, ids, 3, more_ids, 3, text, 256, ends, 128, posting_counts, 128,
                                                  posting_ids, 384, position_counts, 384, positions, 768, segment, sizeof segment);
}

static void phrase(void) {
    reply = pstp_phrase_match_strs(segment, segment_len, text, 256, ends, 128, ids, room);
}
static void short_phrase(void) {
    reply = pstp_phrase_match_strs(segment, segment_len, text, 4, ends, 2, ids, room);
}
static void ranked(void) {
    reply = pstp_phrase_match_ranked(segment, segment_len, text, 256, ends, 128, ids, room, more_ids, room);
}
static void short_ranked(void) {
    reply = pstp_phrase_match_ranked(segment, segment_len, text, 4, ends, 2, ids, room, more_ids, room);
}
static void ordered(void) {
    reply = pstp_near_match_terms_strs(segment, segment_len, text, 4, ends, 2, 1, true, ids, room);
}
static void unordered(void) {
    reply = pstp_near_match_terms_strs(segment, segment_len, text, 256, ends, 128, 1, false, ids, room);
}
static void near_two(void) {
    reply = pstp_near_match(segment, segment_len, text, 2, text + 2, 2, 1, ids, room);
}
static void postings(void) {
    reply = pstp_term_postings(segment, segment_len, text, 2, ids, room, more_ids, room, places, room);
}
static void bar_sheet(void) {
    reply = pstp_bar_sheet(segment, segment_len, 3, sheet, room > 0 ? sizeof sheet : 0);
}
static void document_lengths(void) {
    reply = pstp_document_lengths(segment, segment_len, ids, room, more_ids, room);
}

static void open_once(void) {
    handle = pstp_open_once(segment, segment_len);
    reply = accepted(handle.documents, handle.terms);
}
static void check(void) {
    handle = pstp_check(segment, segment_len);
    reply = accepted(handle.documents, handle.terms);
}
static void refuse(void) {
    handle = pstp_check(segment, 71);
    reply = accepted(handle.kind, handle.which);
}
static void length_with_handle(void) {
    reply = pstp_document_len_checked(segment, segment_len, handle, 2);
}
static void postings_with_handle(void) {
    reply = pstp_term_postings_checked(segment, segment_len, handle, text, 2, ids, room, more_ids, room, places, room);
}
static void positions_with_handle(void) {
    reply = pstp_positions_checked(segment, segment_len, handle, text, 2, 3, ids, room);
}
static void phrase_with_handle(void) {
    reply = pstp_phrase_match_strs_checked(segment, segment_len, handle, text, 256, ends, 128, ids, room);
}
static void ordered_with_handle(void) {
    reply = pstp_near_match_terms_strs_checked(segment, segment_len, handle, text, 4, ends, 2, 1, true, ids, room);
}
static void unordered_with_handle(void) {
    reply = pstp_near_match_terms_strs_checked(segment, segment_len, handle, text, 256, ends, 128, 1, false, ids, room);
}
static void near_two_with_handle(void) {
    reply = pstp_near_match_checked(segment, segment_len, handle, text, 2, text + 2, 2, 1, ids, room);
}

/* What each answers with room, and how deep it may go. */
struct row {
    const char *note;
    void (*call)(void);
    uint64_t first, second, third, fourth;
    size_t promised;
};
static const struct row calls[] = {
    {"writer", make_segment, 72 + 32 * 128 + 256 + 3 * 2 + 128 * 3 * 4, 0, 0, 0, OTHER},
    {"writer over records", make_segment_of_records, 72 + 32 * 128 + 256 + 3 * 2 + 128 * 3 * 4, 0, 0, 0, OTHER},
    {"document_lengths", document_lengths, 3, 0, 0, 0, OTHER},
    {"term_postings", postings, 3, 6, 0, 0, OTHER},
    {"phrase of 128", phrase, 0, 0, 0, 0, SEARCH},
    {"phrase of two", short_phrase, 3, 0, 0, 0, SEARCH},
    {"ranked phrase of 128", ranked, 0, 0, 0, 0, SEARCH},
    {"ranked phrase of two", short_ranked, 3, 0, 0, 0, SEARCH},
    {"ordered", ordered, 3, 0, 0, 0, SEARCH},
    {"unordered", unordered, 3, 0, 0, 0, SEARCH},
    {"near_match", near_two, 3, 0, 0, 0, SEARCH},
    {"midi_bars", midi_bars, 2, 128, 256, 256, TABLES},
    {"bar_sheet", bar_sheet, 81 * 129, 0, 0, 0, TABLES},
    {"length_of", length_of, 1, 16 + 1022, 0, 0, OTHER},
    {"pad_save", pad_save, 64, 0, 0, 0, OTHER},
    {"pad_erase", pad_erase, 64, 0, 0, 0, OTHER},
    {"pad_read", pad_read, 6144, 48, 0, 0, OTHER},
    {"pad_write", pad_write, 72 + 32 * 128 + 256 + 2 * 2 + 128 * (50 + 17), 0, 0, 0, PAD_WRITE},
    {"pad_hits", pad_hits, 6144 + 1920, 0, 0, 0, OTHER},
};

/* The calls that make a handle, and then, with each of the three, those that take one. */
static const struct row makers[] = {
    {"a refused handle", refuse, 1, 1, 0, 0, TABLES},
    {"open_once", open_once, 3, 128, 0, 0, OTHER},
    {"check", check, 3, 128, 0, 0, TABLES},
};
static const struct row handled[] = {
    {"document_len with a handle", length_with_handle, 1, 2, 0, 0, OTHER},
    {"term_postings with a handle", postings_with_handle, 3, 6, 0, 0, OTHER},
    {"positions with a handle", positions_with_handle, 2, 0, 0, 0, OTHER},
    {"phrase of 128 with a handle", phrase_with_handle, 0, 0, 0, 0, SEARCH},
    {"ordered with a handle", ordered_with_handle, 3, 0, 0, 0, SEARCH},
    {"unordered with a handle", unordered_with_handle, 3, 0, 0, 0, SEARCH},
    {"near_match with a handle", near_two_with_handle, 3, 0, 0, 0, SEARCH},
};

static void run(void) {
    running();
}

static size_t depth_of(void (*call)(void)) {
    size_t untouched = 0;
    running = call;
    memset(stack, PAINT, sizeof stack);
    getcontext(&guest);
    guest.uc_stack.ss_sp = stack;
    guest.uc_stack.ss_size = sizeof stack;
    guest.uc_link = &host;
    makecontext(&guest, run, 0);
    swapcontext(&host, &guest);
    while (untouched < sizeof stack && stack[untouched] == PAINT) {
        untouched++;
    }
    return sizeof stack - untouched;
}

static size_t most;
static const char *deepest = "";

/* How deep a row's call goes. A search with a checked handle has tables alone. */
static size_t measured(const struct row *row) {
    size_t deeper = 0, promised = row->promised;
    if (promised == SEARCH && handle.level == PSTP_LEVEL_CHECKED) {
        promised = TABLES;
    }
    for (room = 0; room <= 8; room += 8) { /* counted first, or filled at once */
        size_t depth = depth_of(row->call);
        if (room == 8) {
            expect_reply(row->note, reply, accepted_four(row->first, row->second, row->third, row->fourth));
        }
        expect(row->note, depth < promised);
        if (depth > most) {
            most = depth;
            deepest = row->note;
        }
        if (depth > deeper) {
            deeper = depth;
        }
    }
    return deeper;
}

void test_stack(void) {
    size_t of_midi = 0, of_sheet = 0, of_pad = 0, of_check = 0;
    make_file();
    make_pad();
    make_lists();
    for (size_t i = 0; i < sizeof calls / sizeof calls[0]; i++) {
        size_t depth = measured(&calls[i]);
        of_midi = calls[i].call == midi_bars ? depth : of_midi;
        of_sheet = calls[i].call == bar_sheet ? depth : of_sheet;
        of_pad = calls[i].call == pad_write ? depth : of_pad;
    }
    for (size_t i = 0; i < sizeof makers / sizeof makers[0]; i++) {
        size_t depth = measured(&makers[i]);
        of_check = makers[i].call == check ? depth : of_check;
        for (size_t j = 0; j < sizeof handled / sizeof handled[0]; j++) {
            measured(&handled[j]);
        }
    }
    printf("stack: at most %zu bytes (%s); midi_bars %zu, bar_sheet %zu, pad_write %zu, check %zu\n", most, deepest, of_midi, of_sheet,
           of_pad, of_check);
}
