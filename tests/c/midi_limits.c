/* MIDI files at their limits: the longest file and one byte more, the last bar, and ticks past 32 bits. */
#include "build.h"
#include "check.h"

#include <stdio.h>
#include <stdlib.h>
#include <string.h>

enum { LIMIT = 16777216, BARS = 65536, SOUNDS = 128 };

/* Every buffer with the room that the header calls always enough, each place with a value of its own. */
struct always {
    uint32_t *ids, *lengths, *ends, *posting_counts, *posting_ids, *position_counts, *positions;
    uint8_t *text, *velocities;
    size_t n; /* places of the last four */
};

static uint32_t *marked(size_t n) {
    uint32_t *places = malloc((n > 0 ? n : 1) * sizeof places[0]);
    for (size_t i = 0; places && i < n; i++) {
        places[i] = 0xC0DE0000u ^ (uint32_t)i;
    }
    return places;
}

/* The places from `from` on are as they were. */
static bool kept(const uint32_t *places, size_t from, size_t n) {
    bool same = true;
    for (size_t i = from; i < n; i++) {
        same = same && places[i] == (0xC0DE0000u ^ (uint32_t)i);
    }
    return same;
}

static struct always always_enough(size_t file_len) {
    size_t n = file_len / 3;
    struct always a = {marked(BARS), marked(BARS), marked(SOUNDS), marked(SOUNDS), marked(n), marked(n), marked(n), malloc(512),
                       malloc(n + 1), n};
    memset(a.text, 0xA5, 512);
    memset(a.velocities, 0xA5, n + 1);
    return a;
}

static void release(struct always a) {
    free(a.ids), free(a.lengths), free(a.ends), free(a.posting_counts);
    free(a.posting_ids), free(a.position_counts), free(a.positions), free(a.text), free(a.velocities);
}

static pstp_reply import(const uint8_t *file, size_t len, struct always a) {
    return pstp_midi_bars(file, len, a.ids, BARS, a.lengths, BARS, a.text, 512, a.ends, SOUNDS, a.posting_counts, SOUNDS, a.posting_ids,
                          a.n, a.position_counts, a.n, a.positions, a.n, a.velocities, a.n);
}

/* Nothing is filled but what the numbers say: bars, sounds, postings, positions. */
static bool tails_kept(struct always a, size_t bars, size_t sounds, size_t postings, size_t positions) {
    bool same = kept(a.ids, bars, BARS) && kept(a.lengths, bars, BARS) && kept(a.ends, sounds, SOUNDS)
        && kept(a.posting_counts, sounds, SOUNDS) && kept(a.posting_ids, postings, a.n) && kept(a.position_counts, postings, a.n)
        && kept(a.positions, positions, a.n);
    for (size_t i = 4 * sounds; i < 512; i++) {
        same = same && a.text[i] == 0xA5;
    }
    for (size_t i = positions; i < a.n; i++) {
        same = same && a.velocities[i] == 0xA5;
    }
    return same;
}

static bool bars_from_0(struct always a, size_t bars) {
    bool same = true;
    for (size_t i = 0; i < bars; i++) {
        same = same && a.ids[i] == i && a.lengths[i] == 16;
    }
    return same;
}

/* 16,777,216 bytes with as many hits as they can have, 5,592,396: groups of the notes 0 to 127, each on the 17th step behind the one
 * before. So group g is in bar g + g / 16 on step g % 16, and each hit is a posting of its own. */
enum { HITS = 5592396, GROUPS = HITS / SOUNDS + 1, LAST = HITS % SOUNDS };

static uint8_t loudness(uint32_t group, uint32_t note) {
    return (uint8_t)(1 + (group + 3 * note) % 127);
}

static uint8_t *longest_file(void) {
    uint8_t *file = calloc(LIMIT + 1, 1), *next = file + 22;
    memcpy(file, "MThd\x00\x00\x00\x06\x00\x00\x00\x01\x00\x04MTrk\x00\xFF\xFF\xEA", 22);
    for (uint32_t i = 0; i < HITS; i++) {
        if (i == HITS - 1) {
            *next++ = 0x80; /* a long form of its delta time fills the file */
        }
        *next++ = i % SOUNDS == 0 && i > 0 ? 17 : 0;
        if (i == 0) {
            *next++ = 0x99;
        }
        *next++ = (uint8_t)(i % SOUNDS);
        *next++ = loudness(i / SOUNDS, i % SOUNDS);
    }
    memcpy(next, "\x00\xFF\x2F", 4);
    expect("the longest file", next + 4 == file + LIMIT);
    return file;
}

static void test_longest_file(void) {
    uint8_t *file = longest_file();
    struct always a = always_enough(LIMIT);
    const size_t bars = GROUPS - 1 + (GROUPS - 1) / 16 + 1;

    expect_reply("a byte over the limit", import(file, LIMIT + 1, a), refused(PSTP_TOO_LARGE, 0, 0));
    file[0] = 'm';
    expect_reply("12 before 14", import(file, LIMIT + 1, a), refused(PSTP_TOO_LARGE, 0, 0));
    expect_reply("the limit is no error", import(file, LIMIT, a), refused(PSTP_MIDI_FILE, 0, 0));
    file[0] = 'M';
    file[21] = 0xEB;
    expect_reply("12 with a heading that fits", import(file, LIMIT + 1, a), refused(PSTP_TOO_LARGE, 0, 0));
    file[21] = 0xEA;
    expect("refused: nothing is filled", tails_kept(a, 0, 0, 0, 0));
    a.n = HITS - 1;
    expect_reply("a place too few", import(file, LIMIT, a), refused(PSTP_NO_ROOM, 6, HITS));
    a.n = LIMIT / 3;
    expect("a place too few: nothing is filled", tails_kept(a, 0, 0, 0, 0));

    expect_reply("the longest file", import(file, LIMIT, a), accepted_four(bars, SOUNDS, HITS, HITS));
    expect("the longest file: tails", tails_kept(a, bars, SOUNDS, HITS, HITS));
    expect("the longest file: bars", bars_from_0(a, bars));
    bool same = true;
    size_t posting = 0;
    for (uint32_t note = 0; note < SOUNDS; note++) {
        char name[8];
        uint32_t groups = GROUPS - (note >= LAST);
        snprintf(name, sizeof name, "n%03u", (unsigned)note);
        same = same && memcmp(a.text + 4 * note, name, 4) == 0 && a.ends[note] == 4 * note + 4 && a.posting_counts[note] == groups;
        for (uint32_t g = 0; g < groups; g++, posting++) {
            same = same && a.posting_ids[posting] == g + g / 16 && a.position_counts[posting] == 1 && a.positions[posting] == g % 16
                && a.velocities[posting] == loudness(g, note);
        }
    }
    expect("the longest file: sounds, postings, positions, velocities", same && posting == HITS);
    release(a);
    free(file);
}

/* Bar 65,535 is good, and its last tick: with division 32,764 that is 8,588,886,015, in 31 of the longest delta times and a rest. */
static void test_last_bar(void) {
    struct bytes file = midi(32764, "");
    for (int i = 0; i < 31; i++) {
        append(&file, "\xFF\xFF\xFF\x7F\xFF\x01\x00", 7);
    }
    append(&file, "\xFF\xC0\x80\x1E\x90\x24\x40", 7);
    struct bytes further = file;
    close_track(&file);
    append(&further, "\x01\x26\x40", 3);
    close_track(&further);
    struct always a = always_enough(file.len);
    expect_reply("a tick further", import(further.at, further.len, a), refused(PSTP_BAR_TOO_FAR, 0, 0));
    expect("a tick further: nothing is filled", tails_kept(a, 0, 0, 0, 0));
    expect_reply("the last tick of the last bar", import(file.at, file.len, a), accepted_four(BARS, 1, 1, 1));
    expect("the last bar: tails", tails_kept(a, BARS, 1, 1, 1));
    expect("the last bar: bars", bars_from_0(a, BARS));
    expect("the last bar: the hit", memcmp(a.text, "n036", 4) == 0 && a.ends[0] == 4 && a.posting_counts[0] == 1
                                        && a.posting_ids[0] == 65535 && a.position_counts[0] == 1 && a.positions[0] == 15
                                        && a.velocities[0] == 64);
    release(a);
}

/* Hits on tick 2^32 and 2^36 are too far, though 32 bits of tick or bar are 0. What is no hit may be as far, and makes no bar. */
static void test_far_ticks(void) {
    static const struct {
        int times; /* so often the longest delta time, 2^28 - 1, and a program change; then the last event, as many ticks later */
        const char *last;
        pstp_reply want;
    } rows[] = {
        {16, "10 90 24 40", {PSTP_BAR_TOO_FAR, 0, 0, 0, 0, 0, 0}},
        {256, "82 00 90 24 40", {PSTP_BAR_TOO_FAR, 0, 0, 0, 0, 0, 0}},
        {256, "82 00 80 24 40", {PSTP_ACCEPTED, 0, 0, 1, 1, 1, 1}},
        {256, "82 00 90 24 00", {PSTP_ACCEPTED, 0, 0, 1, 1, 1, 1}},
    };
    for (size_t i = 0; i < sizeof rows / sizeof rows[0]; i++) {
        struct bytes file = midi(4, "00 90 24 40 00 C0 05"), last = hex(rows[i].last);
        for (int k = 0; k < rows[i].times; k++) {
            append(&file, "\xFF\xFF\xFF\x7F\x05", 5);
        }
        append(&file, last.at, last.len);
        close_track(&file);
        struct always a = always_enough(file.len);
        expect_reply("far ticks", import(file.at, file.len, a), rows[i].want);
        size_t filled = (size_t)rows[i].want.first;
        expect("far ticks", tails_kept(a, filled, filled, filled, filled));
        release(a);
    }
}

void test_midi_limits(void) {
    test_longest_file();
    test_last_bar();
    test_far_ticks();
}
