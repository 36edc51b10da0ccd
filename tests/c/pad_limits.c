/* A pad at its limits: full, with room in pieces, with the longest lists, and through random sequences of calls. */
#include "build.h"
#include "check.h"
#include "recorded.h"

#include <stdio.h>
#include <stdlib.h>
#include <string.h>

enum { LIMIT = 16777216 };

/* 64 bars of 128 hits are 8,192; every second one erased leaves 32 gaps, which the next bar has to itself. */
static void test_in_pieces(bool zeros) {
    struct hits one = grid(1, 64), none = grid(0, 64), bar = grid(128, 64), half = grid(4096, 64), over = grid(4097, 64);
    struct names names = sound_names("");
    const pstp_reply full = refused(PSTP_PAD_FULL, 0, 0);
    new_pad(zeros);
    for (uint32_t id = 0; id < 64; id++) {
        struct hits own = louder(&bar, id);
        expect_saved("64 bars of 128 hits", id, 64, &own, accepted(128, 0));
    }
    bar = louder(&bar, 1);
    expect_saved("a hit too many", 100, 64, &one, full);
    expect_saved("an id held before no room", 63, 64, &one, refused(PSTP_ALREADY_HELD, 0, 0));
    expect_saved("a step before no room", 100, 0, &one, refused(PSTP_INVALID_LAYOUT, 21, 0));
    expect_saved("no hit too many", 100, 64, &none, accepted(0, 0));
    for (uint32_t id = 0; id < 64; id += 2) {
        expect_erased("32 gaps", id, accepted(128, 0));
    }
    expect_reply("4,096 hits", pstp_pad_hits(recorded(), PSTP_PAD_WORDS), accepted(4096, 0));
    expect_saved("one more than the gaps", 200, 64, &over, full);
    expect_saved("all the gaps together", 200, 64, &half, accepted(4096, 0));
    expect_saved("a hit too many again", 0, 64, &one, full);
    expect_reply("8,192 hits", pstp_pad_hits(recorded(), PSTP_PAD_WORDS), accepted(8192, 0));
    expect_back("bar 1", 1, 128, 128, 128, &bar, accepted(128, 64));
    expect_segment("an empty name comes before room", &names, 0, NULL, refused(PSTP_INVALID_LAYOUT, PSTP_REASON_EMPTY_TERM, 0));
    expect_map("room in pieces");
    names = all_names();
    expect("64 sounds are written", expect_as_writer("room in pieces", &names).kind == PSTP_ACCEPTED);
}

/* 8,192 hits in one bar, and one more; faults come before 19. */
static void test_one_bar(bool zeros) {
    struct hits all = grid(8192, 64), over = grid(8193, 100), one = grid(1, 1), none = grid(0, 1);
    const pstp_reply full = refused(PSTP_PAD_FULL, 0, 0);
    new_pad(zeros);
    expect_saved("8,193 hits", 5, 100, &over, full);
    over.velocities[8192] ^= 128;
    expect_saved("8,193 hits, a velocity above 127 and nothing else", 5, 100, &over, refused(PSTP_VELOCITY_RANGE, 0, 0));
    over.velocities[8192] ^= 128;
    expect_saved("8,193 hits, the last step not below the length", 5, 99, &over, refused(PSTP_INVALID_LAYOUT, 21, 0));
    over.steps[8192] = over.steps[8191];
    expect_saved("8,193 hits, the last two equal", 5, 100, &over, refused(PSTP_INVALID_LAYOUT, 20, 0));
    over.velocities[8192] = 128;
    expect_saved("8,193 hits, the last velocity above 127", 5, 100, &over, refused(PSTP_VELOCITY_RANGE, 0, 0));
    over.sounds[8192] = 128;
    expect_saved("8,193 hits, the last sound above 127", 5, 100, &over, refused(PSTP_TOO_LARGE, 0, 0));
    over.velocities_len--;
    expect_saved("8,193 sounds and steps, 8,192 velocities", 5, 100, &over, refused(PSTP_LIST_SHAPE, 0, 0));
    over.steps_len--;
    expect_saved("8,193 sounds, 8,192 steps and velocities", 5, 100, &over, refused(PSTP_LIST_SHAPE, 0, 0));
    expect_saved("8,192 hits", 5, 64, &all, accepted(8192, 0));
    expect_saved("one more", 4, 1, &one, full);
    expect_saved("a bar without hits before it", 4, 0, &none, accepted(0, 0));
    expect_saved("a bar without hits behind it", 6, 0, &none, accepted(0, 0));
    expect_back("a place too few for the sounds", 5, 8191, 0, 0, NULL, refused(PSTP_NO_ROOM, 1, 8192));
    expect_back("a place too few for the steps", 5, 8192, 8191, 0, NULL, refused(PSTP_NO_ROOM, 2, 8192));
    expect_back("a place too few for the velocities", 5, 8192, 8192, 8191, NULL, refused(PSTP_NO_ROOM, 3, 8192));
    expect_back("what is always enough", 5, PSTP_PAD_HITS, PSTP_PAD_HITS, PSTP_PAD_HITS, &all, accepted(8192, 64));
    expect_erased("8,192 hits erased", 5, accepted(8192, 0));
    expect_saved("8,192 hits again, under another id", 3, 64, &all, accepted(8192, 0));
    expect_map("8,192 hits");
}

/* 256 bars with 8,192 hits: every word of the pad is used. */
static void test_full(bool zeros) {
    struct hits bar = grid(32, 1), none = grid(0, 1), one = grid(1, 1);
    const pstp_reply full = refused(PSTP_PAD_FULL, 0, 0);
    new_pad(zeros);
    for (uint32_t i = 0; i < 256; i++) {
        bar = louder(&bar, 1);
        expect_saved("256 bars of 32 hits", 255 * 7 - 7 * i, 1, &bar, accepted(32, 0));
    }
    expect("the last word is a step", recorded()[PSTP_PAD_WORDS - 2] % PSTP_PAD_VELOCITY_UNIT == 31 && recorded()[PSTP_PAD_WORDS - 1] == 0);
    expect_saved("a bar too many, without hits", 1, 1, &none, full);
    one.velocities[0] = 0;
    expect_saved("a bar too many, with velocity 0", 1, 1, &one, refused(PSTP_VELOCITY_RANGE, 0, 0));
    one = grid(1, 1);
    expect_saved("an id held in a full pad", 7, 1, &none, refused(PSTP_ALREADY_HELD, 0, 0));
    expect_map("256 bars");
    expect_erased("the first bar", 0, accepted(32, 0));
    expect_saved("a bar without hits in its place", 1, 1, &none, accepted(0, 0));
    expect_saved("a bar too many again, though hits fit", 2, 1, &one, full);
    expect_erased("the last bar", 255 * 7, accepted(32, 0));
    expect_saved("a bar of a hit", 4294967295u, 1, &one, accepted(1, 0));
    expect_map("256 bars, some of them new");
}

/* Lists of 16,777,216 elements pass 12, and one more does not. Between 18 and 11. */
static void test_long_lists(void) {
    uint8_t *bytes = calloc(LIMIT + 1, 1), *loud = malloc(LIMIT + 1);
    uint32_t *words = calloc(LIMIT + 1, sizeof words[0]), *ends = calloc(LIMIT + 1, sizeof ends[0]);
    uint32_t pad[PSTP_PAD_WORDS] = {1, 1, 5, 4, 1, 36 + 127 * PSTP_PAD_VELOCITY_UNIT, 0}, before[PSTP_PAD_WORDS];
    const pstp_reply large = refused(PSTP_TOO_LARGE, 0, 0), misfit = refused(PSTP_LIST_SHAPE, 0, 0);
    memcpy(before, pad, sizeof pad);
    memset(loud, 127, LIMIT + 1);
    for (uint32_t id = 5; id <= 6; id++) {
        pstp_reply held = refused(PSTP_ALREADY_HELD, 0, 0);
        for (unsigned lists = 0; lists < 27; lists++) { /* each of the three of no element, of the limit, of one more */
            size_t len[] = {lists % 3, lists / 3 % 3, lists / 9};
            bool long_list = len[0] == 2 || len[1] == 2 || len[2] == 2, equal = len[0] == len[1] && len[1] == len[2];
            for (size_t i = 0; i < 3; i++) {
                len[i] = len[i] == 0 ? 0 : LIMIT - 1 + len[i];
            }
            if (id == 5 || long_list || !equal) {
                pstp_reply got = pstp_pad_save(pad, PSTP_PAD_WORDS, id, 1, bytes, len[0], words, len[1], loud, len[2]);
                expect_reply("long lists", got, id == 5 ? held : long_list ? large : misfit);
            }
        }
    }
    pstp_reply got = pstp_pad_save(pad, PSTP_PAD_WORDS, 6, 1, bytes, LIMIT, words, LIMIT, loud, LIMIT);
    expect_reply("three lists of the limit", got, refused(6, 20, 0));
    loud[LIMIT - 1] = 128;
    got = pstp_pad_save(pad, PSTP_PAD_WORDS, 6, 1, bytes, LIMIT, words, LIMIT, loud, LIMIT);
    expect_reply("their last velocity", got, refused(PSTP_VELOCITY_RANGE, 0, 0));
    loud[LIMIT - 1] = 1;
    for (uint32_t i = 0; i < LIMIT; i++) {
        words[i] = i;
    }
    got = pstp_pad_save(pad, PSTP_PAD_WORDS, 6, LIMIT, bytes, LIMIT, words, LIMIT, loud, LIMIT);
    expect_reply("a well-formed bar of the limit", got, refused(PSTP_PAD_FULL, 0, 0));
    got = pstp_pad_save(pad, PSTP_PAD_WORDS, 6, LIMIT - 1, bytes, LIMIT, words, LIMIT, loud, LIMIT);
    expect_reply("its last step", got, refused(6, 21, 0));

    /* The text is all of one name that no hit has, of sound 7, then all of sound 36's, which has a hit. */
    for (uint32_t named = 7; named <= 36; named += 29) {
        size_t need = 72 + 32 + 2 + 3 + (size_t)LIMIT;
        uint8_t *out = malloc(need);
        for (size_t i = named; i < PSTP_PAD_SOUNDS; i++) {
            ends[i] = LIMIT;
        }
        memset(ends, 0, named * sizeof ends[0]);
        memset(bytes, 'a', LIMIT + 1);
        expect_reply("a long text", pstp_pad_write(pad, PSTP_PAD_WORDS, bytes, LIMIT + 1, ends, 128, out, need), large);
        expect_reply("a long text before ends", pstp_pad_write(pad, PSTP_PAD_WORDS, bytes, LIMIT + 1, ends, 127, out, need), large);
        expect_reply("long ends", pstp_pad_write(pad, PSTP_PAD_WORDS, bytes, LIMIT, ends, LIMIT + 1, out, need), large);
        expect_reply("ends of the limit", pstp_pad_write(pad, PSTP_PAD_WORDS, bytes, LIMIT, ends, LIMIT, out, need), misfit);
        expect_reply("a text of the limit", pstp_pad_write(pad, PSTP_PAD_WORDS, bytes, LIMIT, ends, 128, out, need),
                     named == 36 ? accepted(need, 0) : refused(PSTP_INVALID_LAYOUT, PSTP_REASON_EMPTY_TERM, 0));
        bytes[LIMIT - 1] = 0xFF;
        expect_reply("its last byte", pstp_pad_write(pad, PSTP_PAD_WORDS, bytes, LIMIT, ends, 128, out, need),
                     named == 36 ? refused(PSTP_INVALID_UTF8, 0, 0) : refused(PSTP_INVALID_LAYOUT, PSTP_REASON_EMPTY_TERM, 0));
        if (named == 36) {
            expect_reply("the longest name", pstp_open(out, need), accepted(1, 1));
        }
        free(out);
    }
    expect_reply("long lists leave the number of hits", pstp_pad_hits(pad, PSTP_PAD_WORDS), accepted(1, 0));
    expect("long lists leave the pad", memcmp(pad, before, sizeof pad) == 0);
    free(bytes);
    free(loud);
    free(words);
    free(ends);
}

/* Marsaglia's xorshift: the same numbers in each run. */
static uint64_t state = 0x9E3779B97F4A7C15u;
static uint32_t below(uint32_t n) {
    state ^= state << 13;
    state ^= state >> 7;
    state ^= state << 17;
    return (uint32_t)(state >> 32) % n;
}

/* Saves and erasures of bars of all sizes under a few ids, so that the pad runs full in either number, again and again. */
static void test_random(bool zeros, uint32_t ids, uint32_t most) {
    struct names names = all_names();
    new_pad(zeros);
    for (unsigned i = 0; i < 1500; i++) {
        uint32_t id = below(ids) * 16777619u, width = 64 + below(64);
        int held = hits_under(id);
        struct hits h = grid(below(8) ? below(most) : below(8193), width);
        h = louder(&h, below(127));
        pstp_reply unknown = refused(PSTP_UNKNOWN_BAR, 0, 0), full = refused(PSTP_PAD_FULL, 0, 0);
        bool fits = bars_held() < 256 && hits_held() + h.sounds_len <= 8192;
        if (below(5) < 2) {
            expect_erased("random erasures", id, held < 0 ? unknown : accepted((uint64_t)held, 0));
        } else if (held >= 0) {
            expect_saved("random saves of an id held", id, width, &h, refused(PSTP_ALREADY_HELD, 0, 0));
        } else {
            expect_saved("random saves", id, width, &h, fits ? accepted(h.sounds_len, 0) : full);
        }
        if (i % 250 == 0) {
            expect_map("random bars");
            expect_as_writer("random bars", &names);
        }
    }
}

void test_pad_limits(void) {
    for (int zeros = 0; zeros <= 1; zeros++) {
        test_in_pieces(zeros);
        test_one_bar(zeros);
        test_full(zeros);
        test_random(zeros, 300, 40);
        test_random(zeros, 60, 700);
        test_random(zeros, 600, 20);
    }
    test_long_lists();
}
