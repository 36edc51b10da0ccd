/* Words that are no pad: 20 in every call but the hit counter, before whatever else is wrong; the counter answers the stored number.
 * Nothing is changed. */
#define _DEFAULT_SOURCE
#include "broken.h"
#include "check.h"
#include "guarded.h"

#include <string.h>
#include <sys/mman.h>

#define MOST 4294967295u

/* Some words of the three bars changed; what lies behind them is free, and is tried as zeros and as the largest words. */
static const struct broken {
    const char *note;
    struct {
        uint32_t at, word;
    } change[8];
} broken[] = {
    /* More than its two limits. */
    {"257 bars", {{0, 257}}},
    {"2^31 bars", {{0, 2147483648u}}},
    {"the most bars", {{0, MOST}}},
    {"256 bars, most of them of no words", {{0, 256}}},
    {"8,193 hits", {{1, 8193}}},
    {"the most hits", {{1, MOST}}},
    {"2^32 - 8 hits", {{1, MOST - 7}}},

    /* A number of hits that is not that of the bars: hits of no bar's, or in places the pad does not have. */
    {"a hit too few", {{1, 7}}},
    {"a hit too many", {{1, 9}}},
    {"no hits", {{1, 0}}},
    {"hits of no bar's", {{0, 1}}},
    {"hits and no bar", {{0, 0}}},
    {"a bar with a hit more", {{26, 1}}},
    {"a bar with a hit more, which is another bar's", {{4, 6}, {1, 9}}},
    {"a bar with a hit less", {{4, 4}}},
    {"a bar without its hits", {{17, 0}}},
    {"a bar of the most hits", {{4, MOST}}},
    {"a bar whose words are 0 modulo 2^32", {{4, 2147483648u}}},
    {"a bar whose words are 2 less modulo 2^32", {{17, 2147483647u}}},
    {"counts that add up modulo 2^32 only", {{17, MOST}, {26, 4}}},
    {"two counts that add up modulo 2^32 only", {{4, MOST - 7}, {17, 16}}},
    {"the last count too large by 2^31", {{26, 2147483648u}}},
    {"a last bar that runs over the end", {{26, 8192}, {1, 8192}}},
    {"a last bar that runs over the end, with a wrong total", {{26, 17000}, {1, 17008}}},

    /* An id twice, or ids in another order than a pad has them. */
    {"an id twice", {{15, 3}}},
    {"the last id twice", {{24, 7}}},
    {"an id twice, not side by side", {{24, 3}}},
    {"ids that fall", {{2, 8}}},
    {"a last id that falls", {{24, 0}}},
    {"a fourth bar of zeros", {{0, 4}}},
    {"an id twice among bars without hits", {{0, 5}, {27, 10}, {28, 1}, {29, 0}, {30, 10}, {31, 1}, {32, 0}}},

    /* A bar whose hits break the rules for saving. */
    {"a sound above 127", {{20, HIT(128, 64)}}},
    {"a last sound above 127", {{13, HIT(128, 1)}}},
    {"a last sound of 255", {{22, HIT(255, 127)}}},
    {"the largest word for a hit", {{22, MOST}}},
    {"equal hits", {{8, 0}}},
    {"a smaller step of a sound", {{10, 3}}},
    {"a smaller sound", {{11, HIT(35, 127)}}},
    {"a smaller sound and step", {{11, HIT(35, 1)}, {12, 3}}},
    {"an equal last hit", {{23, 3}}},
    {"a step of the length", {{19, 16}}},
    {"a step above the length", {{14, 17}}},
    {"the largest step", {{14, MOST}}},
    {"a length that is a step", {{3, 15}}},
    {"a length of 0 with hits", {{16, 0}}},
};

/* Each of these words is a pad: nothing but what the table above names is refused. */
static void test_whole(void) {
    uint8_t sounds[8], loud[8];
    uint32_t steps[8];
    lay_three_bars(MOST);
    expect_stored("8 hits", made, PSTP_PAD_WORDS);
    expect_reply("bar 3", pstp_pad_read(made, PSTP_PAD_WORDS, 3, sounds, 8, steps, 8, loud, 8), accepted(5, 16));
    expect_reply("bar 9", pstp_pad_read(made, PSTP_PAD_WORDS, 9, sounds, 0, steps, 0, loud, 0), accepted(0, 0));
    made[0] = 2;
    expect_reply("two bars: bar 7", pstp_pad_read(made, PSTP_PAD_WORDS, 7, sounds, 8, steps, 8, loud, 8), accepted(3, 16));
    expect_reply("two bars: bar 9", pstp_pad_read(made, PSTP_PAD_WORDS, 9, sounds, 8, steps, 8, loud, 8), refused(PSTP_UNKNOWN_BAR, 0, 0));
    made[0] = 3;
    made[24] = MOST;
    made[25] = MOST;
    expect_reply("the last id", pstp_pad_read(made, PSTP_PAD_WORDS, MOST, sounds, 0, steps, 0, loud, 0), accepted(0, MOST));
    made[22] = HIT(127, 1);
    expect_reply("sound 127", pstp_pad_read(made, PSTP_PAD_WORDS, 7, sounds, 8, steps, 8, loud, 8), accepted(3, 16));
    expect("sound 127", sounds[2] == 127 && loud[2] == 1);
}

/* All but the total is right: numbers around every power of two, among them the right one. */
static void test_totals(void) {
    lay_three_bars(MOST);
    for (uint32_t i = 0; i < 96; i++) {
        made[PSTP_PAD_HIT_COUNT] = ((uint32_t)1 << i / 3) - 1 + i % 3;
        if (made[PSTP_PAD_HIT_COUNT] == 8) {
            expect_reply("the right total", pstp_pad_read(made, PSTP_PAD_WORDS, 9, no_bytes, 0, nowhere, 0, no_bytes, 0), accepted(0, 0));
        } else {
            expect_words_broken("a wrong total", PSTP_PAD_WORDS);
        }
    }
}

/* The counter touches word 1 and no other. All others lie in pages that cannot be touched; or all are constants, where a store faults. */
static void test_counter(void) {
    static const uint32_t totals[] = {0, 1, 8192, 8193, 2147483648u, MOST};
    static const size_t lengths[] = {2, 3, 17153, 17154, 17155};
    watch("the counter");
    for (size_t i = 0; i < sizeof totals / sizeof totals[0]; i++) {
        for (size_t k = 0; k < sizeof lengths / sizeof lengths[0]; k++) {
            const uint32_t last[] = {MOST - totals[i], totals[i]}, *two = guarded(0, true, last, sizeof last);
            expect_reply("words 0 and 1 alone", pstp_pad_hits(two, lengths[k]), accepted(totals[i], 0));
            const uint32_t *one = guarded(0, false, &totals[i], sizeof totals[i]);
            expect_reply("word 1 alone", pstp_pad_hits(one - PSTP_PAD_HIT_COUNT, lengths[k]), accepted(totals[i], 0));
        }
    }
    for (size_t len = 0; len <= THREE_BARS; len++) {
        expect_reply("constants", pstp_pad_hits(three_bars, len), accepted(len > PSTP_PAD_HIT_COUNT ? 8 : 0, 0));
    }
}

/* Bars and hits that are laid out well, but one too many. */
static void test_over_the_limits(void) {
    for (uint32_t bars = 256; bars <= 257; bars++) {
        memset(made, 0, sizeof made);
        made[0] = bars;
        for (uint32_t i = 0; i < bars; i++) {
            made[2 + 3 * i] = i;
        }
        if (bars == 257) {
            expect_words_broken("257 bars without hits", PSTP_PAD_WORDS);
        } else {
            expect_reply("256 bars", pstp_pad_read(made, PSTP_PAD_WORDS, 255, no_bytes, 0, nowhere, 0, no_bytes, 0), accepted(0, 0));
        }
    }
    for (uint32_t hits = 8192; hits <= 8193; hits++) {
        memset(made, 0, sizeof made);
        made[0] = 1;
        made[1] = made[4] = hits;
        made[2] = 5;
        made[3] = hits;
        for (uint32_t i = 0; i < hits; i++) {
            made[5 + 2 * i] = HIT(0, 127);
            made[6 + 2 * i] = i;
        }
        if (hits == 8193) {
            expect_words_broken("8,193 hits in a bar", PSTP_PAD_WORDS);
            made[1] = 8192;
            expect_words_broken("8,193 hits in a bar, 8,192 in all", PSTP_PAD_WORDS);
        } else {
            expect_reply("8,192 hits", pstp_pad_read(made, PSTP_PAD_WORDS, 5, no_bytes, 0, nowhere, 0, no_bytes, 0),
                         refused(PSTP_NO_ROOM, 1, 8192));
        }
    }
}

/* Well-formed hits up to the last word, of a bar that says it has more. */
static void test_over_the_end(void) {
    static const uint32_t counts[] = {8574, 8575, 20000, 2147483648u, MOST};
    memset(made, 0, sizeof made);
    made[0] = 1;
    made[1] = 8192;
    made[3] = MOST;
    for (size_t i = 6; i < PSTP_PAD_WORDS; i += 2) {
        made[i - 1] = HIT(0, 127);
        made[i] = (uint32_t)i;
    }
    for (size_t i = 0; i < sizeof counts / sizeof counts[0]; i++) {
        made[4] = counts[i];
        expect_words_broken("a bar that runs over the end", PSTP_PAD_WORDS);
    }
}

/* A slice of another length is no pad, whatever it holds: a pad at its front, or zeros. */
static void test_lengths(void) {
    static const size_t lengths[] = {0, 1, 2, 3, 5, 27, 17152, 17153, 17155};
    for (int zeros = 0; zeros <= 1; zeros++) {
        lay_three_bars(0);
        if (zeros) {
            memset(made, 0, sizeof made);
        }
        for (size_t i = 0; i < sizeof lengths / sizeof lengths[0]; i++) {
            expect_words_broken("another number of words", lengths[i]);
        }
        /* A length that is a pad's modulo 2^32. Of all these words only the first can be touched. */
        size_t len = ((size_t)1 << 32) + PSTP_PAD_WORDS;
        uint32_t *pad = mmap(NULL, len * sizeof *pad, PROT_NONE, MAP_PRIVATE | MAP_ANONYMOUS | MAP_NORESERVE, -1, 0);
        if (pad == MAP_FAILED || mprotect(pad, 4096 * 17, PROT_READ | PROT_WRITE) != 0) {
            expect("a long slice is there", false);
            return;
        }
        memcpy(pad, made, PSTP_PAD_WORDS * sizeof *pad);
        expect_broken("2^32 words more", pad, len);
        expect("2^32 words more", memcmp(pad, made, PSTP_PAD_WORDS * sizeof *pad) == 0);
        munmap(pad, len * sizeof *pad);
    }
}

static void test_broken(const struct broken *row, uint32_t behind) {
    lay_three_bars(behind);
    for (size_t k = 0; k < 8; k++) {
        if (k == 0 || row->change[k].at != 0) {
            made[row->change[k].at] = row->change[k].word;
        }
    }
    expect_words_broken(row->note, PSTP_PAD_WORDS);
}

void test_pad_broken(void) {
    lend_long_lists();
    for (size_t i = 0; i < sizeof broken / sizeof broken[0]; i++) {
        test_broken(&broken[i], 0);
        test_broken(&broken[i], MOST);
    }
    test_whole();
    test_totals();
    test_counter();
    test_over_the_limits();
    test_over_the_end();
    test_lengths();
    release_long_lists();
}
