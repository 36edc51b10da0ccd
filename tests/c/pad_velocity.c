/* How loud the hits on a pad are: what saving takes, in which order it refuses, that velocities are kept where bars move, which words are
 * no pad because of them, and that nothing written depends on them. */
#include "broken.h"
#include "check.h"
#include "recorded.h"

#include <stdio.h>
#include <string.h>

#define MOST 4294967295u

static void save(const char *note, uint32_t id, uint32_t length, const char *list, pstp_reply want) {
    struct hits h = hits(list);
    expect_saved(note, id, length, &h, want);
}

/* The worked example. */
static void test_worked(bool zeros) {
    struct names names = sound_names("36=kick");
    struct hits bar = hits("36:0@127 36:4@1");
    uint8_t out[200];
    const struct bytes want = hex("6B 69 63 6B 01 08 01 02 00 04"); /* name; bar 1 of length 8; one posting: bar 1, 2 steps, 0 and 4 */
    new_pad(zeros);
    save("127 and 1", 1, 8, "36:0@127 36:4@1", accepted(2, 0));
    save("velocity 0", 2, 8, "36:0@0", refused(PSTP_VELOCITY_RANGE, 0, 0));
    save("sounds before velocities", 2, 8, "36:0@128 128:0@64", refused(PSTP_TOO_LARGE, 0, 0));
    save("velocities before order", 2, 8, "36:4@128 36:0@64", refused(PSTP_VELOCITY_RANGE, 0, 0));
    save("equal hits, whatever their velocity", 2, 8, "36:4@64 36:4@65", refused(PSTP_INVALID_LAYOUT, 20, 0));
    expect_back("velocities, the third list, need 2 places", 1, 2, 2, 1, NULL, refused(PSTP_NO_ROOM, 3, 2));
    expect_back("read back", 1, 2, 2, 2, &bar, accepted(2, 8));
    expect("114 bytes", expect_as_writer("114 bytes", &names).first == 114);
    pstp_pad_write(recorded(), PSTP_PAD_WORDS, names.text.at, names.text.len, names.ends.at, names.ends.len, out, sizeof out);
    expect("the written bytes", memcmp(out + 104, want.at, want.len) == 0);
    expect("a hit's words", recorded()[5] == 36 + 256 * 127 && recorded()[6] == 0 && recorded()[7] == 36 + 256 && recorded()[8] == 4);
}

/* What saving refuses on a pad that holds bar 1: three lists, of any lengths. */
static const struct {
    const char *note;
    uint32_t id, length;
    const char *sounds, *steps, *velocities;
    uint32_t kind, which;
} refusals[] = {
    /* 18, before whatever is wrong with the lists. */
    {"an id held, before velocity 0", 1, 4, "5", "1", "0", 18, 0},
    {"an id held, before a velocity too few", 1, 4, "5 6", "1 1", "1", 18, 0},
    {"an id held, before a velocity too many", 1, 4, "5 6", "1 1", "1 2 3", 18, 0},
    {"an id held, before a velocity alone", 1, 4, "", "", "128", 18, 0},

    /* 11: three lists that are not equally long, whatever is in them. */
    {"a sound too few", 2, 4, "5", "0 1", "1 2", 11, 0},
    {"a step too few", 2, 4, "5 6", "0", "1 2", 11, 0},
    {"a velocity too few", 2, 4, "5 6", "0 1", "1", 11, 0},
    {"a sound too many", 2, 4, "5 6 7", "0 1", "1 2", 11, 0},
    {"a step too many", 2, 4, "5 6", "0 1 2", "1 2", 11, 0},
    {"a velocity too many", 2, 4, "5 6", "0 1", "1 2 3", 11, 0},
    {"three lengths", 2, 4, "5 6", "0 1 2", "1", 11, 0},
    {"three other lengths", 2, 4, "5 6 7", "0", "1 2", 11, 0},
    {"a sound alone", 2, 4, "5", "", "", 11, 0},
    {"a step alone", 2, 4, "", "0", "", 11, 0},
    {"a velocity alone", 2, 4, "", "", "1", 11, 0},
    {"no sound", 2, 4, "", "0", "1", 11, 0},
    {"no step", 2, 4, "5", "", "1", 11, 0},
    {"no velocity", 2, 4, "5", "0", "", 11, 0},
    {"a velocity too few, before a sound above 127", 2, 4, "128 5", "0 0", "1", 11, 0},
    {"a velocity too many, before a velocity out of range", 2, 4, "5 6", "0 0", "0 128 255", 11, 0},
    {"a velocity too few, before order and steps", 2, 4, "5 5", "9 1", "1", 11, 0},

    /* A sound above 127, over all hits, before any velocity. */
    {"a sound before its own velocity", 2, 4, "128", "0", "0", 12, 0},
    {"the last sound before the first velocity", 2, 4, "5 6 128", "0 0 0", "0 1 1", 12, 0},
    {"the first sound before the last velocity", 2, 4, "255 6 7", "0 0 0", "1 1 128", 12, 0},
    {"a sound before velocities, order and steps", 2, 4, "5 5 128", "9 1 0", "255 0 128", 12, 0},

    /* A velocity out of range, over all hits, before order and steps. */
    {"velocity 0", 2, 4, "5", "0", "0", 22, 0},
    {"velocity 128", 2, 4, "5", "0", "128", 22, 0},
    {"velocity 255", 2, 4, "5", "0", "255", 22, 0},
    {"the first velocity", 2, 4, "5 6 7", "0 0 0", "0 1 127", 22, 0},
    {"the second velocity", 2, 4, "5 6 7", "0 0 0", "1 128 127", 22, 0},
    {"the last velocity", 2, 4, "5 6 7", "0 0 0", "1 127 255", 22, 0},
    {"the last velocity of 0", 2, 4, "5 6 7", "0 0 0", "1 127 0", 22, 0},
    {"the first velocity before the order of the last hits", 2, 4, "5 6 6", "0 1 1", "0 1 1", 22, 0},
    {"the last velocity before the order of the first hits", 2, 4, "6 5 7", "0 0 0", "1 1 128", 22, 0},
    {"a velocity before equal hits", 2, 4, "5 5", "1 1", "64 0", 22, 0},
    {"the first velocity before the last step", 2, 4, "5 6", "0 4", "128 1", 22, 0},
    {"the last velocity before the first step", 2, 4, "5 6", "4 0", "1 0", 22, 0},
    {"a velocity before its own step", 2, 0, "5", "0", "0", 22, 0},

    /* Equal hits stay equal whatever their velocities; order is by sound, then step alone. */
    {"equal hits, the second softer", 2, 4, "5 5", "1 1", "65 64", 6, 20},
    {"equal hits, the second louder", 2, 4, "5 5", "1 1", "64 65", 6, 20},
    {"equal hits, as loud", 2, 4, "5 5", "1 1", "64 64", 6, 20},
    {"equal hits, 1 and 127", 2, 4, "4 5 5", "0 1 1", "9 1 127", 6, 20},
    {"a smaller step, louder", 2, 4, "5 5", "2 1", "1 127", 6, 20},
    {"a smaller sound, louder", 2, 4, "6 5", "1 2", "1 127", 6, 20},
    {"order before steps, with velocities", 2, 4, "5 5", "9 9", "1 2", 6, 20},
    {"a step after the velocities", 2, 4, "5", "4", "127", 6, 21},
};

static void copy(uint8_t *to, const struct numbers *from) {
    for (size_t i = 0; i < from->len; i++) {
        to[i] = (uint8_t)from->at[i];
    }
}

static void test_refusals(bool zeros) {
    new_pad(zeros);
    save("bar 1 of 4 steps", 1, 4, "5:0@1", accepted(1, 0));
    for (size_t i = 0; i < sizeof refusals / sizeof refusals[0]; i++) {
        struct numbers sounds = numbers(refusals[i].sounds), steps = numbers(refusals[i].steps);
        struct numbers velocities = numbers(refusals[i].velocities);
        struct hits h = hits("");
        copy(h.sounds, &sounds);
        memcpy(h.steps, steps.at, steps.len * sizeof steps.at[0]);
        copy(h.velocities, &velocities);
        h.sounds_len = sounds.len, h.steps_len = steps.len, h.velocities_len = velocities.len;
        expect_saved(refusals[i].note, refusals[i].id, refusals[i].length, &h, refused(refusals[i].kind, refusals[i].which, 0));
    }
    expect_map("refused saves leave the velocities");
}

/* Each velocity from 0 to 255, alone, first, in the middle and last of five. */
static void test_every_velocity(bool zeros) {
    new_pad(zeros);
    for (unsigned velocity = 0; velocity < 256; velocity++) {
        for (size_t at = 0; at < 4; at++) {
            struct hits h = hits(at == 0 ? "36:0" : "0:0 36:0 36:1 36:2 127:3");
            h.velocities[at == 0 ? 0 : at == 1 ? 0 : at == 2 ? 2 : 4] = (uint8_t)velocity;
            bool good = velocity >= 1 && velocity <= 127;
            expect_saved("every velocity", 8, 4, &h, good ? accepted(h.sounds_len, 0) : refused(PSTP_VELOCITY_RANGE, 0, 0));
            if (good) {
                expect_map("every velocity");
                expect_erased("every velocity", 8, accepted(h.sounds_len, 0));
            }
        }
    }
}

/* Bars saved before, between and behind others, and erased: every hit keeps its velocity. */
static void test_moved(bool zeros) {
    static const uint32_t ids[] = {40, 20, 60, 50, 10, 30, 70};
    new_pad(zeros);
    for (size_t i = 0; i < sizeof ids / sizeof ids[0]; i++) {
        struct hits h = grid(1 + i, 3);
        h = louder(&h, ids[i]);
        expect_saved("bars between bars", ids[i], 3, &h, accepted(h.sounds_len, 0));
        expect_map("bars between bars");
    }
    for (size_t i = 0; i < sizeof ids / sizeof ids[0]; i++) {
        expect_erased("bars erased between bars", ids[i], accepted(1 + i, 0));
        expect_map("bars erased between bars");
    }
}

/* Held velocities at and past the ends of their range, in each hit; every other call but the counter answers 20. */
static void test_held(void) {
    static const size_t hit[] = {5, 7, 9, 11, 13, 18, 20, 22};
    static const uint32_t wrong[] = {0, 128, 129, 255, 256, 257, 383, 32768, 65535, 8388608, 16777215};
    for (size_t i = 0; i < sizeof hit / sizeof hit[0]; i++) {
        for (size_t k = 0; k < sizeof wrong / sizeof wrong[0]; k++) {
            lay_three_bars(k % 2 ? MOST : 0);
            made[hit[i]] = HIT(made[hit[i]] % PSTP_PAD_VELOCITY_UNIT, wrong[k]);
            expect_words_broken("a held velocity out of range", PSTP_PAD_WORDS);
        }
        for (uint32_t good = 1; good <= 127; good++) {
            uint8_t sounds[5], loud[5];
            uint32_t steps[5], id = hit[i] < 15 ? 3 : 7;
            lay_three_bars(MOST);
            made[hit[i]] = HIT(made[hit[i]] % PSTP_PAD_VELOCITY_UNIT, good);
            pstp_reply r = pstp_pad_read(made, PSTP_PAD_WORDS, id, sounds, 5, steps, 5, loud, 5);
            expect_reply("a held velocity", r, id == 3 ? accepted(5, 16) : accepted(3, 16));
            expect("a held velocity", loud[(hit[i] - (id == 3 ? 5 : 18)) / 2] == good);
        }
    }
}

/* A pad recorded before hits had velocities: 20 if it has hits, and otherwise the pad that it was. */
static void test_recorded_before(void) {
    lay_three_bars(0);
    for (size_t at = 5; at < 24; at += at == 13 ? 5 : 2) {
        made[at] %= PSTP_PAD_VELOCITY_UNIT;
    }
    expect_words_broken("recorded before, with hits", PSTP_PAD_WORDS);
    uint32_t pad[PSTP_PAD_WORDS] = {2, 0, 3, 16, 0, 7, 12, 0};
    const uint8_t sound[] = {36}, velocity[] = {99};
    const uint32_t step[] = {11};
    expect_reply("recorded before, without hits", pstp_pad_read(pad, PSTP_PAD_WORDS, 7, no_bytes, 0, nowhere, 0, no_bytes, 0),
                 accepted(0, 12));
    expect_reply("recorded on", pstp_pad_save(pad, PSTP_PAD_WORDS, 5, 12, sound, 1, step, 1, velocity, 1), accepted(1, 0));
    expect("recorded on", pad[5] == 5 && pad[8] == HIT(36, 99) && pad[9] == 11 && pad[10] == 7);
}

/* Two pads of the same bars, with other velocities: each way of writing replies alike and leaves the same bytes. */
static void test_written(void) {
    static const char *const named[] = {"2=a 5=b 9=c", "2=\xFF 5=b 9=c", "5=b 9=c", "2=a 5=a 9=c", ""};
    static uint32_t pads[2][PSTP_PAD_WORDS];
    for (uint32_t by = 0; by <= 1; by++) {
        struct hits first = hits("5:1@1 9:0@127"), second = hits("2:7@64 9:0@1 9:7@1");
        first = louder(&first, 77 * by);
        second = louder(&second, 99 * by);
        new_pad(true);
        expect_saved("sounds 5 and 9", 4, 8, &first, accepted(2, 0));
        expect_saved("sounds 2 and 9", 8, 8, &second, accepted(3, 0));
        memcpy(pads[by], recorded(), sizeof pads[by]);
    }
    expect("two pads", memcmp(pads[0], pads[1], sizeof pads[0]) != 0);
    for (size_t i = 0; i < sizeof named / sizeof named[0]; i++) {
        struct names n = sound_names(named[i]);
        for (size_t shape = 0; shape < 3; shape++) { /* 11 for a wrong number of ends, and for a text that is too long */
            size_t ends = n.ends.len + (shape == 1), text = n.text.len + (shape == 2);
            for (size_t room = 0; room <= 260; room++) {
                struct bytes a = lent_bytes(), b = lent_bytes();
                pstp_reply want = pstp_pad_write(pads[0], PSTP_PAD_WORDS, n.text.at, text, n.ends.at, ends, a.at, room);
                expect_reply("other velocities", pstp_pad_write(pads[1], PSTP_PAD_WORDS, n.text.at, text, n.ends.at, ends, b.at, room),
                             want);
                expect("other velocities", memcmp(a.at, b.at, sizeof a.at) == 0);
            }
        }
    }
}

void test_pad_velocity(void) {
    for (int zeros = 0; zeros <= 1; zeros++) {
        test_worked(zeros);
        test_refusals(zeros);
        test_every_velocity(zeros);
        test_moved(zeros);
    }
    lend_long_lists();
    test_held();
    test_recorded_before();
    release_long_lists();
    test_written();
}
