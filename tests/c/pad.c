/* A pad to record on: the worked examples, what each call refuses and in which order, and that it writes what the writer writes. */
#include "build.h"
#include "check.h"
#include "recorded.h"

#include <stdio.h>
#include <string.h>

static void expect_hits(const char *note, uint64_t want) {
    expect_reply(note, pstp_pad_hits(recorded(), PSTP_PAD_WORDS), accepted(want, 0));
}

static void save(const char *note, uint32_t id, uint32_t length, const char *list) {
    struct hits h = hits(list);
    expect_saved(note, id, length, &h, accepted(h.sounds_len, 0));
}

/* Document 01's bars to try. Sound 36 is the kick, 38 the snare. The words are those of docs/FORMAT.md. */
static void test_two_bars(bool zeros) {
    static const uint32_t words[] = {2, 8, 3, 16, 5, 32548, 0, 23076, 4, 23076, 15, 28198, 8, 17958, 14,
                                     7, 16, 3, 25636, 2, 20518, 3, 32550, 4};
    const char *note = "the two bars on a pad";
    struct bytes segment = two_bars();
    struct names names = sound_names("36=kick 38=snare");
    struct hits bar_3 = hits("36:0@127 36:4@90 36:15@90 38:8@110 38:14@70");
    new_pad(zeros);
    expect_hits("no hits on an empty pad", 0);
    save(note, 7, 16, "36:2@100 38:3@80 38:4@127");
    expect_hits("3 hits of bar 7", 3);
    expect_saved(note, 3, 16, &bar_3, accepted(5, 0));
    expect_hits("5 more of bar 3", 8);
    expect("the two bars word by word", memcmp(recorded(), words, sizeof words) == 0);
    for (size_t room = 0; room < 8 * 8 * 8; room++) {
        size_t sounds = room % 8, steps = room / 8 % 8, velocities = room / 64;
        pstp_reply none = refused(PSTP_NO_ROOM, sounds < 5 ? 1 : steps < 5 ? 2 : 3, 5);
        bool fits = sounds >= 5 && steps >= 5 && velocities >= 5;
        expect_back(note, 3, sounds, steps, velocities, &bar_3, fits ? accepted(5, 16) : none);
    }
    expect_back("unknown comes before room", 4, 0, 0, 0, NULL, refused(PSTP_UNKNOWN_BAR, 0, 0));
    for (size_t room = 0; room <= 200; room++) {
        expect_segment(note, &names, room, segment.at, room < 165 ? refused(PSTP_NO_ROOM, 1, 165) : accepted(165, 0));
    }
    expect_as_writer(note, &names);
    expect_map(note);
}

/* What saving refuses on a pad that holds bar 1, and in which order; pad_velocity.c has the velocities. */
static const struct {
    const char *note;
    uint32_t id, length;
    const char *sounds, *steps;
    uint32_t kind, which;
} refusals[] = {
    {"an id held", 1, 4, "5", "1", 18, 0},
    {"an id held, before lists that differ", 1, 4, "5 6", "0", 18, 0},
    {"an id held, before a sound above 127", 1, 4, "128", "0", 18, 0},
    {"an id held, before order and steps", 1, 4, "5 5", "9 1", 18, 0},
    {"an id held, a bar without hits", 1, 4, "", "", 18, 0},
    {"a sound more than steps", 2, 4, "5 6", "0", 11, 0},
    {"a step more than sounds", 2, 4, "5", "0 1", 11, 0},
    {"steps alone", 2, 4, "", "0", 11, 0},
    {"sounds alone", 2, 4, "5", "", 11, 0},
    {"lists that differ, before a sound above 127", 2, 4, "128 6", "0", 11, 0},
    {"lists that differ, before order and steps", 2, 4, "5 5", "9 1 0", 11, 0},
    {"a sound above 127", 2, 4, "128", "0", 12, 0},
    {"the last sound", 2, 4, "5 6 255", "0 0 0", 12, 0},
    {"all sounds before the order", 2, 4, "5 5 128", "9 1 0", 12, 0},
    {"all sounds before the steps", 2, 4, "5 128", "4 0", 12, 0},
    {"equal hits", 2, 4, "5 5", "1 1", 6, 20},
    {"a smaller step of a sound", 2, 4, "5 5", "2 1", 6, 20},
    {"a smaller sound", 2, 4, "6 5", "1 2", 6, 20},
    {"the last hit", 2, 4, "0 5 5 5", "0 0 1 1", 6, 20},
    {"all of the order before the steps", 2, 4, "5 5 127", "9 1 0", 6, 20},
    {"the order of the last hits before the first step", 2, 4, "5 6 6", "99 1 0", 6, 20},
    {"a step of the length", 2, 4, "5", "4", 6, 21},
    {"the first of two steps", 2, 4, "5 6", "4 3", 6, 21},
    {"the last step", 2, 4, "5 5", "1 9", 6, 21},
    {"a step in a bar of length 0", 2, 0, "5", "0", 6, 21},
    {"the largest step", 2, 4294967295u, "5", "4294967295", 6, 21},
};

/* A good velocity for each sound. */
static struct hits lists(const char *sounds, const char *steps) {
    struct numbers first = numbers(sounds), second = numbers(steps);
    struct hits h = hits("");
    for (size_t i = 0; i < first.len; i++) {
        h.sounds[i] = (uint8_t)first.at[i];
        h.velocities[i] = (uint8_t)(127 - i);
    }
    memcpy(h.steps, second.at, second.len * sizeof second.at[0]);
    h.sounds_len = h.velocities_len = first.len;
    h.steps_len = second.len;
    return h;
}

static void test_refusals(bool zeros) {
    struct hits none = hits("");
    new_pad(zeros);
    save("bar 1 of 4 steps", 1, 4, "5:0");
    for (size_t i = 0; i < sizeof refusals / sizeof refusals[0]; i++) {
        struct hits h = lists(refusals[i].sounds, refusals[i].steps);
        pstp_reply want = refused(refusals[i].kind, refusals[i].which, 0);
        expect_saved(refusals[i].note, refusals[i].id, refusals[i].length, &h, want);
    }
    expect_hits("refused saves leave the number of hits", 1);
    save("a bar without hits is a bar", 2, 0, "");
    expect_hits("a bar without hits adds none", 1);
    expect_saved("and is held", 2, 1, &none, refused(PSTP_ALREADY_HELD, 0, 0));
    expect_erased("a bar erased", 1, accepted(1, 0));
    expect_erased("an erased bar is unknown", 1, refused(PSTP_UNKNOWN_BAR, 0, 0));
    expect_hits("a refused erasure leaves the number of hits", 0);
    expect_back("an erased bar is unknown", 1, MOST_HITS, MOST_HITS, MOST_HITS, NULL, refused(PSTP_UNKNOWN_BAR, 0, 0));
    expect_back("a bar without hits, no room", 2, 0, 0, 0, &none, accepted(0, 0));
    expect_map("a bar without hits");
    expect_erased("a bar without hits erased", 2, accepted(0, 0));
    expect("no bar is left", recorded()[PSTP_PAD_BAR_COUNT] == 0 && recorded()[PSTP_PAD_HIT_COUNT] == 0);
}

/* Ids, lengths, sounds and steps at their ends, saved in every order; 0 and the largest are ids like others. */
static void test_orders(bool zeros) {
    static const struct {
        uint32_t id, length;
        const char *hits;
    } bar[] = {
        {0, 4294967295u, "0:0 0:4294967294 127:0 127:4294967294"},
        {1, 0, ""},
        {4294967294u, 1, "0:0 1:0 2:0 126:0 127:0"},
        {4294967295u, 4294967295u, "36:4294967294"},
    };
    struct names names = sound_names("0=a 1=b 2=c 36=d 126=e 127=f");
    for (unsigned order = 0; order < 256; order++) {
        unsigned at[] = {order % 4, order / 4 % 4, order / 16 % 4, order / 64};
        bool each_once = at[0] != at[1] && at[0] != at[2] && at[0] != at[3] && at[1] != at[2] && at[1] != at[3] && at[2] != at[3];
        if (each_once) {
            new_pad(zeros);
            for (size_t i = 0; i < 4; i++) {
                save("bars in any order", bar[at[i]].id, bar[at[i]].length, bar[at[i]].hits);
            }
            expect_map("bars in any order");
            expect_as_writer("bars in any order", &names);
            for (size_t i = 4; i-- > 0;) {
                expect_erased("erased in another order", bar[at[i ^ 1]].id, accepted(hits(bar[at[i ^ 1]].hits).sounds_len, 0));
                expect_map("erased in another order");
            }
        }
    }
}

/* Names, put to a pad with sounds 2, 5 and 9: the refusal, or 0. The names of other sounds may be anything. */
static const struct {
    const char *note, *names;
    uint32_t kind, which;
} namings[] = {
    {"names that rise", "2=a 5=b 9=c", 0, 0},
    {"a name that begins another", "2=a 5=ab 9=abc", 0, 0},
    {"the names of other sounds", "0=z 1=\xFF 2=a 3=a 4=\xC3 5=b 6=b 7=a 8=\x80 9=c 127=\xFF", 0, 0},
    {"a first name that is not UTF-8", "2=\xFF 5=b 9=c", 10, 0},
    {"a last name that is not UTF-8", "2=a 5=b 9=\xFF", 10, 0},
    {"a letter cut between two names", "2=\xC3 5=\xA9 9=c", 10, 0},
    {"a letter cut at a name of another sound", "2=a 5=\xC3 6=\xA9 9=c", 10, 0},
    {"an empty first name", "5=b 9=c", 6, 6},
    {"an empty last name", "2=a 5=b", 6, 6},
    {"no names", "", 6, 6},
    {"equal names", "2=a 5=a 9=c", 6, 16},
    {"equal names, one between", "2=a 3=b 5=a 9=c", 6, 16},
    {"names that fall", "2=a 5=c 9=b", 6, 16},
    {"a beginning of the name before", "2=ab 5=a 9=c", 6, 16},
    {"not UTF-8, before order", "2=\xC3\xA9 5=\x80 9=c", 10, 0},
    {"empty, before order", "2=b 9=a", 6, 6},
    {"an empty name before a later one that is not UTF-8", "5=b 9=\xFF", 6, 6},
    {"a name that is not UTF-8 before a later empty one", "2=\xFF 9=c", 10, 0},
    {"order before a later name that is not UTF-8", "2=b 5=a 9=\xFF", 6, 16},
    {"order before a later empty name", "2=b 5=a", 6, 16},
};

static void test_names(bool zeros) {
    new_pad(zeros);
    save("sounds 5 and 9", 4, 8, "5:1 9:0");
    save("sounds 2 and 9", 8, 8, "2:7 9:0 9:7");
    save("no sound", 6, 8, "");
    for (size_t i = 0; i < sizeof namings / sizeof namings[0]; i++) {
        struct names names = sound_names(namings[i].names);
        pstp_reply got = expect_as_writer(namings[i].note, &names);
        expect(namings[i].note, got.kind == namings[i].kind && got.which == namings[i].which);
    }
}

/* 11: another number of ends, ends that fall, a last end that is not the text's. All 128 names are looked at, and before any is read. */
static void test_ends(bool zeros) {
    static const uint32_t counts[] = {0, 1, 127, 129, 256};
    pstp_reply misfit = refused(PSTP_LIST_SHAPE, 0, 0);
    new_pad(zeros);
    for (int held = 0; held <= 1; held++) {
        struct names names = sound_names("2=\xFF 5=b");
        for (size_t i = 0; i < sizeof counts / sizeof counts[0]; i++) {
            for (size_t text = 0; text <= 2; text += 2) {
                struct names n = names;
                n.ends.len = counts[i];
                n.text.len = text;
                for (size_t k = 0; k < 256; k++) {
                    n.ends.at[k] = (uint32_t)text;
                }
                expect_segment("another number of ends", &n, 512, NULL, misfit);
            }
        }
        for (size_t i = 0; i < 128; i++) {
            struct names n = names;
            n.ends.at[i] = 3; /* above the text's length, so the next one falls, or the last is not the text's */
            expect_segment("an end past the text", &n, 0, NULL, misfit);
            if (i > 5) {
                n = names;
                n.ends.at[i] = 1;
                expect_segment("an end that falls", &n, 0, NULL, misfit);
            }
        }
        names.text.len = 3;
        expect_segment("ends that end early", &names, 0, NULL, misfit);
        save("a bar with a sound that has a wrong name", 1 + (uint32_t)held, 8, "2:0");
    }
    for (int without = 0; without <= 1; without++) { /* no bar, then one without hits */
        struct names any = sound_names("2=\xFF 5=b 6=a"), none = sound_names("");
        new_pad(zeros);
        if (without) {
            save("a bar without hits", 300, 16, "");
        }
        expect("no sound, any names", expect_as_writer("no sound, any names", &any).first == (without ? 75 : 72));
        expect("no sound, no names", expect_as_writer("no sound, no names", &none).first == (without ? 75 : 72));
    }
}

/* The README's example: three bars recorded, one read back and erased, the rest written and searched. */
static void test_search(void) {
    uint32_t pad[PSTP_PAD_WORDS] = {0}, ends[PSTP_PAD_SOUNDS] = {0}, phrase_ends[] = {4, 9}, found[3], steps[3];
    const uint8_t *text = (const uint8_t *)"kicksnare";
    uint8_t sounds[] = {36, 36, 38}, even[] = {90, 90, 90}, accent[] = {70, 127, 100}, none[] = {0, 64, 64}, segment[512];
    uint8_t read[3], loud[3];
    uint32_t rock[] = {0, 8, 4}, fill[] = {0, 2, 3}, off[] = {2, 7, 8};
    const size_t words = PSTP_PAD_WORDS;
    for (size_t sound = 36; sound < PSTP_PAD_SOUNDS; sound++) {
        ends[sound] = sound < 38 ? 4 : 9;
    }
    expect_reply("rock", pstp_pad_save(pad, words, 12, 16, sounds, 3, rock, 3, even, 3), accepted(3, 0));
    expect_reply("fill", pstp_pad_save(pad, words, 5, 16, sounds, 3, fill, 3, even, 3), accepted(3, 0));
    expect_reply("off", pstp_pad_save(pad, words, 7, 16, sounds, 3, off, 3, accent, 3), accepted(3, 0));
    expect_reply("bar 5 again", pstp_pad_save(pad, words, 5, 16, sounds, 3, off, 3, even, 3), refused(PSTP_ALREADY_HELD, 0, 0));
    expect_reply("velocity 0", pstp_pad_save(pad, words, 6, 16, sounds, 3, off, 3, none, 3), refused(PSTP_VELOCITY_RANGE, 0, 0));
    expect_reply("9 hits", pstp_pad_hits(pad, words), accepted(9, 0));
    expect_reply("bar 5 erased", pstp_pad_erase(pad, words, 5), accepted(3, 0));
    expect_reply("6 hits", pstp_pad_hits(pad, words), accepted(6, 0));
    expect_reply("bar 7 read back", pstp_pad_read(pad, words, 7, read, 3, steps, 3, loud, 3), accepted(3, 16));
    expect("bar 7 read back", memcmp(read, sounds, 3) == 0 && memcmp(steps, off, sizeof off) == 0 && memcmp(loud, accent, 3) == 0);
    pstp_reply r = pstp_pad_write(pad, words, text, 9, ends, PSTP_PAD_SOUNDS, segment, sizeof segment);
    expect_reply("two bars written", r, accepted(163, 0));
    r = pstp_phrase_match_strs(segment, 163, text, 9, phrase_ends, 2, found, 3);
    expect_reply("kick, then snare", r, accepted(1, 0));
    expect("kick, then snare", found[0] == 7);
}

void test_pad(void) {
    expect("the words of a full pad", PSTP_PAD_WORDS
               == PSTP_PAD_FIRST_BAR + PSTP_PAD_BARS * PSTP_PAD_BAR_WORDS + PSTP_PAD_HITS * PSTP_PAD_HIT_WORDS);
    for (int zeros = 0; zeros <= 1; zeros++) {
        test_two_bars(zeros);
        test_refusals(zeros);
        test_orders(zeros);
        test_names(zeros);
        test_ends(zeros);
    }
    test_search();
}
