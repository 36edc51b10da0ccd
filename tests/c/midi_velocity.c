/* How loud the hits of a MIDI file are: the velocities side by side with the positions, and of equal hits on one step the loudest. */
#include "midi.h"

#include <stdio.h>
#include <string.h>

/* Division, events, and the hits as bars_of takes them. END is an end of track. */
#define END "00 FF 2F 00"
static const struct {
    const char *note;
    uint32_t division;
    const char *events, *hits;
} rows[] = {
    {"the softest", 4, "00 90 24 01 " END, "36@0:1"},
    {"the loudest", 4, "00 90 24 7F " END, "36@0:127"},

    /* Three equal hits: the loudest first, in the middle, last. */
    {"the loudest first", 4, "00 90 24 50 00 24 14 00 24 32 " END, "36@0:80"},
    {"the loudest in the middle", 4, "00 90 24 14 00 24 50 00 24 32 " END, "36@0:80"},
    {"the loudest last", 4, "00 90 24 14 00 24 32 00 24 50 " END, "36@0:80"},
    {"equal hits that rise", 4, "00 90 24 01 00 24 02 00 24 03 " END, "36@0:3"},
    {"equal hits that fall", 4, "00 90 24 03 00 24 02 00 24 01 " END, "36@0:3"},
    {"equal hits, equally loud", 4, "00 90 24 40 00 24 40 00 24 40 " END, "36@0:64"},
    {"they are not added up", 4, "00 90 24 20 00 24 20 00 24 21 " END, "36@0:33"},
    {"1 and 127", 4, "00 90 24 01 00 24 7F " END, "36@0:127"},
    {"127 and 1", 4, "00 90 24 7F 00 24 01 " END, "36@0:127"},

    /* Equal hits on other channels, with and without running status. */
    {"the loudest on the first channel", 4, "00 90 24 50 00 99 24 14 00 9F 24 32 " END, "36@0:80"},
    {"the loudest on the second channel", 4, "00 90 24 14 00 99 24 50 00 9F 24 32 " END, "36@0:80"},
    {"the loudest on the last channel", 4, "00 90 24 14 00 99 24 32 00 9F 24 50 " END, "36@0:80"},
    {"a meta event between", 4, "00 90 24 14 00 FF 06 00 00 90 24 50 00 F0 00 00 90 24 32 " END, "36@0:80"},

    /* Equal hits on other ticks of the step, and hits just outside it. */
    {"the loudest on the first tick", 96, "00 90 24 50 0B 24 14 0C 24 32 " END, "36@0:80"},
    {"the loudest on a middle tick", 96, "00 90 24 14 0B 24 50 0C 24 32 " END, "36@0:80"},
    {"the loudest on the last tick", 96, "00 90 24 14 0B 24 32 0C 24 50 " END, "36@0:80"},
    {"a tick later is another step", 96, "00 90 24 14 17 24 32 01 24 50 " END, "36@0:50 36@1:80"},
    {"a tick earlier is another step", 96, "17 90 24 50 01 24 14 17 24 32 " END, "36@0:80 36@1:50"},
    {"the last tick of a bar, and the first of the next", 96, "82 7F 90 24 7F 01 24 01 00 24 02 " END, "36@15:127 36@16:2"},

    /* What is no hit is not heard, and another sound, step or bar is not equal. */
    {"velocity 0 behind the hit", 4, "00 90 24 14 00 24 00 " END, "36@0:20"},
    {"velocity 0 before the hit", 4, "00 90 24 00 00 24 14 " END, "36@0:20"},
    {"a loud note-off", 4, "00 90 24 14 00 80 24 7F " END, "36@0:20"},
    {"loud messages of other kinds", 4, "00 90 24 14 00 A0 24 7F 00 B0 24 7F 00 E0 24 7F " END, "36@0:20"},
    {"another sound is as loud as it is", 4, "00 90 24 14 00 26 7F 00 24 32 00 26 01 " END, "36@0:50 38@0:127"},
    {"another step is as loud as it is", 4, "00 90 24 14 01 24 7F 01 24 32 " END, "36@0:20 36@1:127 36@2:50"},
    {"another bar is as loud as it is", 4, "00 90 24 14 10 24 7F 10 24 32 " END, "36@0:20 36@16:127 36@32:50"},

    /* Side by side with the positions, not as in the file. */
    {"sounds by number", 4, "00 90 7F 01 00 26 02 00 64 03 00 24 04 " END, "36@0:4 38@0:2 100@0:3 127@0:1"},
    {"bars and steps under each sound", 4, "00 90 26 01 01 24 02 01 26 03 0F 24 04 00 26 05 01 24 06 " END,
     "36@1:2 36@17:4 36@18:6 38@0:1 38@2:3 38@17:5"},
    {"equal hits among others", 4, "00 90 26 0A 00 24 14 00 26 1E 01 26 28 00 24 32 00 24 05 00 26 03 " END,
     "36@0:20 36@1:50 38@0:30 38@1:40"},
};

/* Two equal hits with each pair of velocities; 0 is no hit. */
static void test_every_pair(void) {
    bool held = true;
    for (unsigned pair = 0; pair < 128 * 128; pair++) {
        const uint8_t a = (uint8_t)(pair % 128), b = (uint8_t)(pair / 128), loudest = a > b ? a : b;
        const uint8_t hits[] = {0, 0x90, 36, a, 0, 36, b};
        struct bytes file = midi(4, "");
        append(&file, hits, sizeof hits);
        close_track(&file);
        struct lent x = lent();
        uint8_t text[4], velocities[2] = {200, 201};
        pstp_reply r = pstp_midi_bars(file.at, file.len, x.place, 1, x.place + 1, 1, text, 4, x.place + 2, 1, x.place + 3, 1, x.place + 4,
                                      1, x.place + 5, 1, x.place + 6, 1, velocities, 2);
        size_t positions = loudest > 0;
        held = held && r.kind == PSTP_ACCEPTED && r.fourth == positions && velocities[0] == (loudest > 0 ? loudest : 200)
            && velocities[1] == 201;
    }
    expect("every pair of velocities", held);
}

/* Marsaglia's xorshift: the same numbers in each run. */
static uint64_t state = 0x9E3779B97F4A7C15u;
static uint32_t below(uint32_t n) {
    state ^= state << 13;
    state ^= state >> 7;
    state ^= state << 17;
    return (uint32_t)(state >> 32) % n;
}

/* Many hits of three notes on few steps, on three channels, with ticks within the step; a table keeps the loudest. */
static void test_random(void) {
    for (unsigned round = 0; round < 200; round++) {
        uint8_t loudest[3][40] = {{0}};
        char list[2048] = "";
        struct bytes file = midi(24, "");
        uint32_t tick = 0, events = below(150);
        for (uint32_t i = 0; i < events; i++) {
            uint32_t wait = below(4) == 0 ? below(12) : 0, note = below(3), velocity = below(3) ? 1 + below(127) : below(3);
            uint32_t delta = tick + wait < 6 * 40 ? wait : 0, step = (tick += delta) / 6;
            const uint8_t event[] = {(uint8_t)delta, (uint8_t)(0x90 + below(3)), (uint8_t)(36 + note), (uint8_t)velocity};
            append(&file, event, sizeof event);
            loudest[note][step] = velocity > loudest[note][step] ? (uint8_t)velocity : loudest[note][step];
        }
        close_track(&file);
        for (uint32_t k = 0; k < 3 * 40; k++) {
            if (loudest[k / 40][k % 40] > 0) {
                size_t at = strlen(list);
                snprintf(list + at, sizeof list - at, "%s%u@%u:%u", at ? " " : "", 36 + k / 40, k % 40, loudest[k / 40][k % 40]);
            }
        }
        struct lists want = bars_of(list);
        expect_bars("random velocities", &file, &want);
    }
}

void test_midi_velocity(void) {
    for (size_t i = 0; i < sizeof rows / sizeof rows[0]; i++) {
        struct bytes file = midi(rows[i].division, rows[i].events);
        struct lists want = bars_of(rows[i].hits);
        expect_bars(rows[i].note, &file, &want);
    }
    test_every_pair();
    test_random();
}
