/* The events of a MIDI file: what is a hit, on which step, what is skipped, and each error in the order of the file. midi_velocity.c has
 * how loud a hit is. */
#include "midi.h"

#include <stdio.h>
#include <string.h>

/* Accepted: division, events, and the hits as bars_of takes them. END is an end of track. */
#define END "00 FF 2F 00"
static const struct {
    const char *note;
    uint32_t division;
    const char *events, *hits;
} good[] = {
    /* Note-ons. */
    {"the least note and velocity", 4, "00 90 00 01 " END, "0@0:1"},
    {"the greatest note and velocity", 4, "00 9F 7F 7F " END, "127@0:127"},
    {"velocity 0 is no hit", 4, "00 90 24 00 " END, ""},
    {"a note-off with a velocity is no hit", 4, "00 80 24 40 " END, ""},
    {"other messages are no hits", 4, "00 A0 24 40 00 B0 24 40 00 C0 24 00 D0 24 00 E0 24 40 " END, ""},
    {"a sound on another channel is the same", 4, "00 90 24 40 01 95 24 40 " END, "36@0 36@1"},
    {"notes come by number, not as in the file", 4, "00 90 7F 40 00 24 40 00 64 40 01 23 40 " END, "35@1 36@0 100@0 127@0"},

    /* Running status: of the last channel message, whatever it was. */
    {"running status", 4, "00 90 24 40 01 26 40 " END, "36@0 38@1"},
    {"running status over velocity 0", 4, "00 90 24 40 01 24 00 01 24 40 " END, "36@0 36@2"},
    {"running status of a note-off", 4, "00 90 24 40 01 80 24 40 01 26 40 " END, "36@0"},
    {"running status of a control change", 4, "00 90 24 40 00 B0 07 64 01 26 40 " END, "36@0"},
    {"running status of a program change: one data byte", 4, "00 C0 05 00 06 00 07 01 90 24 40 " END, "36@1"},
    {"running status of a pressure: one data byte", 4, "00 DF 05 00 06 00 90 24 40 " END, "36@0"},
    {"a status again behind a meta event", 4, "00 90 24 40 00 FF 06 00 01 90 24 40 " END, "36@0 36@1"},
    {"a status again behind an exclusive event", 4, "00 90 24 40 00 F0 00 01 90 24 40 00 F7 00 00 99 26 40 " END, "36@0 36@1 38@1"},

    /* Skipped events: by their length, whatever is in them. */
    {"an exclusive event without F7", 4, "00 F0 02 7E 09 00 90 24 40 " END, "36@0"},
    {"F7 within an exclusive event", 4, "00 F0 04 F7 F7 7E F7 00 90 24 40 " END, "36@0"},
    {"an end of track within an exclusive event", 4, "00 F0 04 00 FF 2F 00 00 90 24 40 " END, "36@0"},
    {"an end of track within F7", 4, "00 F7 03 FF 2F 00 00 90 24 40 " END, "36@0"},
    {"a hit within a text", 4, "00 FF 01 04 00 90 24 40 00 90 26 40 " END, "38@0"},
    {"the least and the greatest meta type", 4, "00 FF 00 00 00 FF 7F 01 FF 00 90 24 40 " END, "36@0"},
    {"meta types beside 2F", 4, "00 FF 2E 00 00 FF 30 00 00 90 24 40 " END, "36@0"},
    {"a tempo of one byte", 4, "00 FF 51 01 07 00 90 24 40 " END, "36@0"},
    {"a length in a long form", 4, "00 FF 01 80 80 80 02 41 42 00 90 24 40 " END, "36@0"},
    {"an exclusive length in a long form", 4, "00 F0 80 01 7E 00 90 24 40 " END, "36@0"},

    /* Delta times: all of them add up, and are rounded down once. */
    {"long forms of a delta time", 4, "80 00 90 24 40 80 80 80 01 24 40 80 81 00 24 40 " END, "36@0 36@1 36@129"},
    {"7 bits to a byte", 256, "81 00 90 24 40 81 80 00 24 40 " END, "36@2 36@258"},
    {"four bytes", 32764, "81 80 80 00 90 24 40 83 FF 7F 24 40 " END, "36@256 36@264"},
    {"a delta time before each sort of event", 4, "01 FF 01 00 02 F0 00 04 F7 00 08 80 24 40 10 C0 05 20 90 24 00 40 90 24 40 " END,
     "36@127"},
    {"rounded down", 96, "17 90 24 40 01 26 40 17 2A 40 01 2E 40 " END, "36@0 38@1 42@1 46@2"},
    {"rounded down once", 96, "17 90 24 40 17 26 40 02 2A 40 " END, "36@0 38@1 42@2"},
    {"3 ticks to a step", 12, "02 90 24 40 01 24 40 02 24 40 01 24 40 " END, "36@0 36@1 36@2"},
    {"the last tick of a bar, and the first of the next", 32764, "87 FF 6F 90 24 40 01 24 40 " END, "36@15 36@16"},
    {"an end of track as late as can be", 4, "00 90 24 40 FF FF FF 7F FF 2F 00", "36@0"},

    /* Equal hits on one step count once; others each. */
    {"equal hits", 4, "00 90 24 40 00 24 40 00 99 24 01 " END, "36@0"},
    {"equal hits on two ticks of a step", 96, "00 90 24 40 17 24 40 01 24 40 " END, "36@0 36@1"},
    {"equal hits with another sound between", 4, "00 90 24 40 00 26 40 00 24 40 00 26 40 " END, "36@0 38@0"},
    {"the same position in two bars", 4, "00 90 24 40 10 24 40 10 24 40 " END, "36@0 36@16 36@32"},
    {"the last hit of all", 4, "00 90 24 40 81 7F 26 40 " END, "36@0 38@255"},
};

/* Refused with 14 and this index, or with 15. The first event is at 22. FAR is the last step of bar 65,535, with division 4. */
#define FAR "BF FF 7F 90 24 40"
enum { TOO_FAR = -1 };
static const struct {
    const char *note;
    const char *events;
    int index;
} bad[] = {
    /* Cut short: at the event's own delta time. Between two events: at the file's end. */
    {"a cut delta time", "81", 22},
    {"a longer cut delta time", "FF FF FF", 22},
    {"a delta time alone", "00", 22},
    {"a status alone", "00 90", 22},
    {"one data byte of two", "00 90 24", 22},
    {"one data byte of two, running status", "00 90 24 40 00 26", 26},
    {"a delta time alone, running status", "00 90 24 40 00", 26},
    {"a program change alone", "00 C0", 22},
    {"FF alone", "00 FF", 22},
    {"a meta event without a length", "00 FF 06", 22},
    {"a meta event with a cut length", "00 FF 06 81", 22},
    {"a meta event of a byte more than the file", "00 90 24 40 00 FF 06 03 41 42", 26},
    {"a meta event of 2^28 - 1 bytes", "00 FF 06 FF FF FF 7F " END, 22},
    {"FF 2F alone", "00 FF 2F", 22},
    {"F0 alone", "00 F0", 22},
    {"F0 with a cut length", "00 F0 80 80 80", 22},
    {"F0 of a byte more than the file", "00 F0 05 " END, 22},
    {"F7 of a byte more than the file", "00 F7 01", 22},
    {"a hit, and no end", "00 90 24 40", 26},
    {"a meta event to the file's end", "00 FF 06 02 41 42", 28},
    {"an exclusive event over the end of track", "00 F0 04 " END, 29},

    /* Numbers of over 4 bytes. */
    {"a delta time of five bytes", "80 80 80 80 00 90 24 40 " END, 22},
    {"a delta time of four bytes above 127 alone", "80 80 80 80", 22},
    {"a meta length of five bytes", "00 FF 06 80 80 80 80 00 " END, 22},
    {"F0 with a length of five bytes", "00 F0 80 80 80 80 00 " END, 22},
    {"F7 with a length of five bytes", "00 90 24 40 01 F7 FF FF FF FF 7F " END, 26},

    /* A data byte where a status must come. */
    {"a data byte first", "00 24 40 " END, 22},
    {"a data byte behind a meta event", "00 90 24 40 00 FF 01 00 00 26 40 " END, 30},
    {"a data byte behind F0", "00 90 24 40 00 F0 01 F7 00 26 40 " END, 30},
    {"a data byte behind F7", "00 90 24 40 00 F7 00 00 26 40 " END, 29},
    {"a data byte behind a program change and a meta event", "00 C0 05 00 FF 7F 00 00 05 " END, 29},

    /* Data bytes and meta types above 127. */
    {"a note of 128", "00 90 80 40 " END, 22},
    {"a velocity of 128", "00 90 24 80 " END, 22},
    {"a velocity of 128, running status", "00 90 24 40 81 00 26 80 " END, 26},
    {"a status for a velocity", "00 90 24 40 01 90 24 90 24 40 " END, 26},
    {"a clock within a message", "00 90 24 F8 40 " END, 22},
    {"an end of track within a message", "00 90 24 FF 2F 00", 22},
    {"a note-off's data byte", "00 80 80 00 " END, 22},
    {"a note-off's second data byte", "00 80 24 FF " END, 22},
    {"a pressure's data byte", "00 A0 24 80 " END, 22},
    {"a control change's data byte", "00 B0 80 00 " END, 22},
    {"a program above 127", "00 C0 80 " END, 22},
    {"a channel pressure above 127", "00 D0 FF " END, 22},
    {"a bend's data byte", "00 E0 00 80 " END, 22},
    {"a meta type of 128", "00 FF 80 00 " END, 22},
    {"a meta type of 175", "00 FF AF 00", 22},
    {"a meta type of 255", "00 FF FF 00 " END, 22},

    /* The end of track: its length is the byte 00, and nothing follows. */
    {"an end of track of one byte", "00 FF 2F 01 00", 22},
    {"an end of track with a long form of 0", "00 FF 2F 80 00", 22},
    {"a byte behind the end", END " 00", 26},
    {"FF behind the end", END " FF", 26},
    {"a hit behind the end", "00 90 24 40 " END " 00 90 24 40 " END, 30},
    {"two ends", END " " END, 26},

    /* In the order of the file: the first error. */
    {"an error behind an error", "00 90 24 40 00 F4 00 F5", 26},
    {"an error before a byte behind the end", "00 90 24 80 " END " 00", 22},
    {"an error before a missing end", "00 24 40", 22},

    /* Too far: a hit in bar 65,536, when it comes. */
    {"too far", FAR " 01 24 40 " END, TOO_FAR},
    {"too far at once", "C0 80 00 90 24 40 " END, TOO_FAR},
    {"too far for another sound", FAR " 01 26 01 " END, TOO_FAR},
    {"too far before an error", FAR " 01 24 40 00 F1", TOO_FAR},
    {"too far before a missing end", FAR " 01 24 40", TOO_FAR},
    {"too far before a byte behind the end", FAR " 01 24 40 " END " 00", TOO_FAR},
    {"an error before too far", "00 90 24 80 " FAR " 01 24 40 " END, 22},
    {"no hit until both data bytes are good", FAR " 01 24 80 " END, 28},
    {"no hit until the note is good", FAR " 01 90 80 40 " END, 28},
    {"no hit until it is whole", FAR " 01 24", 28},
    {"an error behind velocity 0 too far", FAR " 01 24 00 01 F1", 31},
};

/* A good file with something behind an event of every status: note-ons of each channel are hits, F1 to F6 and F8 to FE are errors. */
static void test_every_status(void) {
    for (unsigned status = 0x80; status < 0x100; status++) {
        char events[64];
        bool one = status >> 4 == 0xC || status >> 4 == 0xD, system = status > 0xF0 && status != 0xF7 && status != 0xFF;
        snprintf(events, sizeof events, "00 %02X %s " END, status, status >= 0xF0 ? "00" : one ? "24" : "24 40");
        struct bytes file = midi(4, status == 0xFF ? "00 FF 01 00 " END : events);
        struct lists want = bars_of(status >> 4 == 9 ? "36@0" : "");
        if (!system) {
            expect_bars("a status", &file, &want);
            continue;
        }
        expect_no_bars("a status", &file, refused(PSTP_MIDI_FILE, 0, 22));
        snprintf(events, sizeof events, "00 90 24 40 00 %02X", status);
        file = midi(4, events);
        expect_no_bars("a status with nothing behind it", &file, refused(PSTP_MIDI_FILE, 0, 26));
    }
}

/* All 128 notes with each velocity from 0 to 127 once, highest note first. */
static void test_every_note(void) {
    char hits[2048] = "";
    struct bytes file = midi(4, "00 90 7F 00");
    for (unsigned note = 0; note < 128; note++) {
        uint8_t event[3] = {0, (uint8_t)(127 - note), (uint8_t)note};
        append(&file, event, 3);
        if (note < 127) {
            snprintf(hits + strlen(hits), sizeof hits - strlen(hits), "%s%u@0:%u", note ? " " : "", note, 127 - note);
        }
    }
    close_track(&file);
    struct lists want = bars_of(hits);
    expect_bars("every note but the one with velocity 0", &file, &want);
}

void test_midi_events(void) {
    for (size_t i = 0; i < sizeof good / sizeof good[0]; i++) {
        struct bytes file = midi(good[i].division, good[i].events);
        struct lists want = bars_of(good[i].hits);
        expect_bars(good[i].note, &file, &want);
    }
    for (size_t i = 0; i < sizeof bad / sizeof bad[0]; i++) {
        struct bytes file = midi(4, bad[i].events);
        bool far = bad[i].index == TOO_FAR;
        expect_no_bars(bad[i].note, &file, far ? refused(PSTP_BAR_TOO_FAR, 0, 0) : refused(PSTP_MIDI_FILE, 0, (uint64_t)bad[i].index));
    }
    test_every_status();
    test_every_note();
}
