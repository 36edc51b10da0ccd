/* Bars from MIDI files: the worked files list by list, written and asked; header and heading. midi_events.c has the events. */
#include "midi.h"

#include <stdio.h>
#include <stdlib.h>
#include <string.h>

/* Files by their bytes, and the lists that they become. */
static const struct worked {
    const char *note, *file;
    size_t reply[4];           /* bars, sounds, postings, positions */
    const char *lists[LISTS];  /* in the order of the buffers */
    const char *phrases[3][2]; /* names, and the bars in which the file's notes have them on consecutive steps */
} worked[] = {
    {"a groove: running status, the last step of a bar, the next bar",
     "4D 54 68 64 00 00 00 06 00 00 00 01 00 60 4D 54 72 6B 00 00 00 22 "
     "00 FF 51 03 07 A1 20 00 99 24 64 30 2A 50 00 24 00 30 26 6E 81 70 24 5A 2F 26 28 01 24 7F 00 FF 2F 00",
     {2, 3, 4, 6},
     {"0 1", "16 16", "n036n038n042", "4 8 12", "2 1 1", "0 1 0 0", "2 1 2 1", "0 14 0 4 15 2",
      "100 90 127 110 40 80"},
     {{"n036 n038", "0"}, {"n038 n036", ""}, {"n036", "0 1"}}},
    {"equal hits on one step, a bar without hits",
     "4D 54 68 64 00 00 00 06 00 00 00 01 00 04 4D 54 72 6B 00 00 00 1B "
     "00 F0 03 7E 09 F7 00 90 26 14 00 99 26 50 00 26 32 00 24 40 23 26 01 00 FF 2F 00",
     {3, 2, 3, 3},
     {"0 1 2", "16 16 16", "n036n038", "4 8", "1 2", "0 0 2", "1 1 1", "0 0 3", "64 80 1"},
     {{"n038", "0 2"}, {"n036 n038", ""}, {"n036", "0"}}},
    {"24 ticks to a step",
     "4D 54 68 64 00 00 00 06 00 00 00 01 00 60 4D 54 72 6B 00 00 00 15 "
     "00 99 2D 64 20 2F 50 20 32 3C 82 3F 2D 5A 01 2D 7F 00 FF 2F 00",
     {2, 3, 4, 5},
     {"0 1", "16 16", "n045n047n050", "4 8 12", "2 1 1", "0 1 0 0", "2 1 1 1", "0 15 0 1 2", "100 90 127 80 60"},
     {{"n045 n047 n050", "0"}, {"n045 n045", ""}, {"n047 n050", "0"}}},
    {"no hits",
     "4D 54 68 64 00 00 00 06 00 00 00 01 7F FC 4D 54 72 6B 00 00 00 04 00 FF 2F 00",
     {0, 0, 0, 0},
     {"", "", "", "", "", "", "", "", ""},
     {{"n036", ""}, {"", ""}, {"n036 n038", ""}}},
};

/* Files by their bytes, and the refusal. */
static const struct broken {
    const char *note, *file;
    uint32_t kind;
    uint64_t index;
} broken[] = {
    {"a data byte after a meta event",
     "4D 54 68 64 00 00 00 06 00 00 00 01 00 60 4D 54 72 6B 00 00 00 10 00 90 24 64 60 FF 06 01 41 00 26 64 00 FF 2F 00", 14, 31},
    {"two ends", "4D 54 68 64 00 00 00 06 00 00 00 01 00 04 4D 54 72 6B 00 00 00 0C 00 90 24 64 00 FF 2F 00 00 FF 2F 00", 14, 30},
    {"no end", "4D 54 68 64 00 00 00 06 00 00 00 01 00 04 4D 54 72 6B 00 00 00 04 00 90 24 64", 14, 26},
    {"a cut end", "4D 54 68 64 00 00 00 06 00 00 00 01 00 04 4D 54 72 6B 00 00 00 07 00 90 24 64 00 FF 2F", 14, 26},
    {"too far, before a broken event", "4D 54 68 64 00 00 00 06 00 00 00 01 00 04 4D 54 72 6B 00 00 00 0B BF FF 7F 90 24 64 01 26 64 00 F1",
     15, 0},
};

/* The first file with some bytes overwritten, or cut or lengthened with zeros to `len` bytes: the index of 14. */
static const struct damage {
    const char *note;
    size_t at;
    const char *over;
    size_t len; /* 0: the whole, 56 bytes */
    uint64_t index;
} damages[] = {
    /* The header, before the heading. */
    {"one byte", 0, "", 1, 0},
    {"13 bytes", 0, "", 13, 0},
    {"a header's length of 5", 7, "05", 0, 0},
    {"a header's length of 7", 7, "07", 0, 0},
    {"a header of 8 bytes and the track behind it", 7, "08 00 00 00 01 00 60 00 00 4D 54 72 6B 00 00 00 20", 0, 0},
    {"format 1", 9, "01", 0, 0},
    {"format 256", 8, "01", 0, 0},
    {"no track", 11, "00", 0, 0},
    {"two tracks", 11, "02", 0, 0},
    {"257 tracks", 10, "01", 0, 0},
    {"25 frames of 40 ticks", 12, "E7 28", 0, 0},
    {"a wrong header without a heading", 9, "01", 14, 0},
    {"a wrong division before a wrong heading", 13, "61 4C", 0, 0},

    /* The heading, before the events. */
    {"a header alone", 0, "", 14, 14},
    {"15 bytes", 0, "", 15, 14},
    {"18 bytes", 0, "", 18, 14},
    {"21 bytes", 0, "", 21, 14},
    {"a track's length of one byte less", 21, "21", 0, 14},
    {"a track's length of one byte more", 21, "23", 0, 14},
    {"a track's length of 0", 21, "00", 0, 14},
    {"a track's length of 34 + 2^24", 18, "01", 0, 14},
    {"a track's length of 2^32 - 1", 18, "FF FF FF FF", 0, 14},
    {"a byte behind the track", 0, "", 57, 14},
    {"a chunk behind the track", 56, "4D 54 72 6B 00 00 00 00", 64, 14},
    {"a byte cut off the track", 0, "", 55, 14},
    {"no track behind the heading", 0, "", 22, 14},
    {"the heading before the events", 21, "21 80 80 80 80", 0, 14},
    {"an empty track: the end is missing at the file's end", 18, "00 00 00 00", 22, 22},
};

struct lists bars_of(const char *hits) {
    struct lists l;
    memset(&l, 0, sizeof l);
    unsigned long last = 0, note_before = 128, bar_before = 0;
    for (const char *next = hits; *next;) {
        char *end;
        unsigned long note = strtoul(next, &end, 10), step = strtoul(end + 1, &end, 10), bar = step / 16;
        uint8_t velocity = *end == ':' ? (uint8_t)strtoul(end + 1, &end, 10) : 64;
        next = *end == ' ' ? end + 1 : end;
        if (note != note_before) {
            char name[8];
            snprintf(name, sizeof name, "n%03lu", note);
            append(&l.text, name, 4);
            l.ends.at[l.ends.len++] = (uint32_t)l.text.len;
            l.posting_counts.len++;
        }
        if (note != note_before || bar != bar_before) {
            l.posting_counts.at[l.posting_counts.len - 1]++;
            l.posting_ids.at[l.posting_ids.len++] = (uint32_t)bar;
            l.position_counts.len++;
        }
        l.position_counts.at[l.position_counts.len - 1]++;
        l.positions.at[l.positions.len++] = (uint32_t)(step % 16);
        l.velocities.at[l.velocities.len++] = velocity;
        note_before = note, bar_before = bar;
        last = bar > last ? bar : last;
    }
    while (*hits && l.ids.len <= last) {
        l.lengths.at[l.lengths.len++] = 16;
        l.ids.at[l.ids.len] = (uint32_t)l.ids.len;
        l.ids.len++;
    }
    return l;
}

static struct lists no_lists;

static const size_t nothing[LISTS] = {0};
static const size_t plenty[LISTS] = {ROOM, ROOM, sizeof no_lists.text.at, ROOM, ROOM, ROOM, ROOM, ROOM, sizeof no_lists.velocities.at};

/* One call with so many places in each buffer. `lists`: what the buffers hold behind it. */
static void import(const char *note, const struct bytes *file, const size_t room[LISTS], pstp_reply want, const struct lists *lists) {
    struct lent a = lent(), b = lent(), c = lent(), d = lent(), e = lent(), f = lent(), g = lent();
    struct bytes text = lent_bytes(), velocities = lent_bytes();
    pstp_reply got = pstp_midi_bars(file->at, file->len, a.place, room[0], b.place, room[1], text.at, room[2], c.place, room[3], d.place,
                                    room[4], e.place, room[5], f.place, room[6], g.place, room[7], velocities.at, room[8]);
    expect_reply(note, got, want);
    expect_filled(note, &a, lists->ids.at, lists->ids.len);
    expect_filled(note, &b, lists->lengths.at, lists->lengths.len);
    expect_written(note, &text, &lists->text, lists->text.len);
    expect_filled(note, &c, lists->ends.at, lists->ends.len);
    expect_filled(note, &d, lists->posting_counts.at, lists->posting_counts.len);
    expect_filled(note, &e, lists->posting_ids.at, lists->posting_ids.len);
    expect_filled(note, &f, lists->position_counts.at, lists->position_counts.len);
    expect_filled(note, &g, lists->positions.at, lists->positions.len);
    expect_written(note, &velocities, &lists->velocities, lists->velocities.len);
}

void expect_bars(const char *note, const struct bytes *file, const struct lists *l) {
    const size_t need[LISTS] = {l->ids.len,         l->lengths.len,         l->text.len,      l->ends.len,      l->posting_counts.len,
                                l->posting_ids.len, l->position_counts.len, l->positions.len, l->velocities.len};
    pstp_reply want = accepted_four(l->ids.len, l->ends.len, l->posting_ids.len, l->positions.len);
    import(note, file, plenty, want, l);
    import(note, file, need, want, l);
    for (size_t i = 0; i < LISTS; i++) {
        size_t only[LISTS], none[LISTS], from[LISTS];
        if (need[i] == 0) {
            continue; /* no place is too few */
        }
        for (size_t k = 0; k < LISTS; k++) {
            only[k] = need[k] - (k == i);     /* one place too few in one buffer */
            none[k] = k == i ? 0 : plenty[k]; /* no place in it */
            from[k] = k < i ? need[k] : 0;    /* nor in those behind it */
        }
        pstp_reply short_of = refused(PSTP_NO_ROOM, (uint32_t)i + 1, need[i]);
        import(note, file, only, short_of, &no_lists);
        import(note, file, none, short_of, &no_lists);
        import(note, file, from, short_of, &no_lists);
    }
}

void expect_no_bars(const char *note, const struct bytes *file, pstp_reply want) {
    import(note, file, plenty, want, &no_lists);
    import(note, file, nothing, want, &no_lists);
}

/* Imported, written from the buffers that were lent, and asked. */
static void test_phrases(const struct worked *row, const struct bytes *file) {
    static uint32_t ids[ROOM], lengths[ROOM], ends[ROOM], posting_counts[ROOM], posting_ids[ROOM], position_counts[ROOM], positions[ROOM];
    static uint8_t text[ROOM], velocities[ROOM], segment[2048];
    pstp_reply r = pstp_midi_bars(file->at, file->len, ids, ROOM, lengths, ROOM, text, ROOM, ends, ROOM, posting_counts, ROOM, posting_ids,
                                  ROOM, position_counts, ROOM, positions, ROOM, velocities, ROOM);
    size_t bars = (size_t)r.first, sounds = (size_t)r.second, postings = (size_t)r.third, places = (size_t)r.fourth;
    r = pstp_write_positional_segment(ids, bars, lengths, bars, text, 4 * sounds, ends, sounds, posting_counts, sounds, posting_ids,
                                      postings, position_counts, postings, positions, places, segment, sizeof segment);
    expect(row->note, r.kind == PSTP_ACCEPTED);
    size_t n = (size_t)r.first;
    expect_reply(row->note, pstp_open(segment, n), accepted(row->reply[0], row->reply[1]));
    for (size_t i = 0; i < 3; i++) {
        struct names phrase = names(row->phrases[i][0]);
        struct numbers want = numbers(row->phrases[i][1]);
        struct lent x = lent();
        r = pstp_phrase_match_strs(segment, n, phrase.text.at, phrase.text.len, phrase.ends.at, phrase.ends.len, x.place, ROOM);
        expect_reply(row->phrases[i][0], r, accepted(want.len, 0));
        expect_filled(row->phrases[i][0], &x, want.at, want.len);
    }
}

static void test_worked(const struct worked *row) {
    struct bytes file = hex(row->file), text = {{0}, 0}, velocities = {{0}, 0};
    struct numbers list[LISTS];
    for (size_t i = 0; i < LISTS; i++) {
        list[i] = numbers(i == 2 ? "" : row->lists[i]);
    }
    append(&text, row->lists[2], strlen(row->lists[2]));
    while (velocities.len < list[8].len) {
        velocities.at[velocities.len] = (uint8_t)list[8].at[velocities.len];
        velocities.len++;
    }
    struct lists want = {list[0], list[1], text, list[3], list[4], list[5], list[6], list[7], velocities};
    expect("bars", list[0].len == row->reply[0] && list[1].len == row->reply[0]);
    expect("sounds", text.len == 4 * row->reply[1] && list[3].len == row->reply[1] && list[4].len == row->reply[1]);
    expect("postings", list[5].len == row->reply[2] && list[6].len == row->reply[2]);
    expect("positions", list[7].len == row->reply[3] && list[8].len == row->reply[3]);
    expect_bars(row->note, &file, &want);
    test_phrases(row, &file);
}

static pstp_reply without_room(const struct bytes *file) {
    return pstp_midi_bars(file->at, file->len, nowhere, 0, nowhere, 0, no_bytes, 0, nowhere, 0, nowhere, 0, nowhere, 0, nowhere, 0, nowhere,
                          0, no_bytes, 0);
}

/* Each byte of header and heading but the division with each other value. */
static void test_every_byte(void) {
    for (size_t at = 0; at < 22; at += at == 11 ? 3 : 1) {
        struct bytes file = hex(worked[0].file);
        uint8_t right = file.at[at];
        bool held = true;
        for (int other = 1; other < 256; other++) {
            file.at[at] = (uint8_t)(right ^ other);
            pstp_reply got = without_room(&file);
            held = held && got.kind == PSTP_MIDI_FILE && got.which == 0 && got.index == (at < 14 ? 0 : 14);
        }
        expect("a byte of header or heading", held);
    }
}

/* Each division, good ones with the bars up to tick 384: 4 to 32,764, multiples of 4. */
static void test_every_division(void) {
    struct bytes file = hex(worked[0].file);
    bool held = true;
    for (uint32_t division = 0; division < 65536; division++) {
        file.at[12] = (uint8_t)(division >> 8);
        file.at[13] = (uint8_t)division;
        pstp_reply got = without_room(&file);
        if (division >= 4 && division <= 32764 && division % 4 == 0) {
            held = held && got.kind == PSTP_NO_ROOM && got.which == 1 && got.index == 384 / (division / 4) / 16 + 1;
        } else {
            held = held && got.kind == PSTP_MIDI_FILE && got.which == 0 && got.index == 0;
        }
    }
    expect("every division", held);
}

void test_midi(void) {
    for (size_t i = 0; i < sizeof worked / sizeof worked[0]; i++) {
        test_worked(&worked[i]);
    }
    for (size_t i = 0; i < sizeof broken / sizeof broken[0]; i++) {
        struct bytes file = hex(broken[i].file);
        expect_no_bars(broken[i].note, &file, refused(broken[i].kind, 0, broken[i].index));
    }
    for (size_t i = 0; i < sizeof damages / sizeof damages[0]; i++) {
        struct bytes file = hex(worked[0].file);
        put(&file, damages[i].at, damages[i].over);
        file.len = damages[i].len ? damages[i].len : file.len;
        expect_no_bars(damages[i].note, &file, refused(PSTP_MIDI_FILE, 0, damages[i].index));
    }
    struct bytes empty = {{0}, 0};
    expect_no_bars("an empty file", &empty, refused(PSTP_MIDI_FILE, 0, 0));
    test_every_byte();
    test_every_division();
}
