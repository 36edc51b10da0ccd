/* A bar on paper: the worked sheets for every room, names by characters, steps up to the last, and the order of the refusals. */
#include "build.h"
#include "check.h"

#include <stdio.h>
#include <string.h>

/* Bars of 0, 1, 63, 64 and 65 steps, and the last id; a on first and last steps, b in bar 64 alone. */
#define EIGHT " 01 01 01 01 01 01 01 01"
static struct bytes bars_by_length(void) {
    return assemble((struct parts){.documents = 6,
                                   .metadata = "00 00 01 01 3E 3F 01 40 01 41 BE FF FF FF 0F 40",
                                   .terms = 2,
                                   .names = "ab",
                                   .lists = "01 01 00 3E 01 3E 01 02 00 3F 01 01 40 BE FF FF FF 0F 40 00 01 01 01 01 01 01 01"
                                            EIGHT EIGHT EIGHT EIGHT EIGHT EIGHT EIGHT " 40 01 3F",
                                   .entries = 2,
                                   .entry = {{0, 1, 0, 83, 5}, {1, 1, 83, 3, 1}}});
}

static const struct {
    const char *note;
    uint32_t id;
    const char *lines;
} by_length[] = {
    {"no steps", 0, "         0         0                                                            \n"},
    {"one step", 1,
     "         1         1                                                            \n"
     "a           o                                                                  1\n"},
    {"63 steps", 63,
     "        63        63                                                            \n"
     "a           ..............................................................o    1\n"},
    {"64 steps", 64,
     "        64        64                                                            \n"
     "a           o..............................................................o   2\n"
     "b           ...............................................................o   1\n"},
    {"the last id, and a hit on every step", 4294967295u,
     "4294967295        64                                                            \n"
     "a           oooooooooooooooooooooooooooooooooooooooooooooooooooooooooooooooo  64\n"},
};

/* Names that are the first so many bytes of a text, and their columns. The sounds share one list, a hit on step 2 of bar (3, 4). */
static const struct by_name {
    const char *note, *text;
    uint32_t len[4];
    const char *column[4];
} by_name[] = {
    {"characters of one byte", "abcdefghijklm", {1, 11, 12, 13}, {"a           ", "abcdefghijk ", "abcdefghijkl", "abcdefghijkl"}},
    {"characters of two bytes", "αβγδεζηθικλμν", {12, 22, 24, 26}, {"αβγδεζ      ", "αβγδεζηθικλ ", "αβγδεζηθικλμ", "αβγδεζηθικλμ"}},
    {"characters of four bytes", "𝄐𝄑𝄒𝄓𝄔𝄕𝄖𝄗𝄘𝄙𝄚𝄛𝄜", {12, 44, 48, 52}, {"𝄐𝄑𝄒         ", "𝄐𝄑𝄒𝄓𝄔𝄕𝄖𝄗𝄘𝄙𝄚 ", "𝄐𝄑𝄒𝄓𝄔𝄕𝄖𝄗𝄘𝄙𝄚𝄛", "𝄐𝄑𝄒𝄓𝄔𝄕𝄖𝄗𝄘𝄙𝄚𝄛"}},
    {"the room that is always enough, to the byte", "𝄐𝄑𝄒𝄓𝄔𝄕𝄖𝄗𝄘𝄙𝄚𝄛𝄜", {48, 52}, {"𝄐𝄑𝄒𝄓𝄔𝄕𝄖𝄗𝄘𝄙𝄚𝄛", "𝄐𝄑𝄒𝄓𝄔𝄕𝄖𝄗𝄘𝄙𝄚𝄛"}},
    {"one to four bytes", "aä鼓𝄐bö鈴𝄑cü鐘𝄒d", {20, 30, 31}, {"aä鼓𝄐bö鈴𝄑    ", "aä鼓𝄐bö鈴𝄑cü鐘𝄒", "aä鼓𝄐bö鈴𝄑cü鐘𝄒"}},
    {"a combining mark is one", "e\u0301abcdefghijkl", {3, 13, 15}, {"e\u0301          ", "e\u0301abcdefghij", "e\u0301abcdefghij"}},
    {"below 32, and 127", "\t\n\x1F ~\x7F\x01z2345678", {7, 12, 15}, {"??? ~??     ", "??? ~??z2345", "??? ~??z2345"}},
    {"blanks of its own", " a ", {1, 2, 3}, {"            ", " a          ", " a          "}},
};

#define BAR_3 "         3         4                                                            \n"
#define HIT_2 "..o.                                                               1\n"

static struct bytes sharing(const char *text, const uint32_t len[4]) {
    struct parts parts = {.documents = 1, .metadata = "03 04", .names = text, .lists = "03 01 02"};
    while (parts.entries < 4 && len[parts.entries] > 0) {
        parts.entry[parts.entries] = (struct entry){0, len[parts.entries], 0, 3, 1};
        parts.entries++;
    }
    parts.terms = (uint32_t)parts.entries;
    return assemble(parts);
}

/* Bars (3, 16), (7, 16), (9, 0), (12, 65), (13, 16), and three sounds by df and list: the refusal, with places and without. */
static const struct broken {
    const char *note;
    struct {
        uint32_t df;
        const char *bytes;
    } list[3];
    int wrong; /* the list whose checksum is wrong, from 1; 0: none */
    uint32_t id, kind, which;
    uint64_t index;
} broken[] = {
    {"an unknown bar before three broken lists", {{1, "80"}, {1, "03 00"}, {1, "03 01 10"}}, 1, 4, 16, 0, 0},
    {"an unknown bar below all", {{1, "80"}, {1, "03 00"}, {1, "03 01 10"}}, 1, 0, 16, 0, 0},
    {"an unknown bar before one of 65 steps", {{1, "03 01 00"}, {1, "03 01 00"}, {1, "03 01 00"}}, 0, 11, 16, 0, 0},
    {"an unknown bar above all", {{1, "03 01 00"}, {1, "03 01 00"}, {1, "03 01 00"}}, 0, 4294967295u, 16, 0, 0},
    {"65 steps before three broken lists", {{1, "80"}, {1, "03 00"}, {1, "03 01 10"}}, 1, 12, 17, 0, 0},
    {"65 steps, the last with a hit", {{1, "0C 01 40"}, {1, "0C 01 40"}, {1, "0C 01 40"}}, 0, 12, 17, 0, 0},

    {"the first of three broken lists", {{1, "80"}, {1, "03 00"}, {1, "03 01 10"}}, 0, 3, 7, 5, 0},
    {"the second list before the third", {{1, "03 01 00"}, {1, "03 00"}, {1, "80"}}, 0, 3, 6, 11, 0},
    {"the third list", {{1, "03 01 00"}, {1, "03 01 00"}, {1, "03 02 01 FF FF FF FF 0F"}}, 0, 3, 9, 0, 1},
    {"a list of a sound of another bar, first", {{1, "07 01 10"}, {1, "03 01 00"}, {1, "03 01 00"}}, 0, 3, 6, 13, 0},
    {"a list of a sound of another bar, behind the bar's last sound", {{1, "03 01 00"}, {1, "07 01 00"}, {1, "07 01 10"}}, 0, 3, 6, 13, 0},
    {"another bar's posting behind the bar's own", {{2, "03 01 00 04 01 10"}, {1, "03 01 00"}, {1, "03 01 00"}}, 0, 3, 6, 13, 0},
    {"another bar's posting before the bar's own", {{2, "03 02 01 00 0A 01 00"}, {1, "03 01 00"}, {1, "03 01 00"}}, 0, 13, 6, 12, 0},
    {"a byte behind the bar's own posting", {{1, "03 01 00"}, {1, "03 01 00"}, {1, "03 01 00 00"}}, 0, 3, 6, 14, 0},
    {"no steps, yet the lists are decoded", {{1, "03 01 00"}, {1, "03 01 00"}, {1, "04 01 00"}}, 0, 9, 6, 10, 0},
    {"no hits, yet the lists are decoded", {{1, "03 01 00"}, {1, "03 01 00"}, {1, "04 01 00"}}, 0, 7, 6, 10, 0},
    {"a bar without steps has no hits", {{1, "09 01 00"}, {1, "03 01 00"}, {1, "03 01 00"}}, 0, 9, 6, 13, 0},

    {"a wrong checksum before what the list holds", {{1, "03 01 00"}, {1, "80"}, {1, "03 01 00"}}, 2, 3, 5, 6, 0},
    {"a wrong checksum of the last list", {{1, "03 01 00"}, {1, "03 01 00"}, {1, "03 01 00"}}, 3, 3, 5, 6, 0},
    {"a broken list before the next one's checksum", {{1, "80"}, {1, "03 01 00"}, {1, "03 01 00"}}, 2, 3, 7, 5, 0},
    {"a wrong checksum before the next list", {{1, "03 01 00"}, {1, "80"}, {1, "03 01 00"}}, 1, 3, 5, 6, 0},
};

/* The sheet in so many places, or 13 with its bytes; nothing else is filled. */
static void expect_in_room(const char *note, const struct bytes *s, uint32_t id, const struct bytes *sheet, size_t room) {
    struct bytes out = lent_bytes();
    bool fits = sheet->len <= room;
    pstp_reply want = fits ? accepted(sheet->len, 0) : refused(PSTP_NO_ROOM, 1, sheet->len);
    expect_reply(note, pstp_bar_sheet(s->at, s->len, id, out.at, room), want);
    expect_written(note, &out, sheet, fits ? sheet->len : 0);
}

static struct bytes of_lines(const char *lines) {
    struct bytes sheet = {{0}, 0};
    append(&sheet, lines, strlen(lines));
    return sheet;
}

static void expect_sheet(const char *note, const struct bytes *s, uint32_t id, const char *lines) {
    struct bytes sheet = of_lines(lines);
    const size_t rooms[] = {0, sheet.len - 1, sheet.len, sheet.len + 1, sizeof sheet.at};
    expect("81 + 117 * terms are always enough", sheet.len <= 81 + 117 * pstp_open(s->at, s->len).second);
    for (size_t i = 0; i < sizeof rooms / sizeof rooms[0]; i++) {
        expect_in_room(note, s, id, &sheet, rooms[i]);
    }
}

/* Refused, with places and without; the buffer is as it was. */
static void expect_no_sheet(const char *note, const struct bytes *s, uint32_t id, pstp_reply want) {
    struct bytes out = lent_bytes(), nothing = {{0}, 0};
    expect_reply(note, pstp_bar_sheet(s->at, s->len, id, out.at, sizeof out.at), want);
    expect_reply(note, pstp_bar_sheet(s->at, s->len, id, out.at, 0), want);
    expect_written(note, &out, &nothing, 0);
}

static void test_two_bars(void) {
    struct bytes s = two_bars();
    struct bytes bar_3 = of_lines("         3        16                                                            \n"
                                  "kick        o...o..........o                                                   3\n"
                                  "snare       ........o.....o.                                                   2\n");
    struct bytes bar_7 = of_lines("         7        16                                                            \n"
                                  "kick        ..o.............                                                   1\n"
                                  "snare       ...oo...........                                                   2\n");
    for (size_t room = 0; room <= 250; room++) {
        expect_in_room("bar 3", &s, 3, &bar_3, room);
        expect_in_room("bar 7", &s, 7, &bar_7, room);
    }
    expect_no_sheet("bar 4", &s, 4, refused(PSTP_UNKNOWN_BAR, 0, 0));
    put(&s, 149, "80 80 80 80 80 80 80 80");
    repair(&s);
    expect_no_sheet("bar 4 beside a broken list", &s, 4, refused(PSTP_UNKNOWN_BAR, 0, 0));
    expect_no_sheet("bar 3 of a broken list", &s, 3, refused(PSTP_INVALID_VARINT, PSTP_SECTION_POSTINGS, 0));
    s = uneven();
    expect_sheet("hat is in another bar", &s, 2, "         2         5                                                            \n");
    expect_no_sheet("a bar of 300 steps", &s, 9, refused(PSTP_BAR_TOO_LONG, 0, 0));
    expect_no_sheet("a bar of 4096 steps", &s, 70000, refused(PSTP_BAR_TOO_LONG, 0, 0));
    s = assemble((struct parts){.documents = 0});
    expect_no_sheet("a segment of no bars", &s, 0, refused(PSTP_UNKNOWN_BAR, 0, 0));
}

static void test_broken(const struct broken *row) {
    struct parts parts = {.documents = 5, .metadata = "03 10 04 10 02 00 03 41 01 10", .terms = 3, .names = "abc", .entries = 3};
    char lists[128] = "";
    size_t at = 0;
    for (uint32_t i = 0; i < 3; i++) {
        size_t len = hex(row->list[i].bytes).len;
        parts.entry[i] = (struct entry){i, 1, at, len, row->list[i].df};
        strcat(strcat(lists, at > 0 ? " " : ""), row->list[i].bytes);
        at += len;
    }
    parts.lists = lists;
    struct bytes s = assemble(parts);
    if (row->wrong) { /* the directory's own checksum is right again */
        s.at[72 + 32 * (row->wrong - 1) + 28] ^= 1;
        uint32_t directory = crc32(s.at + 72, 96);
        memcpy(s.at + 56, &directory, 4);
    }
    expect_no_sheet(row->note, &s, row->id, refused(row->kind, row->which, row->index));
}

static void test_names(const struct by_name *row) {
    struct bytes s = sharing(row->text, row->len);
    char lines[1024] = BAR_3;
    for (size_t i = 0; i < 4 && row->len[i] > 0; i++) {
        strcat(strcat(lines, row->column[i]), HIT_2);
    }
    expect_sheet(row->note, &s, 3, lines);
}

/* A name of each character of one byte, 0 too, and of each control character of two, which is shown as it is. */
static void test_every_character(void) {
    for (unsigned c = 0; c < 160; c++) {
        const uint32_t len[4] = {c < 128 ? 1 : 2};
        const uint8_t name[] = {c < 128 ? (uint8_t)c : 0xC2, (uint8_t)c};
        struct bytes s = sharing("xx", len), sheet = of_lines(BAR_3);
        memcpy(s.at + 104, name, len[0]);
        repair(&s);
        append(&sheet, c < 32 || c == 127 ? (const uint8_t *)"?" : name, len[0]);
        append(&sheet, "           " HIT_2, 11 + 69);
        expect_in_room("every character", &s, 3, &sheet, sheet.len);
    }
}

/* 2,000 sounds in two bars of 64 steps: each in bar 2, two of three in bar 1, there on its own step and the last. */
static void test_many_sounds(void) {
    enum { SOUNDS = 2000 };
    static uint8_t text[5 * SOUNDS + 1], segment[60 * SOUNDS], out[81 * (SOUNDS + 2)], want[sizeof out];
    static uint32_t ends[SOUNDS], postings[SOUNDS], bars[2 * SOUNDS], counts[2 * SOUNDS], steps[3 * SOUNDS];
    const uint32_t ids[] = {1, 2}, lengths[] = {64, 64};
    size_t n = 0, hits = 0, filled = 81;
    memset(out, 0xA5, sizeof out);
    memset(want, 0xA5, sizeof want);
    sprintf((char *)want, "%10d%10d%60s\n", 1, 64, "");
    for (uint32_t i = 0; i < SOUNDS; i++) {
        sprintf((char *)text + 5 * i, "s%04u", (unsigned)i);
        ends[i] = 5 * (i + 1);
        postings[i] = 1;
        if (i % 3 > 0) {
            char line[65] = "...............................................................o";
            counts[n] = i % 64 < 63 ? 2 : 1;
            line[i % 64] = 'o';
            filled += (size_t)sprintf((char *)want + filled, "s%04u%7s%s%4u\n", (unsigned)i, "", line, (unsigned)counts[n]);
            steps[hits++] = i % 64;
            if (i % 64 < 63) {
                steps[hits++] = 63;
            }
            bars[n++] = 1;
            postings[i] = 2;
        }
        bars[n] = 2;
        counts[n++] = 1;
        steps[hits++] = 0;
    }
    want[filled] = 0xA5; /* where sprintf put its 0 */
    pstp_reply r = pstp_write_positional_segment(ids, 2, lengths, 2, text, 5 * SOUNDS, ends, SOUNDS, postings, SOUNDS, bars, n, counts, n,
                                                 steps, hits, segment, sizeof segment);
    expect("2,000 sounds are written", r.kind == PSTP_ACCEPTED);
    size_t len = (size_t)r.first;
    expect_reply("2,000 sounds: a place too few", pstp_bar_sheet(segment, len, 1, out, filled - 1), refused(PSTP_NO_ROOM, 1, filled));
    expect("2,000 sounds: nothing is filled", out[0] == 0xA5 && memcmp(out, out + 1, sizeof out - 1) == 0);
    expect_reply("2,000 sounds: one bar", pstp_bar_sheet(segment, len, 1, out, sizeof out), accepted(filled, 0));
    expect("2,000 sounds: the sheet, and the places behind it", memcmp(out, want, sizeof out) == 0);
    expect_reply("2,000 sounds: the other bar", pstp_bar_sheet(segment, len, 2, out, sizeof out), accepted(81 * (SOUNDS + 1), 0));
}

void test_sheet(void) {
    test_two_bars();
    struct bytes s = bars_by_length();
    for (size_t i = 0; i < sizeof by_length / sizeof by_length[0]; i++) {
        expect_sheet(by_length[i].note, &s, by_length[i].id, by_length[i].lines);
    }
    expect_no_sheet("65 steps", &s, 65, refused(PSTP_BAR_TOO_LONG, 0, 0));
    expect_no_sheet("no bar between", &s, 2, refused(PSTP_UNKNOWN_BAR, 0, 0));
    for (size_t i = 0; i < sizeof by_name / sizeof by_name[0]; i++) {
        test_names(&by_name[i]);
    }
    test_every_character();
    s = assemble((struct parts){.documents = 1,
                                .metadata = "83 80 00 84 00",
                                .terms = 1,
                                .names = "a",
                                .lists = "83 00 81 80 00 82 80 80 80 00",
                                .entries = 1,
                                .entry = {{0, 1, 0, 10, 1}}});
    expect_sheet("numbers in long forms", &s, 3, BAR_3 "a           " HIT_2);
    s = assemble((struct parts){.documents = 1, .metadata = "03 04"});
    expect_sheet("a segment of no sounds", &s, 3, BAR_3);
    for (size_t i = 0; i < sizeof broken / sizeof broken[0]; i++) {
        test_broken(&broken[i]);
    }
    test_many_sounds();
}
