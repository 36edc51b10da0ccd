/* Handles: what pstp_check and pstp_open_once say of a segment, by digits; handles of other bytes, and made-up ones. The tables of opening,
 * decoding, reading, searching and limits ask their questions with handles as well (asked.h). */
#include "asked.h"
#include "check.h"

#include <stddef.h>
#include <stdio.h>
#include <string.h>

/* The struct as callers of other languages lay it out. */
static void test_layout(void) {
    expect("a handle has 56 bytes", sizeof(pstp_handle) == 56);
    expect("kind, which", offsetof(pstp_handle, kind) == 0 && offsetof(pstp_handle, which) == 4);
    expect("index", offsetof(pstp_handle, index) == 8);
    expect("level, documents", offsetof(pstp_handle, level) == 16 && offsetof(pstp_handle, documents) == 20);
    expect("terms, spare", offsetof(pstp_handle, terms) == 24 && offsetof(pstp_handle, spare) == 28);
    expect("names, metadata, lists",
           offsetof(pstp_handle, names) == 32 && offsetof(pstp_handle, metadata) == 40 && offsetof(pstp_handle, lists) == 48);
    expect("the levels", PSTP_LEVEL_REFUSED == 0 && PSTP_LEVEL_OPENED == 1 && PSTP_LEVEL_CHECKED == 2);
}

static void test_digits(void) {
    struct bytes bars = two_bars(), three = uneven(), nothing = assemble((struct parts){.documents = 0});
    expect_handle("two bars", pstp_check(bars.at, bars.len), (pstp_handle){0, 0, 0, 2, 2, 2, 0, 136, 145, 149});
    expect_handle("two bars, opened", pstp_open_once(bars.at, bars.len), (pstp_handle){0, 0, 0, 1, 2, 2, 0, 136, 145, 149});
    expect_handle("uneven", pstp_check(three.at, three.len), (pstp_handle){0, 0, 0, 2, 3, 1, 0, 104, 107, 117});
    expect_handle("nothing", pstp_check(nothing.at, nothing.len), (pstp_handle){0, 0, 0, 2, 0, 0, 0, 72, 72, 72});
    expect_handle("nothing, opened", pstp_open_once(nothing.at, nothing.len), (pstp_handle){0, 0, 0, 1, 0, 0, 0, 72, 72, 72});
    expect_handle("71 bytes", pstp_check(bars.at, 71), (pstp_handle){1, 1, 0, 0, 0, 0, 0, 0, 0, 0});
    expect_handle("71 bytes, opened", pstp_open_once(bars.at, 71), (pstp_handle){1, 1, 0, 0, 0, 0, 0, 0, 0, 0});
    bars.at[8] = 3;
    expect_handle("version 3", pstp_check(bars.at, bars.len), (pstp_handle){3, 0, 3, 0, 0, 0, 0, 0, 0, 0});
    expect_handle("version 3, opened", pstp_open_once(bars.at, bars.len), (pstp_handle){3, 0, 3, 0, 0, 0, 0, 0, 0, 0});
}

/* The lists of c, b and a over one document of 16 positions, three bytes each: which refusal pstp_check names. The directory has a, b, c;
 * names and lists lie in another order. */
static const struct {
    const char *note, *lists;
    uint32_t kind, which;
    uint64_t index;
} rows[] = {
    {"all three decode", "00 01 03 00 01 01 00 01 02", 0, 0, 0},
    {"c, the last of the directory", "00 01 10 00 01 01 00 01 02", 6, 13, 0},
    {"a, the first of the directory", "00 01 03 00 01 01 01 01 02", 6, 10, 0},
    {"b", "00 01 03 00 00 01 00 01 02", 6, 11, 0},
    {"b before c", "00 01 10 00 00 01 00 01 02", 6, 11, 0},
    {"a before c", "00 01 10 00 01 01 00 01 80", 7, 5, 0},
    {"a before b and c", "00 01 10 00 00 01 00 01 80", 7, 5, 0},
};

static void test_order(void) {
    for (size_t i = 0; i < sizeof rows / sizeof rows[0]; i++) {
        struct bytes s = assemble((struct parts){.documents = 1,
                                                 .metadata = "00 10",
                                                 .terms = 3,
                                                 .names = "cab",
                                                 .lists = rows[i].lists,
                                                 .entries = 3,
                                                 .entry = {{1, 1, 6, 3, 1}, {2, 1, 3, 3, 1}, {0, 1, 0, 3, 1}}});
        pstp_reply want = rows[i].kind ? refused(rows[i].kind, rows[i].which, rows[i].index) : accepted(1, 3);
        expect_handles(rows[i].note, &s, want);
        s.at[s.len - 1] ^= 1; /* opening, here a checksum, comes before every list */
        expect_handles(rows[i].note, &s, refused(PSTP_CHECKSUM_MISMATCH, PSTP_SECTION_POSTINGS, 0));
    }
}

/* Kick's list does not decode. What does not need it is answered under the refused handle, and what needs it is refused, by digits. */
static void test_refused_list(void) {
    struct bytes s = two_bars();
    const uint8_t *kick = (const uint8_t *)"kick", *snare = (const uint8_t *)"snare", *text = (const uint8_t *)"kicksnare";
    const uint32_t ends[] = {4, 9}, bars[] = {3, 7}, steps[] = {3, 4};
    put(&s, 151, "10");
    repair(&s);
    pstp_handle handles[] = {pstp_check(s.at, s.len), pstp_open_once(s.at, s.len)};
    expect_handle("kick exceeds its bar", handles[0], (pstp_handle){6, 13, 0, 0, 0, 0, 0, 0, 0, 0});
    expect_handle("kick is not decoded", handles[1], (pstp_handle){0, 0, 0, 1, 2, 2, 0, 136, 145, 149});
    for (int i = 0; i < 2; i++) {
        pstp_handle h = handles[i];
        struct lent x = lent(), y = lent();
        expect_reply("length", pstp_document_len_checked(s.at, s.len, h, 7), accepted(1, 16));
        expect_reply("df", pstp_df_checked(s.at, s.len, h, kick, 4), accepted(2, 0));
        expect_reply("kick", pstp_docs_with_term_checked(s.at, s.len, h, kick, 4, x.place, ROOM), refused(6, 13, 0));
        expect_reply("both", pstp_phrase_match_strs_checked(s.at, s.len, h, text, 9, ends, 2, x.place, ROOM), refused(6, 13, 0));
        expect_filled("kick is refused", &x, nowhere, 0);
        expect_reply("snare", pstp_docs_with_term_checked(s.at, s.len, h, snare, 5, x.place, ROOM), accepted(2, 0));
        expect_filled("snare", &x, bars, 2);
        expect_reply("snare in 7", pstp_positions_checked(s.at, s.len, h, snare, 5, 7, y.place, 2), accepted(2, 0));
        expect_filled("snare in 7", &y, steps, 2);
    }
}

/* Who changes the bytes must check again: the new handle answers as the bytes are now. */
static void test_changed(void) {
    struct bytes s = two_bars();
    const uint8_t *kick = (const uint8_t *)"kick";
    const uint32_t before[] = {0, 4, 15}, after[] = {1, 5, 15};
    pstp_handle h = pstp_check(s.at, s.len);
    struct lent x = lent(), y = lent();
    expect_reply("before", pstp_positions_checked(s.at, s.len, h, kick, 4, 3, x.place, ROOM), accepted(3, 0));
    expect_filled("before", &x, before, 3);
    put(&s, 151, "01 04 0A");
    repair(&s);
    h = pstp_check(s.at, s.len);
    expect_reply("checked again", pstp_positions_checked(s.at, s.len, h, kick, 4, 3, y.place, ROOM), accepted(3, 0));
    expect_filled("checked again", &y, after, 3);
    expect_handles("checked again", &s, accepted(2, 2));
}

/* Marsaglia's xorshift: the same numbers in each run. */
static uint64_t state = 0x9E3779B97F4A7C15u;
static uint32_t below(uint32_t n) {
    state ^= state << 13;
    state ^= state >> 7;
    state ^= state << 17;
    return (uint32_t)((state >> 32) % n);
}

/* A number near something that matters: 0, the segment's end, the ends of 32 and 64 bits. */
static uint64_t telling(size_t len) {
    const uint64_t from[] = {0,   1,   2,   32,      72,         104,        136,            145,
                             149, len, len, len / 2, UINT32_MAX, UINT64_MAX, UINT64_MAX / 2, UINT64_MAX - 72};
    return from[below(16)] + (below(3) ? 0 : below(9)) - (below(3) ? 0 : below(9));
}

static void change(pstp_handle *h, size_t len) {
    switch (below(8)) {
    case 0: h->level = below(5) ? 1 + below(2) : (uint32_t)telling(len); break;
    case 1: h->documents = (uint32_t)telling(len); break;
    case 2: h->terms = (uint32_t)telling(len); break;
    case 3: h->names = (size_t)telling(len); break;
    case 4: h->metadata = (size_t)telling(len); break;
    case 5: h->lists = (size_t)telling(len); break;
    case 6: h->names -= 32, h->terms -= 1; break; /* a directory of one entry less */
    default: h->kind = below(20), h->which = below(20), h->index = telling(len), h->spare = below(3); break;
    }
}

static struct bytes some_segment(void) {
    struct bytes s = below(3) ? two_bars() : below(2) ? uneven() : assemble((struct parts){.documents = 0});
    for (uint32_t times = below(4); times > 0; times--) {
        s.at[below(4) ? 72 + below((uint32_t)s.len - 71) : below((uint32_t)s.len)] = (uint8_t)(below(2) ? below(256) : below(20));
    }
    if (below(2) && below(8)) {
        struct bytes good = two_bars();
        if (s.len == good.len && memcmp(s.at, good.at, 56) == 0) { /* with a header's lengths that fit */
            repair(&s);
        }
    }
    if (below(6) == 0) {
        s.len = below((uint32_t)s.len + 1);
    }
    return s;
}

static struct asked some_call(const struct bytes *s, struct names *n) {
    static const char *texts[] = {"kick", "snare", "hat",  "kick snare", "snare kick", "snare snare", "tom",
                                  "",     "k",     "\xFF", "kick kick snare"};
    *n = names(texts[below(11)]);
    struct asked q = {.call = (enum call)below(8),
                      .segment = s->at,
                      .segment_len = s->len,
                      .text = n->text.at,
                      .text_len = n->text.len,
                      .second = (const uint8_t *)"snare",
                      .second_len = 5,
                      .ends = n->ends.at,
                      .ends_len = n->ends.len,
                      .number = below(2) ? below(9) : (uint32_t)telling(s->len),
                      .ordered = below(2) == 0,
                      .room = {below(6), below(6), below(8)}};
    if (below(4) == 0) {
        q.room[0] = q.room[1] = q.room[2] = ROOM;
    }
    return q;
}

/* Handles of other segments, whole and with numbers changed, over segments whole, damaged and cut. */
static void test_any(void) {
    char note[64];
    for (unsigned round = 0; round < 60000; round++) {
        struct bytes s = some_segment(), other = some_segment();
        struct names n;
        struct asked q = some_call(&s, &n);
        pstp_handle h = {.level = 1 + below(2),
                         .documents = (uint32_t)telling(s.len),
                         .terms = (uint32_t)telling(s.len),
                         .names = telling(s.len),
                         .metadata = telling(s.len),
                         .lists = telling(s.len)};
        snprintf(note, sizeof note, "any handle, round %u", round);
        if (below(5)) {
            const struct bytes *of = below(2) ? &s : &other;
            h = below(2) ? pstp_check(of->at, of->len) : pstp_open_once(of->at, of->len);
            if (h.level == PSTP_LEVEL_REFUSED && below(8)) { /* as if it had been accepted */
                struct bytes good = two_bars();
                h = pstp_check(good.at, good.len);
            }
        }
        for (uint32_t times = below(3); times > 0; times--) {
            change(&h, s.len);
        }
        expect_inside(note, &q, h);
        if (round % 8 == 0) {
            expect_alike(note, &q);
        }
    }
}

void test_handles(void) {
    struct bytes bars = two_bars(), three = uneven(), nothing = assemble((struct parts){.documents = 0});
    test_layout();
    test_digits();
    expect_handles("two bars", &bars, accepted(2, 2));
    expect_handles("three documents, one term", &three, accepted(3, 1));
    expect_handles("nothing", &nothing, accepted(0, 0));
    test_order();
    test_refused_list();
    test_changed();
    test_any();
}
