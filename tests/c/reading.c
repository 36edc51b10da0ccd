/* The calls on terms: df, docs_with_term, term_postings, positions. */
#include "asked.h"
#include "build.h"
#include "check.h"

#include <string.h>

/* A term of a segment, and all its postings. */
static const struct term {
    struct bytes (*segment)(void);
    const char *name;
    const char *ids, *counts, *positions;
} terms[] = {
    {two_bars, "kick", "3 7", "3 1", "0 4 15 2"},
    {two_bars, "snare", "3 7", "2 2", "8 14 3 4"},
    {two_bars, "tom", "", "", ""},
    {two_bars, "", "", "", ""},
    {two_bars, "kic", "", "", ""},
    {two_bars, "kicks", "", "", ""},
    {two_bars, "snard", "", "", ""},
    {two_bars, "t\xC3\xB6m", "", "", ""},
    {uneven, "hat", "9", "3", "0 128 299"},
    {uneven, "ha", "", "", ""},
};

/* A term's positions in one document. */
static const struct placed {
    struct bytes (*segment)(void);
    const char *name;
    uint32_t id;
    const char *positions;
} placed[] = {
    {two_bars, "kick", 3, "0 4 15"}, {two_bars, "kick", 7, "2"},      {two_bars, "snare", 3, "8 14"},
    {two_bars, "snare", 7, "3 4"},   {two_bars, "kick", 2, ""},       {two_bars, "kick", 5, ""},
    {two_bars, "kick", 8, ""},       {two_bars, "tom", 3, ""},        {two_bars, "kick", 4294967295u, ""},
    {uneven, "hat", 9, "0 128 299"}, {uneven, "hat", 2, ""},          {uneven, "hat", 70000, ""},
};

/* Names that are UTF-8, and names that are not (RFC 3629). */
static const struct {
    const char *name;
    bool utf8;
} texts[] = {
    {"\x7F", true},
    {"\x80", false},
    {"a\x80", false},
    {"\xC2", false},
    {"\xC1\xBF", false},
    {"\xC2\x80", true},
    {"\xDF\xBF", true},
    {"\xC3\x28", false},
    {"\xE0\x9F\xBF", false},
    {"\xE0\xA0\x80", true},
    {"\xED\x9F\xBF", true},
    {"\xED\xA0\x80", false},
    {"\xEE\x80\x80", true},
    {"\xEF\xBF\xBF", true},
    {"\xEF\xBF", false},
    {"\xF0\x8F\xBF\xBF", false},
    {"\xF0\x90\x80\x80", true},
    {"\xF4\x8F\xBF\xBF", true},
    {"\xF4\x90\x80\x80", false},
    {"\xF5\x80\x80\x80", false},
    {"\xF8\x88\x80\x80\x80", false},
    {"\xFF", false},
    {"\xCE\xBA\xE1\xBD\xB9\xCF\x83\xCE\xBC\xCE\xB5", true},
};

/* The call beside itself with handles. */
static void test_handled(enum call call, const struct bytes *s, const char *name, uint32_t id, size_t ids, size_t counts,
                         size_t positions) {
    expect_alike(name, &(struct asked){.call = call,
                                       .segment = s->at,
                                       .segment_len = s->len,
                                       .text = (const uint8_t *)name,
                                       .text_len = strlen(name),
                                       .second = no_bytes,
                                       .ends = nowhere,
                                       .number = id,
                                       .room = {ids, counts, positions}});
}

/* term_postings with so many places in each buffer: accepted, or 13 for the first short one, and the buffers as that says. */
static void test_room(const struct term *row, size_t ids_room, size_t counts_room, size_t positions_room) {
    struct bytes s = row->segment();
    struct numbers ids = numbers(row->ids), counts = numbers(row->counts), positions = numbers(row->positions);
    struct lent x = lent(), y = lent(), z = lent();
    const uint8_t *name = (const uint8_t *)row->name;
    pstp_reply got = pstp_term_postings(s.at, s.len, name, strlen(row->name), x.place, ids_room, y.place, counts_room, z.place,
                                        positions_room);
    pstp_reply want = accepted(ids.len, positions.len);
    if (ids_room < ids.len) {
        want = refused(PSTP_NO_ROOM, 1, ids.len);
    } else if (counts_room < counts.len) {
        want = refused(PSTP_NO_ROOM, 2, counts.len);
    } else if (positions_room < positions.len) {
        want = refused(PSTP_NO_ROOM, 3, positions.len);
    }
    bool filled = want.kind == PSTP_ACCEPTED;
    expect_reply(row->name, got, want);
    expect_filled(row->name, &x, ids.at, filled ? ids.len : 0);
    expect_filled(row->name, &y, counts.at, filled ? counts.len : 0);
    expect_filled(row->name, &z, positions.at, filled ? positions.len : 0);
    test_handled(ASK_POSTINGS, &s, row->name, 0, ids_room, counts_room, positions_room);
}

static void test_term(const struct term *row) {
    struct bytes s = row->segment();
    const uint8_t *name = (const uint8_t *)row->name;
    size_t len = strlen(row->name);
    struct numbers ids = numbers(row->ids), positions = numbers(row->positions);
    size_t n = ids.len, most = positions.len;
    expect_reply(row->name, pstp_df(s.at, s.len, name, len), accepted(n, 0));
    test_handled(ASK_DF, &s, row->name, 0, 0, 0, 0);
    for (size_t room = 0; room <= n + 1; room++) {
        struct lent x = lent();
        bool fits = n <= room;
        expect_reply(row->name, pstp_docs_with_term(s.at, s.len, name, len, x.place, room), fits ? accepted(n, 0) : refused(13, 1, n));
        expect_filled(row->name, &x, ids.at, fits ? n : 0);
        test_handled(ASK_DOCS, &s, row->name, 0, room, 0, 0);
    }
    test_room(row, ROOM, ROOM, ROOM);
    test_room(row, n, n, most);
    test_room(row, 0, 0, 0);
    if (n > 0) {
        test_room(row, n - 1, 0, 0);
        test_room(row, n, n - 1, ROOM);
        test_room(row, n, n, most - 1);
        test_room(row, ROOM, ROOM, 0);
    }
}

void test_reading(void) {
    for (size_t i = 0; i < sizeof terms / sizeof terms[0]; i++) {
        test_term(&terms[i]);
    }
    for (size_t i = 0; i < sizeof placed / sizeof placed[0]; i++) {
        const struct placed *row = &placed[i];
        struct bytes s = row->segment();
        struct numbers want = numbers(row->positions);
        for (size_t room = 0; room <= want.len + 1; room++) {
            struct lent x = lent();
            bool fits = want.len <= room;
            expect_reply(row->name, pstp_positions(s.at, s.len, (const uint8_t *)row->name, strlen(row->name), row->id, x.place, room),
                         fits ? accepted(want.len, 0) : refused(13, 1, want.len));
            expect_filled(row->name, &x, want.at, fits ? want.len : 0);
            test_handled(ASK_POSITIONS, &s, row->name, row->id, room, 0, 0);
        }
    }
    /* 10 comes before opening: the segment has 71 bytes. */
    struct bytes s = two_bars();
    for (size_t i = 0; i < sizeof texts / sizeof texts[0]; i++) {
        const uint8_t *name = (const uint8_t *)texts[i].name;
        size_t len = strlen(texts[i].name);
        pstp_reply opened = texts[i].utf8 ? accepted(0, 0) : refused(10, 0, 0);
        pstp_reply cut = texts[i].utf8 ? refused(1, 1, 0) : refused(10, 0, 0);
        struct lent x = lent(), y = lent(), z = lent();
        expect_reply("UTF-8: df", pstp_df(s.at, s.len, name, len), opened);
        expect_reply("UTF-8 before opening: df", pstp_df(s.at, 71, name, len), cut);
        struct bytes short_of_one = s;
        short_of_one.len = 71;
        for (enum call call = ASK_DF; call <= ASK_NEAR; call++) {
            test_handled(call, &s, texts[i].name, 3, 1, 1, 1);
            test_handled(call, &short_of_one, texts[i].name, 3, 1, 1, 1);
        }
        expect_reply("UTF-8: docs_with_term", pstp_docs_with_term(s.at, 71, name, len, x.place, 0), cut);
        expect_reply("UTF-8: term_postings", pstp_term_postings(s.at, 71, name, len, x.place, 0, y.place, 0, z.place, 0), cut);
        expect_reply("UTF-8: positions", pstp_positions(s.at, 71, name, len, 3, x.place, 0), cut);
        expect_reply("UTF-8: near_match, first", pstp_near_match(s.at, 71, name, len, s.at, 4, 1, x.place, 0), cut);
        expect_reply("UTF-8: near_match, second", pstp_near_match(s.at, 71, s.at, 4, name, len, 1, x.place, 0), cut);
    }
}
