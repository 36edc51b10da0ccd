/* The phrase search with the best bars first. Each question is asked with every pair of rooms from none to one place more than needed. */
#include "build.h"
#include "check.h"
#include "guarded.h"

#include <stdio.h>
#include <stdlib.h>
#include <string.h>

/* Bars 1, 2, 4, 9 of 8 steps. a: 1 on 0, 1, 2, 3; 2 on 0, 1; 4 on 1, 2, 4; 9 on 0, 2, 4, 5. b: 2 on 1; 4 on 2, 3. */
static struct bytes four_bars(void) {
    return assemble((struct parts){.documents = 4,
                                   .metadata = "01 08 01 08 02 08 05 08",
                                   .terms = 2,
                                   .names = "ab",
                                   .lists = "01 04 00 01 01 01 01 02 00 01 02 03 01 01 02 05 04 00 02 02 01 02 01 01 02 02 02 01",
                                   .entries = 2,
                                   .entry = {{0, 1, 0, 21, 4}, {1, 1, 21, 7, 2}}});
}

/* Positions where sums would wrap: bars (0, 8), (1, 8), (2, 4294967295); a: 0 on 2, 5; 1 on 1, 2, 3; 2 on 4294967292, 4294967293,
 * 4294967294. */
static struct bytes at_the_end(void) {
    return assemble((struct parts){.documents = 3,
                                   .metadata = "00 08 01 08 01 FF FF FF FF 0F",
                                   .terms = 1,
                                   .names = "a",
                                   .lists = "00 02 02 03 01 03 01 01 01 01 03 FC FF FF FF 0F 01 01",
                                   .entries = 1,
                                   .entry = {{0, 1, 0, 18, 3}}});
}

static const struct question {
    struct bytes (*segment)(void);
    const char *names, *ids, *counts;
} questions[] = {
    /* The two bars of docs/FORMAT.md. */
    {two_bars, "kick", "3 7", "3 1"},
    {two_bars, "snare", "3 7", "2 2"},
    {two_bars, "kick snare", "7", "1"},
    {two_bars, "snare kick", "3", "1"},
    {two_bars, "snare snare", "7", "1"},
    {two_bars, "kick snare snare", "7", "1"},
    {two_bars, "kick kick", "", ""},
    {two_bars, "tom", "", ""},
    {two_bars, "kick tom", "", ""},
    {two_bars, "", "", ""},
    {uneven, "hat", "9", "3"},
    {uneven, "hat hat", "", ""},

    {four_bars, "a", "1 9 4 2", "4 4 3 2"},
    {four_bars, "a a", "1 2 4 9", "3 1 1 1"},
    {four_bars, "a a a", "1", "2"},
    {four_bars, "a a a a", "1", "1"},
    {four_bars, "a a a a a", "", ""},
    {four_bars, "b", "4 2", "2 1"},
    {four_bars, "a b", "4 2", "2 1"},
    {four_bars, "b a", "4", "1"},
    {four_bars, "a b a", "4", "1"},
    {four_bars, "b b", "4", "1"},
    {at_the_end, "a", "1 2 0", "3 3 2"},
    {at_the_end, "a a", "1 2", "2 2"},
    {at_the_end, "a a a", "1 2", "1 1"},
    {at_the_end, "a a a a", "", ""},
};

/* The call with everything at the edge of its memory; the buffers' elements afterwards. */
static pstp_reply at_the_edge(const struct bytes *s, const struct names *n, size_t id_room, size_t count_room, bool at_end, struct lent *x,
                              struct lent *y) {
    const uint8_t *segment = guarded(0, at_end, s->at, s->len), *text = guarded(1, at_end, n->text.at, n->text.len);
    const uint32_t *ends = guarded(2, at_end, n->ends.at, n->ends.len * sizeof *ends);
    uint32_t *ids = guarded(3, at_end, x->place, id_room * sizeof *ids);
    uint32_t *counts = guarded(4, at_end, y->place, count_room * sizeof *counts);
    pstp_reply got = pstp_phrase_match_ranked(segment, s->len, text, n->text.len, ends, n->ends.len, ids, id_room, counts, count_room);
    memcpy(x->place, ids, id_room * sizeof *ids);
    memcpy(y->place, counts, count_room * sizeof *counts);
    return got;
}

static void test_question(const struct question *q) {
    struct bytes s = q->segment();
    struct names n = names(q->names);
    struct numbers ids = numbers(q->ids), counts = numbers(q->counts);
    char note[96];
    snprintf(note, sizeof note, "%s, ranked", q->names);
    watch(note);
    for (size_t i = 0; i <= ids.len + 1; i++) {
        for (size_t j = 0; j <= ids.len + 1; j++) {
            for (int at_end = 0; at_end <= 1; at_end++) {
                struct lent x = lent(), y = lent();
                bool fits = ids.len <= i && ids.len <= j;
                pstp_reply want = fits ? accepted(ids.len, 0) : refused(PSTP_NO_ROOM, i < ids.len ? 1 : 2, ids.len);
                expect_reply(note, at_the_edge(&s, &n, i, j, at_end, &x, &y), want);
                expect_filled(note, &x, ids.at, fits ? ids.len : 0);
                expect_filled(note, &y, counts.at, fits ? ids.len : 0);
            }
        }
    }
}

/* One name in every one of many bars, its count in each bar as the order says. */
enum { BARS = 200, ORDERS = 7 };
static uint32_t count_in(int order, uint32_t i) {
    switch (order) {
    case 0: return 1;
    case 1: return 1 + i;
    case 2: return BARS - i;
    case 3: return i < BARS / 2 ? 1 + i : BARS - i;
    case 4: return i < BARS / 2 ? BARS - i : 1 + i;
    case 5: return 1 + i * 7919 % 3;
    default: return 1 + i * 7919 % BARS;
    }
}

struct match {
    uint32_t id, count;
};

static int by_rank(const void *p, const void *q) {
    const struct match *a = p, *b = q;
    if (a->count != b->count) {
        return a->count > b->count ? -1 : 1;
    }
    return a->id < b->id ? -1 : a->id > b->id;
}

/* Bar 5 + 3 i has the name on its first steps. */
static void test_orders(void) {
    static uint32_t ids[BARS], lengths[BARS], counts[BARS], positions[BARS * BARS];
    static uint8_t out[BARS * (BARS + 16)];
    static const uint32_t end[] = {1}, ends[] = {1, 2}, postings[] = {BARS};
    const uint8_t *name = (const uint8_t *)"aa";
    for (int order = 0; order < ORDERS; order++) {
        struct match want[BARS];
        size_t hits = 0;
        char note[32];
        snprintf(note, sizeof note, "order %d", order);
        for (uint32_t i = 0; i < BARS; i++) {
            ids[i] = 5 + 3 * i;
            lengths[i] = BARS;
            counts[i] = count_in(order, i);
            for (uint32_t step = 0; step < counts[i]; step++) {
                positions[hits++] = step;
            }
        }
        pstp_reply written = pstp_write_positional_segment(ids, BARS, lengths, BARS, name, 1, end, 1, postings, 1, ids, BARS, counts, BARS,
                                                           positions, hits, out, sizeof out);
        expect(note, written.kind == PSTP_ACCEPTED);
        for (uint32_t twice = 0; twice <= 1; twice++) { /* the name once: as many starts as steps; twice: one fewer */
            struct lent x = lent(), y = lent();
            struct numbers found = {{0}, 0}, starts = {{0}, 0};
            size_t n = 0;
            for (size_t i = 0; i < BARS; i++) {
                if (counts[i] > twice) {
                    want[n++] = (struct match){ids[i], counts[i] - twice};
                }
            }
            qsort(want, n, sizeof want[0], by_rank);
            for (size_t i = 0; i < n; i++) {
                found.at[i] = want[i].id;
                starts.at[i] = want[i].count;
            }
            size_t room[] = {n, n > 0 ? n - 1 : 0, ROOM, BARS};
            for (size_t k = 0; k < sizeof room / sizeof room[0]; k++) {
                bool fits = n <= room[k];
                x = lent();
                y = lent();
                expect_reply(note,
                             pstp_phrase_match_ranked(out, (size_t)written.first, name, 1 + twice, twice ? ends : end, 1 + twice, x.place,
                                                      room[k], y.place, ROOM),
                             fits ? accepted(n, 0) : refused(PSTP_NO_ROOM, 1, n));
                expect_filled(note, &x, found.at, fits ? n : 0);
                expect_filled(note, &y, starts.at, fits ? n : 0);
            }
        }
    }
}

void test_ranked(void) {
    for (size_t i = 0; i < sizeof questions / sizeof questions[0]; i++) {
        test_question(&questions[i]);
    }
    test_orders();
}
