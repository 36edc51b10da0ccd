/* A length looked up in the caller's own lists: the worked examples, every short list beside a plain model, long lists, the limit, and the
 * lists of a segment. Nothing outside lists of up to 5,000 ids is read, and nothing in them is changed. */
#include "build.h"
#include "check.h"
#include "guarded.h"

#include <stdlib.h>
#include <string.h>

#define MOST 4294967295u

enum { LIMIT = 16777216, OVER = LIMIT + 1 };

struct lists {
    const uint32_t *ids;
    size_t ids_len;
    const uint32_t *lengths;
    size_t lengths_len;
};

static pstp_reply ask(struct lists l, uint32_t id) {
    return pstp_length_of(l.ids, l.ids_len, l.lengths, l.lengths_len, id);
}

/* Document 02's words, one after the other. */
static pstp_reply model(struct lists l, uint32_t id) {
    if (l.ids_len > LIMIT || l.lengths_len > LIMIT) {
        return refused(PSTP_TOO_LARGE, 0, 0);
    }
    if (l.ids_len != l.lengths_len) {
        return refused(PSTP_LIST_SHAPE, 0, 0);
    }
    for (size_t i = 1; i < l.ids_len; i++) {
        if (!(l.ids[i] > l.ids[i - 1])) {
            return refused(PSTP_IDS_NOT_RISING, 0, i);
        }
    }
    for (size_t i = 0; i < l.ids_len; i++) {
        if (l.ids[i] == id) {
            return accepted(1, l.lengths[i]);
        }
    }
    return accepted(0, 0);
}

/* A copy of the lists at the edge of their memory, and that the calls left it as it was. */
static struct lists at_the_edge(const char *note, bool at_end, struct lists l) {
    watch(note);
    l.ids = guarded(0, at_end, l.ids, l.ids_len * sizeof l.ids[0]);
    l.lengths = guarded(1, at_end, l.lengths, l.lengths_len * sizeof l.lengths[0]);
    return l;
}

static void expect_left(const char *note, struct lists edge, struct lists l) {
    expect(note, memcmp(edge.ids, l.ids, l.ids_len * sizeof l.ids[0]) == 0
               && memcmp(edge.lengths, l.lengths, l.lengths_len * sizeof l.lengths[0]) == 0);
}

static const struct row {
    const char *note, *ids, *lengths;
    uint32_t id, kind;
    uint64_t index, first, second;
} rows[] = {
    {"the length beside the id", "3 7", "16 12", 7, 0, 0, 1, 12},
    {"an id that is not there", "3 7", "16 12", 5, 0, 0, 0, 0},
    {"an id twice, behind the one asked for", "3 7 7 9", "1 2 3 4", 3, 21, 2, 0, 0},

    {"the first id", "3 7", "16 12", 3, 0, 0, 1, 16},
    {"below the first", "3 7", "16 12", 2, 0, 0, 0, 0},
    {"above the last", "3 7", "16 12", 8, 0, 0, 0, 0},
    {"the middle one", "3 7 9", "16 12 5", 7, 0, 0, 1, 12},
    {"one id", "3", "16", 3, 0, 0, 1, 16},
    {"one id, another asked for", "3", "16", 4, 0, 0, 0, 0},
    {"no ids", "", "", 0, 0, 0, 0, 0},
    {"no ids, the largest asked for", "", "", MOST, 0, 0, 0, 0},
    {"ids at their ends: the least", "0 4294967295", "5 6", 0, 0, 0, 1, 5},
    {"ids at their ends: the largest", "0 4294967295", "5 6", MOST, 0, 0, 1, 6},
    {"ids at their ends: between", "0 4294967295", "5 6", 2147483648u, 0, 0, 0, 0},
    {"an id is not a place", "5 6", "16 12", 1, 0, 0, 0, 0},
    {"a length is not an id", "3 7", "16 12", 12, 0, 0, 0, 0},
    {"a length of 0", "3 7 9", "16 0 5", 7, 0, 0, 1, 0},
    {"the largest length", "3 7", "16 4294967295", 7, 0, 0, 1, MOST},
    {"lengths that fall, and equal ones", "3 7 9", "5 5 1", 9, 0, 0, 1, 1},

    {"equal ids at the beginning", "3 3 7", "1 2 3", 7, 21, 1, 0, 0},
    {"equal ids at the end", "3 7 9 9", "1 2 3 4", 3, 21, 3, 0, 0},
    {"an id that falls at the beginning", "3 2 7", "1 2 3", 7, 21, 1, 0, 0},
    {"an id that falls at the end", "3 7 9 8", "1 2 3 4", 3, 21, 3, 0, 0},
    {"the first of two that fall", "9 7 3", "1 2 3", 9, 21, 1, 0, 0},
    {"the first of two that are equal", "3 7 7 7", "1 2 3 4", 3, 21, 2, 0, 0},
    {"above its neighbour, not above the one before that", "3 7 5 6", "1 2 3 4", 6, 21, 2, 0, 0},
    {"down from the largest to the least", "4294967295 0", "1 2", 0, 21, 1, 0, 0},
    {"zeros", "0 0", "1 2", 0, 21, 1, 0, 0},
    {"the largest twice", "4294967295 4294967295", "1 2", MOST, 21, 1, 0, 0},
    {"ids that do not rise, none of them asked for", "3 7 7 9", "1 2 3 4", 5, 21, 2, 0, 0},
    {"ids that do not rise, below all of them", "3 7 7 9", "1 2 3 4", 0, 21, 2, 0, 0},
    {"ids that do not rise, above all of them", "3 7 7 9", "1 2 3 4", MOST, 21, 2, 0, 0},
    {"ids that do not rise, the equal one asked for", "3 7 7 9", "1 2 3 4", 7, 21, 2, 0, 0},
    {"ids that do not rise, the last asked for", "3 7 7 9", "1 2 3 4", 9, 21, 2, 0, 0},

    {"an id more than lengths", "3 7", "16", 3, 11, 0, 0, 0},
    {"a length more than ids", "3 7", "16 12 5", 3, 11, 0, 0, 0},
    {"ids alone", "3", "", 3, 11, 0, 0, 0},
    {"lengths alone", "", "16", 0, 11, 0, 0, 0},
    {"lists that differ in length, before ids that do not rise", "7 3 3", "16 12", 7, 11, 0, 0, 0},
};

static void test_rows(void) {
    for (size_t i = 0; i < sizeof rows / sizeof rows[0]; i++) {
        const struct row *row = &rows[i];
        struct numbers ids = numbers(row->ids), lengths = numbers(row->lengths);
        struct lists l = {ids.at, ids.len, lengths.at, lengths.len};
        pstp_reply want = {row->kind, 0, row->index, row->first, row->second, 0, 0};
        for (int at_end = 0; at_end <= 1; at_end++) {
            struct lists edge = at_the_edge(row->note, at_end, l);
            expect_reply(row->note, ask(edge, row->id), want);
            expect_left(row->note, edge, l);
        }
    }
}

/* Ids on both sides of 2^31, of which some are negative where a sign is read; and lengths that all differ, 0 first or last. */
static const uint32_t alphabet[] = {0, 1, 3, 2147483648u, MOST - 1, MOST}, asked[] = {0, 1, 2, 3, 2147483647u, 2147483648u, MOST - 1, MOST};
static const uint32_t some_lengths[] = {0, 7, MOST, 2147483648u, 1, 9, 0};
enum { LETTERS = sizeof alphabet / sizeof alphabet[0], ASKED = sizeof asked / sizeof asked[0], LONGEST = 5, LENGTHS = 7 };

static void expect_as_model(struct lists l) {
    for (int at_end = 0; at_end <= 1; at_end++) {
        l.lengths = some_lengths + (at_end ? LENGTHS - l.lengths_len : 0);
        struct lists edge = at_the_edge("a short list", at_end, l);
        for (size_t i = 0; i < ASKED; i++) {
            expect_reply("a short list", ask(edge, asked[i]), model(l, asked[i]));
        }
        expect_left("a short list", edge, l);
    }
}

/* Every list of up to five ids of the alphabet; those of up to two beside fewer and more lengths, too. */
static void test_short_lists(void) {
    for (size_t len = 0, lists = 1; len <= LONGEST; len++, lists *= LETTERS) {
        for (size_t list = 0; list < lists; list++) {
            uint32_t ids[LONGEST] = {0};
            for (size_t i = 0, digits = list; i < len; i++, digits /= LETTERS) {
                ids[i] = alphabet[digits % LETTERS];
            }
            expect_as_model((struct lists){ids, len, NULL, len});
            for (size_t other = 0; len <= 2 && other <= 4; other++) {
                if (other != len) {
                    expect_as_model((struct lists){ids, len, NULL, other});
                }
            }
        }
    }
}

enum { LONG = 5000, SPREAD = 859165 }; /* the last of LONG ids that are SPREAD apart is just below 2^32 */
static uint32_t ids[LONG], lengths[LONG];

static struct lists rising(size_t len, uint32_t from, uint32_t apart) {
    for (uint32_t i = 0; i < len; i++) {
        ids[i] = from + apart * i;
        lengths[i] = 7919 * (i + 1);
    }
    return (struct lists){ids, len, lengths, len};
}

/* Lists of every length up to 200, and a long one: every id is found, and its neighbours are not. */
static void test_every_id(void) {
    for (size_t len = 1; len <= LONG; len = len == 200 ? LONG : len + 1) {
        struct lists l = rising(len, 1, len == LONG ? SPREAD : 3), edge = at_the_edge("every id", len % 2 == 0, l);
        for (size_t i = 0; i < len; i++) {
            expect_reply("below an id", ask(edge, ids[i] - 1), accepted(0, 0));
            expect_reply("an id", ask(edge, ids[i]), accepted(1, lengths[i]));
            expect_reply("above an id", ask(edge, ids[i] + 1), accepted(0, 0));
        }
        expect_left("every id", edge, l);
    }
}

/* 21 at this place, whatever id is asked for: on both sides of the place, at both ends, and ids that are mostly not there. */
static void expect_not_rising(const char *note, struct lists l, size_t place) {
    size_t last = l.ids_len - 1, next = place < last ? place + 1 : place;
    const uint32_t any[] = {ids[place - 1], ids[place], ids[next], ids[0], ids[last], 0, 2, MOST};
    struct lists edge = at_the_edge(note, place % 2 == 0, l);
    for (size_t i = 0; i < sizeof any / sizeof any[0]; i++) {
        expect_reply(note, ask(edge, any[i]), refused(PSTP_IDS_NOT_RISING, 0, place));
    }
    expect_left(note, edge, l);
}

/* An id that is not above the one before it at each place in turn: equal, one below, or 0. Then others behind it, which do not count. */
static void test_every_place(void) {
    const size_t len = 200;
    for (size_t place = 1; place < len; place++) {
        for (uint32_t less = 0; less <= 2; less++) {
            struct lists l = rising(len, 3, 3);
            ids[place] = less < 2 ? ids[place - 1] - less : 0;
            expect_not_rising("an id that does not rise", l, place);
            for (size_t second = place + 1; second < len; second *= 2) {
                ids[second] = ids[second - 1];
                expect_not_rising("the first id that does not rise", l, place);
            }
        }
        struct lists l = rising(len, 3, 3);
        ids[place - 1] = MOST;
        expect_not_rising("an id too high", l, place);
    }
}

/* The longest lists. An answer takes a pass over the ids, so few are asked for. */
static void test_longest(uint32_t *many, uint32_t *beside) {
    static const uint32_t places[] = {0, 1, 2, 4095, LIMIT / 3, LIMIT / 2 - 1, LIMIT / 2, LIMIT / 2 + 1, LIMIT - 2, LIMIT - 1};
    static const size_t falls[] = {LIMIT - 1, LIMIT / 2, 1};
    struct lists l = {many, LIMIT, beside, LIMIT};
    for (uint32_t i = 0; i < OVER; i++) {
        many[i] = 3 * i + 1;
        beside[i] = 2 * i + 5;
    }
    for (size_t i = 0; i < sizeof places / sizeof places[0]; i++) {
        expect_reply("the longest lists", ask(l, 3 * places[i] + 1), accepted(1, 2 * places[i] + 5));
        expect_reply("the longest lists, above an id", ask(l, 3 * places[i] + 2), accepted(0, 0));
    }
    expect_reply("the longest lists, below all ids", ask(l, 0), accepted(0, 0));
    expect_reply("the longest lists, the id behind the last", ask(l, many[LIMIT]), accepted(0, 0));
    for (size_t i = 0; i < sizeof falls / sizeof falls[0]; i++) { /* each before the last one */
        many[falls[i]] -= 3;
        expect_reply("the longest list does not rise", ask(l, 1), refused(PSTP_IDS_NOT_RISING, 0, falls[i]));
    }
}

/* 12 of either list, before 11, before 21. The ids do not rise at place 1: that is how the test above leaves them. */
static void test_limit(const uint32_t *many, const uint32_t *beside) {
    static const size_t sizes[] = {0, 1, 2, LIMIT - 1, LIMIT, OVER};
    enum { SIZES = sizeof sizes / sizeof sizes[0] };
    for (size_t i = 0; i < SIZES; i++) {
        for (size_t k = 0; k < SIZES; k++) {
            struct lists l = {many, sizes[i], beside, sizes[k]};
            expect_reply("12, then 11, then 21", ask(l, 1), model(l, 1));
        }
    }
}

/* The lists of a segment answer what the segment answers. */
static void expect_as_segment(const char *note, const uint8_t *segment, size_t len, size_t documents, uint32_t most_asked) {
    struct lists l = {ids, documents, lengths, documents};
    expect_reply(note, pstp_document_lengths(segment, len, ids, LONG, lengths, LONG), accepted(documents, 0));
    for (uint32_t id = 0; id <= most_asked; id++) {
        expect_reply(note, ask(l, id), pstp_document_len(segment, len, id));
    }
    expect_reply(note, ask(l, MOST), pstp_document_len(segment, len, MOST));
}

static void test_segments(void) {
    static uint8_t written[72 + 200 * 8];
    struct bytes s = two_bars();
    expect_as_segment("two bars", s.at, s.len, 2, 20);
    s = uneven();
    expect_as_segment("uneven bars", s.at, s.len, 3, 20);
    expect_reply("uneven bars, the last", pstp_length_of(ids, 3, lengths, 3, 70000), pstp_document_len(s.at, s.len, 70000));
    rising(200, 5, 3);
    lengths[100] = 0;
    pstp_reply r = pstp_write_positional_segment(ids, 200, lengths, 200, no_bytes, 0, nowhere, 0, nowhere, 0, nowhere, 0, nowhere, 0,
                                                 nowhere, 0, written, sizeof written);
    expect("200 bars are written", r.kind == PSTP_ACCEPTED);
    expect_as_segment("200 bars", written, (size_t)r.first, 200, 700);
}

/* Constants, where a store faults; and one list as ids and lengths, since slices that are only read may be equal. */
static void test_constants(void) {
    static const uint32_t three[] = {3, 7, 9}, falling[] = {3, 9, 7}, steps[] = {16, 0, 12};
    watch("constants");
    for (uint32_t id = 0; id < 12; id++) {
        struct lists l = {three, 3, steps, 3}, same = {three, 3, three, 3};
        expect_reply("constants", ask(l, id), model(l, id));
        expect_reply("constants that fall", pstp_length_of(falling, 3, steps, 3, id), refused(PSTP_IDS_NOT_RISING, 0, 2));
        expect_reply("one list", ask(same, id), model(same, id));
    }
}

void test_lookup(void) {
    uint32_t *many = malloc(OVER * sizeof many[0]), *beside = malloc(OVER * sizeof beside[0]);
    test_rows();
    test_short_lists();
    test_every_id();
    test_every_place();
    test_longest(many, beside);
    test_limit(many, beside);
    test_segments();
    test_constants();
    free(many);
    free(beside);
}
