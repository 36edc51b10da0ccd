/* The searches. Each question is asked with every room from none to one place more than the answer. */
#include "asked.h"
#include "build.h"
#include "check.h"

#include <stdio.h>

/* Two terms on one position, and positions where sums would wrap: documents (0, 8), (1, 8), (2, 4294967295).
 * a: 0 on 2, 5; 1 on 1, 2, 3; 2 on 4294967292, 4294967294. b: 0 on 2; 1 on 5; 2 on 4294967293. */
static struct bytes crowd(void) {
    return assemble((struct parts){.documents = 3,
                                   .metadata = "00 08 01 08 01 FF FF FF FF 0F",
                                   .terms = 2,
                                   .names = "ab",
                                   .lists = "00 02 02 03 01 03 01 01 01 01 02 FC FF FF FF 0F 02 00 01 02 01 01 05 01 01 FD FF FF FF 0F",
                                   .entries = 2,
                                   .entry = {{0, 1, 0, 17, 3}, {1, 1, 17, 13, 3}}});
}

enum rule { PHRASE, ORDERED, UNORDERED };
static const struct question {
    struct bytes (*segment)(void);
    enum rule rule;
    const char *names;
    uint32_t window;
    const char *ids;
} questions[] = {
    /* The two bars of docs/FORMAT.md. */
    {two_bars, PHRASE, "kick snare", 0, "7"},
    {two_bars, PHRASE, "kick snare snare", 0, "7"},
    {two_bars, PHRASE, "snare", 0, "3 7"},
    {two_bars, PHRASE, "kick tom", 0, ""},
    {two_bars, ORDERED, "kick snare", 3, "7"},
    {two_bars, ORDERED, "kick snare", 4, "3 7"},
    {two_bars, ORDERED, "snare kick", 1, "3"},
    {two_bars, UNORDERED, "kick snare", 1, "3 7"},
    {two_bars, UNORDERED, "snare snare", 5, "7"},
    {two_bars, UNORDERED, "snare snare", 6, "3 7"},

    {two_bars, PHRASE, "", 0, ""},
    {two_bars, PHRASE, "tom", 0, ""},
    {two_bars, PHRASE, "tom kick", 0, ""},
    {two_bars, PHRASE, "kick", 0, "3 7"},
    {two_bars, PHRASE, "snare kick", 0, "3"},
    {two_bars, PHRASE, "snare snare", 0, "7"},
    {two_bars, PHRASE, "kick kick", 0, ""},
    {two_bars, PHRASE, "kick snare kick", 0, ""},
    {two_bars, PHRASE, "kick snare snare snare", 0, ""},
    {two_bars, ORDERED, "kick", 9, ""},
    {two_bars, ORDERED, "kick snare", 0, ""},
    {two_bars, ORDERED, "kick tom", 9, ""},
    {two_bars, ORDERED, "kick kick", 4, "3"},
    {two_bars, ORDERED, "kick kick", 3, ""},
    {two_bars, ORDERED, "kick snare kick", 11, "3"},
    {two_bars, ORDERED, "kick snare kick", 10, ""},
    {two_bars, ORDERED, "kick kick snare", 8, "3"},
    {two_bars, ORDERED, "kick kick snare", 7, ""},
    {two_bars, ORDERED, "snare kick", 4294967295u, "3"},
    {two_bars, UNORDERED, "snare", 9, ""},
    {two_bars, UNORDERED, "snare kick", 0, ""},
    {two_bars, UNORDERED, "snare snare", 1, "7"},
    {two_bars, UNORDERED, "tom tom", 9, ""},
    {two_bars, UNORDERED, "snare kick snare", 7, "3 7"},
    {two_bars, UNORDERED, "snare kick snare", 6, "7"},
    {two_bars, UNORDERED, "kick kick kick", 15, "3"},
    {two_bars, UNORDERED, "kick kick kick", 14, ""},
    {two_bars, UNORDERED, "kick kick kick kick", 4294967295u, ""},

    {uneven, PHRASE, "hat", 0, "9"},
    {uneven, UNORDERED, "hat hat", 128, "9"},
    {uneven, UNORDERED, "hat hat", 127, ""},
    {uneven, ORDERED, "hat hat hat", 299, "9"},
    {uneven, ORDERED, "hat hat hat", 298, ""},

    {crowd, PHRASE, "a a", 0, "1"},
    {crowd, PHRASE, "a a a", 0, "1"},
    {crowd, PHRASE, "a a a a", 0, ""},
    {crowd, PHRASE, "a b a", 0, "2"},
    {crowd, PHRASE, "b a", 0, "2"},
    {crowd, PHRASE, "a b a b", 0, ""},
    {crowd, ORDERED, "a b", 1, "2"},
    {crowd, ORDERED, "a b", 2, "1 2"},
    {crowd, ORDERED, "b a", 2, "2"},
    {crowd, ORDERED, "b a", 3, "0 2"},
    {crowd, ORDERED, "a b", 4294967295u, "1 2"},
    {crowd, ORDERED, "a a b", 3, "1"},
    {crowd, ORDERED, "a b a", 4294967295u, "2"},
    {crowd, UNORDERED, "a b", 1, "0 2"},
    {crowd, UNORDERED, "b a", 1, "0 2"},
    {crowd, UNORDERED, "a a b", 2, "2"},
    {crowd, UNORDERED, "a a b", 3, "0 1 2"},
    {crowd, UNORDERED, "a b", 4294967295u, "0 1 2"},
    {crowd, UNORDERED, "b b", 4294967295u, ""},
};

static pstp_reply ask(const struct question *q, const struct bytes *s, const struct names *n, uint32_t *ids, size_t room) {
    if (q->rule == PHRASE) {
        return pstp_phrase_match_strs(s->at, s->len, n->text.at, n->text.len, n->ends.at, n->ends.len, ids, room);
    }
    return pstp_near_match_terms_strs(s->at, s->len, n->text.at, n->text.len, n->ends.at, n->ends.len, q->window, q->rule == ORDERED, ids,
                                      room);
}

static struct asked with_names(enum call call, const struct bytes *s, const struct bytes *text, const struct numbers *ends) {
    return (struct asked){.call = call,
                          .segment = s->at,
                          .segment_len = s->len,
                          .text = text->at,
                          .text_len = text->len,
                          .second = no_bytes,
                          .ends = ends->at,
                          .ends_len = ends->len};
}

static void test_question(const struct question *q) {
    static const char *rules[] = {"phrase", "ordered", "unordered"};
    char note[96];
    struct bytes s = q->segment();
    struct names n = names(q->names);
    struct numbers want = numbers(q->ids);
    snprintf(note, sizeof note, "%s, %s, window %u", q->names, rules[q->rule], (unsigned)q->window);
    for (size_t room = 0; room <= want.len + 1; room++) {
        struct lent x = lent();
        bool fits = want.len <= room;
        pstp_reply expected = fits ? accepted(want.len, 0) : refused(PSTP_NO_ROOM, 1, want.len);
        expect_reply(note, ask(q, &s, &n, x.place, room), expected);
        expect_filled(note, &x, want.at, fits ? want.len : 0);
        struct asked asked = with_names(q->rule == PHRASE ? ASK_PHRASE : ASK_NEAR_TERMS, &s, &n.text, &n.ends);
        asked.number = q->window;
        asked.ordered = q->rule == ORDERED;
        asked.room[0] = room;
        expect_alike(note, &asked);
        if (q->rule == UNORDERED && n.ends.len == 2) { /* near_match is the same question */
            struct lent y = lent();
            size_t end = n.ends.at[0];
            expect_reply(note, pstp_near_match(s.at, s.len, n.text.at, end, n.text.at + end, n.text.len - end, q->window, y.place, room),
                         expected);
            expect_filled(note, &y, want.at, fits ? want.len : 0);
            asked.call = ASK_NEAR;
            asked.text_len = end;
            asked.second = n.text.at + end;
            asked.second_len = n.text.len - end;
            expect_alike(note, &asked);
        }
    }
}

/* The refusals of a question's own text, in their order, before the segment is opened. */
static const struct text {
    const char *note, *text, *ends;
    uint32_t kind;
} texts[] = {
    {"ends that fall", "kicksnare", "9 4", PSTP_LIST_SHAPE},
    {"an end that falls between", "kicksnare", "4 2 9", PSTP_LIST_SHAPE},
    {"the last end before the text's", "kicksnare", "4 8", PSTP_LIST_SHAPE},
    {"the last end past the text's", "kicksnare", "4 10", PSTP_LIST_SHAPE},
    {"an end far past the text's", "kicksnare", "4294967295 9", PSTP_LIST_SHAPE},
    {"a text without ends", "kick", "", PSTP_LIST_SHAPE},
    {"an end without a text", "", "1", PSTP_LIST_SHAPE},
    {"11 before 10", "\xFF", "2", PSTP_LIST_SHAPE},
    {"a first name that is not UTF-8", "\xFFkick", "1 5", PSTP_INVALID_UTF8},
    {"a last name that is not UTF-8", "kick\xC3", "4 5", PSTP_INVALID_UTF8},
    {"a name cut in a character", "\xC3\xA9", "1 2", PSTP_INVALID_UTF8},
    {"empty names", "", "0 0", 0},
    {"an empty name between", "kicksnare", "4 4 9", 0},
    {"no names", "", "", 0},
};

static void test_text(const struct text *row) {
    struct bytes s = two_bars();
    struct bytes text = {{0}, 0};
    struct numbers ends = numbers(row->ends);
    struct lent x = lent(), y = lent();
    size_t len = 0;
    while (row->text[len]) {
        len++;
    }
    append(&text, row->text, len);
    for (int cut = 0; cut <= 1; cut++) {
        size_t segment_len = cut ? 71 : s.len;
        pstp_reply want = row->kind ? refused(row->kind, 0, 0) : cut ? refused(PSTP_TRUNCATED, PSTP_SECTION_HEADER, 0) : accepted(0, 0);
        expect_reply(row->note, pstp_phrase_match_strs(s.at, segment_len, text.at, text.len, ends.at, ends.len, x.place, ROOM), want);
        expect_reply(row->note,
                     pstp_phrase_match_ranked(s.at, segment_len, text.at, text.len, ends.at, ends.len, x.place, ROOM, y.place, ROOM), want);
        struct asked asked = with_names(ASK_PHRASE, &s, &text, &ends);
        asked.segment_len = segment_len;
        expect_alike(row->note, &asked);
        asked.call = ASK_NEAR_TERMS;
        for (uint32_t window = 0; window <= 2; window++) { /* idle or not */
            for (int ordered = 0; ordered <= 1; ordered++) {
                pstp_reply got = pstp_near_match_terms_strs(s.at, segment_len, text.at, text.len, ends.at, ends.len, window, ordered != 0,
                                                            x.place, ROOM);
                expect_reply(row->note, got, want);
                asked.number = window;
                asked.ordered = ordered != 0;
                expect_alike(row->note, &asked);
            }
        }
    }
    expect_filled(row->note, &x, nowhere, 0);
    expect_filled(row->note, &y, nowhere, 0);
}

void test_searching(void) {
    for (size_t i = 0; i < sizeof questions / sizeof questions[0]; i++) {
        test_question(&questions[i]);
    }
    for (size_t i = 0; i < sizeof texts / sizeof texts[0]; i++) {
        test_text(&texts[i]);
    }
}
