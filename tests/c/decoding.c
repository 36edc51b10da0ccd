/* A term's list, decoded: what is accepted and each refusal, the same from every call that decodes. The segment opens in every row. */
#include "asked.h"
#include "build.h"
#include "check.h"

#include <string.h>

/* The term a in documents (3, 16), (7, 16) and (4294967295, 4294967295): its df and its list. Accepted ones list these postings. */
static const struct list {
    const char *note;
    uint32_t df;
    const char *list;
    uint32_t kind, which;
    uint64_t index;
    const char *ids, *counts, *positions;
} lists[] = {
    {"one posting", 1, "03 01 00", 0, 0, 0, "3", "1", "0"},
    {"kick's postings", 2, "03 03 00 04 0B 04 01 02", 0, 0, 0, "3 7", "3 1", "0 4 15 2"},
    {"long forms", 1, "83 00 81 80 00 8F 80 80 80 00", 0, 0, 0, "3", "1", "15"},
    {"the largest id and position", 1, "FF FF FF FF 0F 01 FE FF FF FF 0F", 0, 0, 0, "4294967295", "1", "4294967294"},

    {"no bytes", 1, "", 7, 5, 0, "", "", ""},
    {"a cut id", 1, "80", 7, 5, 0, "", "", ""},
    {"a cut second id", 2, "03 01 00 84", 7, 5, 1, "", "", ""},
    {"df 2^32 - 1 with one posting", 4294967295u, "03 01 00", 7, 5, 1, "", "", ""},
    {"six bytes for an id", 1, "83 80 80 80 80 00 01 00", 7, 5, 0, "", "", ""},
    {"id 2^32", 2, "03 01 00 FD FF FF FF 0F 01 00", 8, 0, 1, "", "", ""},
    {"id 2^32 - 1", 2, "03 01 00 FC FF FF FF 0F 01 00", 0, 0, 0, "3 4294967295", "1 1", "0 0"},
    {"an id twice", 2, "03 01 00 00 01 00", 6, 9, 0, "", "", ""},
    {"an unknown document", 1, "04 01 00", 6, 10, 0, "", "", ""},
    {"an unknown document below all", 1, "00 01 00", 6, 10, 0, "", "", ""},
    {"an unknown document before a cut count", 1, "04", 6, 10, 0, "", "", ""},
    {"no count", 1, "03", 7, 5, 0, "", "", ""},
    {"a cut second count", 2, "03 01 00 04 80", 7, 5, 1, "", "", ""},
    {"no positions", 1, "03 00", 6, 11, 0, "", "", ""},
    {"no position where one is counted", 1, "03 01", 7, 5, 0, "", "", ""},
    {"one position where two are counted", 1, "03 02 00", 7, 5, 1, "", "", ""},
    {"2^32 - 1 positions counted", 1, "03 FF FF FF FF 0F 00 01", 7, 5, 2, "", "", ""},
    {"a cut position: places add up", 2, "03 01 00 04 03 00 01 80", 7, 5, 3, "", "", ""},
    {"six bytes for a position", 1, "03 02 01 81 80 80 80 80 00", 7, 5, 1, "", "", ""},
    {"position 2^32", 1, "03 02 01 FF FF FF FF 0F", 9, 0, 1, "", "", ""},
    {"position 2^32: places add up", 2, "03 01 00 04 03 00 01 FF FF FF FF 0F", 9, 0, 3, "", "", ""},
    {"a position twice", 1, "03 02 01 00", 6, 12, 0, "", "", ""},
    {"a position of its document's length", 1, "03 01 10", 6, 13, 0, "", "", ""},
    {"the last position of a document", 1, "03 01 0F", 0, 0, 0, "3", "1", "15"},
    {"a second position too high", 1, "03 02 0F 01", 6, 13, 0, "", "", ""},
    {"a byte too many", 1, "03 01 00 00", 6, 14, 0, "", "", ""},
    {"a posting too many", 1, "03 01 00 04 01 00", 6, 14, 0, "", "", ""},
};

static struct bytes with_list(uint32_t df, const char *list) {
    return assemble((struct parts){.documents = 3,
                                   .metadata = "03 10 04 10 F8 FF FF FF 0F FF FF FF FF 0F",
                                   .terms = 1,
                                   .names = "a",
                                   .lists = list,
                                   .entries = 1,
                                   .entry = {{0, 1, 0, hex(list).len, df}}});
}

static const uint8_t *a = (const uint8_t *)"a";

static void test_refused(const char *note, const struct bytes *s, pstp_reply want) {
    static const uint32_t one[] = {1}, two[] = {1, 2}, twice[] = {1, 2};
    const uint8_t *ab = (const uint8_t *)"ab", *ba = (const uint8_t *)"ba", *aa = (const uint8_t *)"aa";
    struct lent x = lent(), y = lent(), z = lent();
    struct bytes out = lent_bytes(), nothing = {{0}, 0};
    for (size_t room = 0; room <= ROOM; room += ROOM) { /* 13 is tested after decoding */
        expect_reply(note, pstp_docs_with_term(s->at, s->len, a, 1, x.place, room), want);
        expect_reply(note, pstp_term_postings(s->at, s->len, a, 1, x.place, room, y.place, room, z.place, room), want);
        expect_reply(note, pstp_positions(s->at, s->len, a, 1, 3, x.place, room), want);
        expect_reply(note, pstp_positions(s->at, s->len, a, 1, 999, x.place, room), want);
        expect_reply(note, pstp_phrase_match_strs(s->at, s->len, a, 1, one, 1, x.place, room), want);
        expect_reply(note, pstp_phrase_match_strs(s->at, s->len, ab, 2, two, 2, x.place, room), want);
        expect_reply(note, pstp_phrase_match_strs(s->at, s->len, ba, 2, two, 2, x.place, room), want);
        expect_reply(note, pstp_phrase_match_ranked(s->at, s->len, a, 1, one, 1, x.place, room, y.place, room), want);
        expect_reply(note, pstp_phrase_match_ranked(s->at, s->len, ba, 2, two, 2, x.place, room, y.place, 0), want);
        expect_reply(note, pstp_near_match(s->at, s->len, ba, 1, a, 1, 1, x.place, room), want);
        expect_reply(note, pstp_near_match_terms_strs(s->at, s->len, ba, 2, two, 2, 1, true, x.place, room), want);
        expect_reply(note, pstp_near_match_terms_strs(s->at, s->len, aa, 2, twice, 2, 1, false, x.place, room), want);
        expect_reply(note, pstp_bar_sheet(s->at, s->len, 3, out.at, room), want);
        expect_reply(note, pstp_bar_sheet(s->at, s->len, 7, out.at, room), want);
    }
    expect_written(note, &out, &nothing, 0);
    expect_filled(note, &x, nowhere, 0);
    expect_filled(note, &y, nowhere, 0);
    expect_filled(note, &z, nowhere, 0);
}

/* The calls that decode no list do not mind. */
static void test_undecoded(const char *note, const struct bytes *s, uint32_t df) {
    static const uint32_t one[] = {1}, two[] = {1, 2};
    struct lent x = lent();
    expect_reply(note, pstp_open(s->at, s->len), accepted(3, 1));
    expect_reply(note, pstp_df(s->at, s->len, a, 1), accepted(df, 0));
    expect_reply(note, pstp_document_len(s->at, s->len, 7), accepted(1, 16));
    expect_reply(note, pstp_phrase_match_strs(s->at, s->len, a, 0, one, 0, x.place, 0), accepted(0, 0));
    expect_reply(note, pstp_phrase_match_ranked(s->at, s->len, a, 0, one, 0, x.place, 0, nowhere, 0), accepted(0, 0));
    expect_reply(note, pstp_near_match(s->at, s->len, a, 1, a, 1, 0, x.place, 0), accepted(0, 0));
    expect_reply(note, pstp_near_match_terms_strs(s->at, s->len, a, 1, one, 1, 1, true, x.place, 0), accepted(0, 0));
    expect_reply(note, pstp_near_match_terms_strs(s->at, s->len, (const uint8_t *)"aa", 2, two, 2, 0, true, x.place, 0), accepted(0, 0));
    expect_reply(note, pstp_bar_sheet(s->at, s->len, 4, no_bytes, 0), refused(16, 0, 0));
    expect_reply(note, pstp_bar_sheet(s->at, s->len, 4294967295u, no_bytes, 0), refused(17, 0, 0));
    expect_filled(note, &x, nowhere, 0);
}

static void test_accepted(const char *note, const struct bytes *s, struct numbers ids, struct numbers counts, struct numbers positions) {
    struct lent x = lent(), y = lent(), z = lent();
    expect_reply(note, pstp_term_postings(s->at, s->len, a, 1, x.place, ROOM, y.place, ROOM, z.place, ROOM),
                 accepted(ids.len, positions.len));
    expect_filled(note, &x, ids.at, ids.len);
    expect_filled(note, &y, counts.at, counts.len);
    expect_filled(note, &z, positions.at, positions.len);
}

/* The first list that fails, in the order first named, even where another name is unknown. */
static void test_first_named(void) {
    static const uint32_t three[] = {1, 2, 3};
    static const struct {
        const char *names;
        pstp_reply want;
    } rows[] = {
        {"abz", {PSTP_INVALID_VARINT, PSTP_SECTION_POSTINGS, 0, 0, 0, 0, 0}},
        {"baz", {PSTP_INVALID_LAYOUT, PSTP_REASON_EMPTY_POSITION_LIST, 0, 0, 0, 0, 0}},
        {"zab", {PSTP_INVALID_VARINT, PSTP_SECTION_POSTINGS, 0, 0, 0, 0, 0}},
        {"zba", {PSTP_INVALID_LAYOUT, PSTP_REASON_EMPTY_POSITION_LIST, 0, 0, 0, 0, 0}},
        {"bza", {PSTP_INVALID_LAYOUT, PSTP_REASON_EMPTY_POSITION_LIST, 0, 0, 0, 0, 0}},
    };
    struct bytes s = assemble((struct parts){.documents = 1,
                                             .metadata = "00 10",
                                             .terms = 2,
                                             .names = "ab",
                                             .lists = "80 00 00",
                                             .entries = 2,
                                             .entry = {{0, 1, 0, 1, 1}, {1, 1, 1, 2, 1}}});
    for (size_t i = 0; i < sizeof rows / sizeof rows[0]; i++) {
        const uint8_t *text = (const uint8_t *)rows[i].names;
        struct lent x = lent(), y = lent();
        expect_reply(rows[i].names, pstp_phrase_match_strs(s.at, s.len, text, 3, three, 3, x.place, ROOM), rows[i].want);
        expect_reply(rows[i].names, pstp_phrase_match_ranked(s.at, s.len, text, 3, three, 3, x.place, ROOM, y.place, ROOM), rows[i].want);
        expect_reply(rows[i].names, pstp_near_match_terms_strs(s.at, s.len, text, 3, three, 3, 9, true, x.place, ROOM), rows[i].want);
        expect_reply(rows[i].names, pstp_near_match_terms_strs(s.at, s.len, text, 3, three, 3, 9, false, x.place, ROOM), rows[i].want);
        expect_filled(rows[i].names, &x, nowhere, 0);
        expect_filled(rows[i].names, &y, nowhere, 0);
    }
    struct lent x = lent();
    expect_reply("a then b", pstp_near_match(s.at, s.len, s.at + 136, 1, s.at + 137, 1, 1, x.place, ROOM), refused(7, 5, 0));
    expect_reply("b then a", pstp_near_match(s.at, s.len, s.at + 137, 1, s.at + 136, 1, 1, x.place, ROOM), refused(6, 11, 0));
    expect_filled("near_match of two bad lists", &x, nowhere, 0);
}

void test_decoding(void) {
    for (size_t i = 0; i < sizeof lists / sizeof lists[0]; i++) {
        const struct list *row = &lists[i];
        struct bytes s = with_list(row->df, row->list);
        test_undecoded(row->note, &s, row->df);
        expect_handles(row->note, &s, row->kind ? refused(row->kind, row->which, row->index) : accepted(3, 1));
        if (row->kind) {
            test_refused(row->note, &s, refused(row->kind, row->which, row->index));
        } else {
            test_accepted(row->note, &s, numbers(row->ids), numbers(row->counts), numbers(row->positions));
        }
    }
    /* A list's own checksum, with the directory's made right over it, comes before what the list holds. */
    struct bytes s = with_list(1, "80");
    uint32_t directory;
    s.at[72 + 28] ^= 1;
    directory = crc32(s.at + 72, 32);
    memcpy(s.at + 56, &directory, 4);
    test_undecoded("a list's checksum", &s, 1);
    test_refused("a list's checksum", &s, refused(5, 6, 0));
    expect_handles("a list's checksum", &s, refused(5, 6, 0));
    test_first_named();
}
