/* Kind 12: 16,777,216 elements pass and one more does not; 128 names pass and 129 do not. */
#include "asked.h"
#include "build.h"
#include "check.h"

#include <stdlib.h>
#include <string.h>

enum { LIMIT = 16777216, OVER = LIMIT + 1 };

static struct bytes segment;

/* A question beside itself with handles. */
static void test_handled(const char *note, struct asked asked, const uint8_t *s, size_t len) {
    asked.segment = s;
    asked.segment_len = len;
    asked.second = asked.second ? asked.second : no_bytes;
    asked.ends = asked.ends ? asked.ends : nowhere;
    expect_alike(note, &asked);
}

/* Names of 'a's, the longest allowed and one longer. 12 comes before opening: also with 71 bytes. */
static void test_long_names(const uint8_t *name) {
    struct lent x = lent(), y = lent(), z = lent();
    for (int over = 0; over <= 1; over++) {
        size_t len = over ? OVER : LIMIT;
        uint32_t end[] = {(uint32_t)len, (uint32_t)len};
        pstp_reply want = over ? refused(PSTP_TOO_LARGE, 0, 0) : accepted(0, 0);
        const uint8_t *s = segment.at;
        size_t n = segment.len;
        expect_reply("a long name: df", pstp_df(s, n, name, len), want);
        expect_reply("a long name: docs_with_term", pstp_docs_with_term(s, n, name, len, x.place, 0), want);
        expect_reply("a long name: term_postings", pstp_term_postings(s, n, name, len, x.place, 0, y.place, 0, z.place, 0), want);
        expect_reply("a long name: positions", pstp_positions(s, n, name, len, 3, x.place, 0), want);
        expect_reply("a long name: phrase", pstp_phrase_match_strs(s, n, name, len, end, 1, x.place, 0), want);
        expect_reply("a long name: ranked", pstp_phrase_match_ranked(s, n, name, len, end, 1, x.place, 0, y.place, 0), want);
        expect_reply("a long first name: near_match", pstp_near_match(s, n, name, len, name, 1, 1, x.place, 0), want);
        expect_reply("a long second name: near_match", pstp_near_match(s, n, name, 1, name, len, 1, x.place, 0), want);
        expect_reply("a long text: near, idle", pstp_near_match_terms_strs(s, n, name, len, end, 2, 0, false, x.place, 0), want);
        expect_reply("a long name before opening", pstp_df(s, 71, name, len), over ? want : refused(1, 1, 0));
        for (enum call call = ASK_DF; call <= ASK_NEAR_TERMS; call++) {
            struct asked asked = {.call = call, .text = name, .text_len = len, .second = name, .second_len = 1, .ends = end, .ends_len = 1};
            test_handled("a long name with a handle", asked, s, n);
            test_handled("a long name with a refused handle", asked, s, 71);
        }
        struct asked second = {.call = ASK_NEAR, .text = name, .text_len = 1, .second = name, .second_len = len, .number = 1};
        test_handled("a long second name with a handle", second, s, n);
    }
    const uint8_t *bad = (const uint8_t *)"\xFF";
    expect_reply("12 of the second name before 10 of the first", pstp_near_match(segment.at, 71, bad, 1, name, OVER, 1, x.place, 0),
                 refused(12, 0, 0));
    expect_filled("long names", &x, nowhere, 0);
}

/* Questions of 128 and 129 names. With 129, ends that fall (11) and names that are not UTF-8 (10) are not looked at. */
static void test_many_names(void) {
    uint8_t text[129];
    uint32_t rise[129], fall[129];
    struct lent x = lent(), y = lent();
    memset(text, 'a', sizeof text);
    for (uint32_t i = 0; i < 129; i++) {
        rise[i] = i + 1;
        fall[i] = 129 - i;
    }
    const uint8_t *s = segment.at;
    size_t n = segment.len;
    expect_reply("128 names: phrase", pstp_phrase_match_strs(s, n, text, 128, rise, 128, x.place, 0), accepted(0, 0));
    expect_reply("128 names: ranked", pstp_phrase_match_ranked(s, n, text, 128, rise, 128, x.place, 0, y.place, 0), accepted(0, 0));
    expect_reply("128 names: ordered", pstp_near_match_terms_strs(s, n, text, 128, rise, 128, 1, true, x.place, 0), accepted(0, 0));
    expect_reply("128 names: unordered", pstp_near_match_terms_strs(s, n, text, 128, rise, 128, 1, false, x.place, 0), accepted(0, 0));
    for (size_t len = 71; len <= n; len += n - 71) {
        expect_reply("129 names: phrase", pstp_phrase_match_strs(s, len, text, 129, rise, 129, x.place, 0), refused(12, 0, 0));
        expect_reply("129 names: ranked", pstp_phrase_match_ranked(s, len, text, 129, fall, 129, x.place, 0, y.place, 0),
                     refused(12, 0, 0));
        expect_reply("129 names: near", pstp_near_match_terms_strs(s, len, text, 129, rise, 129, 1, true, x.place, 0), refused(12, 0, 0));
        expect_reply("129 names: idle", pstp_near_match_terms_strs(s, len, text, 129, rise, 129, 0, false, x.place, 0), refused(12, 0, 0));
        expect_reply("12 before 11", pstp_phrase_match_strs(s, len, text, 129, fall, 129, x.place, 0), refused(12, 0, 0));
        for (size_t names = 128; names <= 129; names++) {
            struct asked asked = {.call = ASK_PHRASE, .text = text, .text_len = names, .ends = rise, .ends_len = names};
            test_handled("many names with a handle", asked, s, len);
            asked.ends = fall;
            test_handled("many names with a handle, falling", asked, s, len);
            asked.call = ASK_NEAR_TERMS;
            test_handled("many names with a handle, idle", asked, s, len);
        }
    }
    text[0] = 0xFF;
    expect_reply("12 before 10", pstp_phrase_match_strs(s, n, text, 129, rise, 129, x.place, 0), refused(12, 0, 0));
    expect_filled("many names", &x, nowhere, 0);
    expect_filled("many names", &y, nowhere, 0);
}

/* 128 names that are all there: 128 terms, one on each step of bar 5, and all on the last step of bar 9. */
static void test_full_question(void) {
    static uint8_t text[128 * 2], out[16384];
    static uint32_t ends[128], posting_counts[128], posting_ids[256], position_counts[256], positions[256];
    const uint32_t ids[] = {5, 9}, lengths[] = {128, 1};
    struct lent x = lent(), y = lent();
    for (uint32_t i = 0; i < 128; i++) {
        text[2 * i] = (uint8_t)('A' + i / 16);
        text[2 * i + 1] = (uint8_t)('a' + i % 16);
        ends[i] = 2 * (i + 1);
        posting_counts[i] = 2;
        posting_ids[2 * i] = 5;
        posting_ids[2 * i + 1] = 9;
        position_counts[2 * i] = position_counts[2 * i + 1] = 1;
        positions[2 * i] = i;
        positions[2 * i + 1] = 0;
    }
    pstp_reply written = pstp_write_positional_segment(ids, 2, lengths, 2, text, sizeof text, ends, 128, posting_counts, 128, posting_ids,
                                                       256, position_counts, 256, positions, 256, out, sizeof out);
    expect("128 terms are written", written.kind == PSTP_ACCEPTED);
    size_t n = (size_t)written.first;
    const uint32_t both[] = {5, 9};
    expect_reply("128 terms: open", pstp_open(out, n), accepted(2, 128));
    expect_reply("128 terms: phrase", pstp_phrase_match_strs(out, n, text, sizeof text, ends, 128, x.place, ROOM), accepted(1, 0));
    expect_filled("128 terms: phrase", &x, both, 1);
    x = lent();
    const uint32_t once[] = {1};
    expect_reply("128 terms: ranked", pstp_phrase_match_ranked(out, n, text, sizeof text, ends, 128, x.place, 1, y.place, 1),
                 accepted(1, 0));
    expect_filled("128 terms: ranked", &x, both, 1);
    expect_filled("128 terms: ranked", &y, once, 1);
    x = lent();
    expect_reply("128 terms: ordered", pstp_near_match_terms_strs(out, n, text, sizeof text, ends, 128, 127, true, x.place, ROOM),
                 accepted(1, 0));
    expect_filled("128 terms: ordered", &x, both, 1);
    x = lent();
    expect_reply("128 terms: unordered", pstp_near_match_terms_strs(out, n, text, sizeof text, ends, 128, 127, false, x.place, ROOM),
                 accepted(2, 0));
    expect_filled("128 terms: unordered", &x, both, 2);
    x = lent();
    expect_reply("128 terms: window 126", pstp_near_match_terms_strs(out, n, text, sizeof text, ends, 128, 126, true, x.place, ROOM),
                 accepted(0, 0));
    expect_reply("128 terms: unordered, no room", pstp_near_match_terms_strs(out, n, text, sizeof text, ends, 128, 127, false, x.place, 1),
                 refused(13, 1, 2));
    expect_filled("128 terms: unordered, no room", &x, both, 0);
    for (size_t room = 0; room <= 3; room++) {
        struct asked asked = {.call = ASK_PHRASE, .text = text, .text_len = sizeof text, .ends = ends, .ends_len = 128, .room = {room}};
        test_handled("128 terms with a handle: phrase", asked, out, n);
        asked.call = ASK_NEAR_TERMS;
        asked.number = 127;
        test_handled("128 terms with a handle: unordered", asked, out, n);
        asked.ordered = true;
        test_handled("128 terms with a handle: ordered", asked, out, n);
    }
}

/* Each of the writer's lists in turn at the limit and past it; the others are empty, so that at the limit they do not fit together. */
static void test_long_lists(const uint32_t *many, const uint8_t *text) {
    for (int which = 0; which < 8; which++) {
        for (int over = 0; over <= 1; over++) {
            size_t len[8] = {0};
            len[which] = over ? OVER : LIMIT;
            pstp_reply got = pstp_write_positional_segment(many, len[0], many, len[1], text, len[2], many, len[3], many, len[4], many,
                                                           len[5], many, len[6], many, len[7], no_bytes, 0);
            expect_reply("a list of the writer", got, refused(over ? PSTP_TOO_LARGE : PSTP_LIST_SHAPE, 0, 0));
        }
    }
}

/* The same over records, with lent lists of the wrong length: 12 applies to records and lists, not to the lent lists; then 11. */
static void test_long_records(uint32_t *many, const uint8_t *text) {
    pstp_document_length *documents = calloc(OVER, sizeof documents[0]);
    uint32_t one[1] = {0};
    for (int which = 0; which < 7; which++) {
        for (int over = 0; over <= 1; over++) {
            size_t len[7] = {0};
            len[which] = over ? OVER : LIMIT;
            pstp_reply got = pstp_write_positional_segment_records(documents, len[0], one, 1, nowhere, 0, text, len[1], many, len[2], many,
                                                                   len[3], many, len[4], many, len[5], many, len[6], no_bytes, 0);
            expect_reply("a list of the writer over records", got, refused(over ? PSTP_TOO_LARGE : PSTP_LIST_SHAPE, 0, 0));
        }
    }
    for (size_t records = 0; records <= 1; records++) {
        pstp_reply got = pstp_write_positional_segment_records(documents, records, many, OVER, one, records, text, 0, nowhere, 0, nowhere,
                                                               0, nowhere, 0, nowhere, 0, nowhere, 0, no_bytes, 0);
        expect_reply("a long lent list", got, refused(PSTP_LIST_SHAPE, 0, 0));
    }
    free(documents);
}

static void put_word(uint8_t *at, uint32_t value) {
    for (int i = 0; i < 4; i++) {
        at[i] = (uint8_t)(value >> (8 * i));
    }
}

/* The segment of one name, made a byte longer than any call takes: no call finds the term, but its list is one of those that pstp_check
 * decodes. */
static void test_unaskable(const uint8_t *segment_of_longest, size_t len) {
    uint8_t *s = malloc(len + 1);
    memcpy(s, segment_of_longest, len);
    s[len] = 0;
    memmove(s + 104 + OVER, segment_of_longest + 104 + LIMIT, len - 104 - LIMIT);
    s[104 + LIMIT] = 'a';
    put_word(s + 32, OVER);
    put_word(s + 76, OVER);
    put_word(s + 56, crc32(s + 72, 32));
    put_word(s + 60, crc32(s + 104, OVER));
    len++;
    size_t lists = len - 3;
    expect_reply("a name that no call takes", pstp_df(s, len, s + 104, OVER), refused(12, 0, 0));
    expect_handle("a name that no call takes", pstp_check(s, len), (pstp_handle){0, 0, 0, 2, 1, 1, 0, 104, lists - 2, lists});
    s[len - 1] = 16;
    put_word(s + 72 + 28, crc32(s + lists, 3));
    put_word(s + 56, crc32(s + 72, 32));
    put_word(s + 68, crc32(s + lists, 3));
    expect_reply("its list is not decoded", pstp_open(s, len), accepted(1, 1));
    expect_handle("its list is decoded", pstp_check(s, len), (pstp_handle){6, 13, 0, 0, 0, 0, 0, 0, 0, 0});
    free(s);
}

/* A list of exactly the limit is written: one name of 16,777,216 bytes. A segment, and a buffer to lend, may be longer. */
static void test_long_name_written(const uint8_t *name) {
    const uint32_t id = 3, length = 16, end = LIMIT, one = 1, step = 15;
    size_t need = 72 + 32 + (size_t)LIMIT + 2 + 3;
    uint8_t *out = malloc(need);
    pstp_reply written = pstp_write_positional_segment(&id, 1, &length, 1, name, LIMIT, &end, 1, &one, 1, &id, 1, &one, 1, &step, 1, out,
                                                       need);
    expect_reply("the longest name", written, accepted(need, 0));
    struct lent x = lent();
    expect_reply("the longest name found", pstp_positions(out, need, name, LIMIT, 3, x.place, ROOM), accepted(1, 0));
    expect_filled("the longest name found", &x, &step, 1);
    uint8_t *sheet = malloc(OVER);
    expect_reply("the longest name's sheet", pstp_bar_sheet(out, need, 3, sheet, OVER), accepted(162, 0));
    expect("the longest name's sheet", memcmp(sheet + 81, "aaaaaaaaaaaa...............o", 28) == 0);
    free(sheet);
    struct asked asked = {.call = ASK_POSITIONS, .text = name, .text_len = LIMIT, .number = 3, .room = {1}};
    test_handled("the longest name with a handle", asked, out, need);
    test_unaskable(out, need);
    free(out);
}

void test_limits(void) {
    uint32_t *many = calloc(OVER, sizeof many[0]);
    uint8_t *name = malloc(OVER);
    segment = two_bars();
    memset(name, 'a', OVER);
    test_long_names(name);
    test_many_names();
    test_full_question();
    test_long_lists(many, name);
    test_long_records(many, name);
    test_long_name_written(name);
    free(name);
    free(many);
}
