#include "asked.h"
#include "check.h"
#include "guarded.h"

#include <inttypes.h>
#include <stdio.h>
#include <string.h>

/* How many buffers each call is lent. */
static const size_t buffers[] = {0, 0, 1, 3, 1, 1, 1, 1};

static pstp_reply without(const struct asked *q, uint32_t *const b[3]) {
    const uint8_t *s = q->segment;
    size_t n = q->segment_len;
    const size_t *room = q->room;
    switch (q->call) {
    case ASK_DOCUMENT_LEN: return pstp_document_len(s, n, q->number);
    case ASK_DF: return pstp_df(s, n, q->text, q->text_len);
    case ASK_DOCS: return pstp_docs_with_term(s, n, q->text, q->text_len, b[0], room[0]);
    case ASK_POSTINGS: return pstp_term_postings(s, n, q->text, q->text_len, b[0], room[0], b[1], room[1], b[2], room[2]);
    case ASK_POSITIONS: return pstp_positions(s, n, q->text, q->text_len, q->number, b[0], room[0]);
    case ASK_PHRASE: return pstp_phrase_match_strs(s, n, q->text, q->text_len, q->ends, q->ends_len, b[0], room[0]);
    case ASK_NEAR: return pstp_near_match(s, n, q->text, q->text_len, q->second, q->second_len, q->number, b[0], room[0]);
    case ASK_NEAR_TERMS: break;
    }
    return pstp_near_match_terms_strs(s, n, q->text, q->text_len, q->ends, q->ends_len, q->number, q->ordered, b[0], room[0]);
}

static pstp_reply with(const struct asked *q, pstp_handle h, uint32_t *const b[3]) {
    const uint8_t *s = q->segment;
    size_t n = q->segment_len;
    const size_t *room = q->room;
    switch (q->call) {
    case ASK_DOCUMENT_LEN: return pstp_document_len_checked(s, n, h, q->number);
    case ASK_DF: return pstp_df_checked(s, n, h, q->text, q->text_len);
    case ASK_DOCS: return pstp_docs_with_term_checked(s, n, h, q->text, q->text_len, b[0], room[0]);
    case ASK_POSTINGS: return pstp_term_postings_checked(s, n, h, q->text, q->text_len, b[0], room[0], b[1], room[1], b[2], room[2]);
    case ASK_POSITIONS: return pstp_positions_checked(s, n, h, q->text, q->text_len, q->number, b[0], room[0]);
    case ASK_PHRASE: return pstp_phrase_match_strs_checked(s, n, h, q->text, q->text_len, q->ends, q->ends_len, b[0], room[0]);
    case ASK_NEAR: return pstp_near_match_checked(s, n, h, q->text, q->text_len, q->second, q->second_len, q->number, b[0], room[0]);
    case ASK_NEAR_TERMS: break;
    }
    return pstp_near_match_terms_strs_checked(s, n, h, q->text, q->text_len, q->ends, q->ends_len, q->number, q->ordered, b[0], room[0]);
}

/* What is too large for a guarded place (the limits of names) is passed as it is. */
static const void *moved(unsigned place, bool at_end, const void *from, size_t bytes) {
    return bytes <= GUARDED_BYTES ? guarded(place, at_end, from, bytes) : from;
}

/* The call with everything at the edge of its memory; each buffer's elements afterwards. */
static pstp_reply at_the_edge(const struct asked *asked, pstp_handle handle, bool at_end, struct lent after[3]) {
    struct asked q = *asked;
    uint32_t *b[3];
    q.segment = moved(0, at_end, q.segment, q.segment_len);
    q.text = moved(1, at_end, q.text, q.text_len);
    q.second = moved(2, at_end, q.second, q.second_len);
    q.ends = moved(3, at_end, q.ends, q.ends_len * sizeof *q.ends);
    for (unsigned i = 0; i < 3; i++) {
        after[i] = lent();
        b[i] = guarded(4 + i, at_end, after[i].place, q.room[i] * sizeof *b[i]);
    }
    pstp_reply got = with(&q, handle, b);
    for (unsigned i = 0; i < 3; i++) {
        if (q.room[i] > 0) {
            memcpy(after[i].place, b[i], q.room[i] * sizeof *b[i]);
        }
    }
    return got;
}

void expect_alike_with(const char *note, const struct asked *asked, pstp_handle handle) {
    struct lent x = lent(), y = lent(), z = lent(), after[3];
    uint32_t *b[] = {x.place, y.place, z.place};
    const struct lent *plain[] = {&x, &y, &z};
    pstp_reply want = without(asked, b);
    watch(note);
    for (int at_end = 0; at_end <= 1; at_end++) {
        expect_reply(note, at_the_edge(asked, handle, at_end, after), want);
        for (size_t i = 0; i < buffers[asked->call]; i++) {
            expect_filled(note, &after[i], plain[i]->place, ROOM);
        }
    }
}

void expect_alike(const char *note, const struct asked *asked) {
    expect_alike_with(note, asked, pstp_check(asked->segment, asked->segment_len));
    expect_alike_with(note, asked, pstp_open_once(asked->segment, asked->segment_len));
}

void expect_inside(const char *note, const struct asked *asked, pstp_handle handle) {
    struct lent after[3];
    watch(note);
    for (int at_end = 0; at_end <= 1; at_end++) {
        pstp_reply got = at_the_edge(asked, handle, at_end, after);
        bool answered = got.kind == PSTP_ACCEPTED;
        uint64_t n[3] = {got.first, got.first, got.second};
        expect(note, answered ? got.which == 0 && got.index == 0 : got.first == 0 && got.second == 0);
        expect(note, got.third == 0 && got.fourth == 0 && got.kind <= PSTP_NO_ROOM);
        for (size_t i = 0; i < buffers[asked->call]; i++) {
            expect(note, n[i] <= asked->room[i]);
            /* whatever the answer is: nothing behind it is touched */
            expect_filled(note, &after[i], after[i].place, n[i] <= asked->room[i] ? (size_t)n[i] : 0);
        }
    }
}

static size_t number_at(const uint8_t *at, int bytes) {
    size_t number = 0;
    while (bytes-- > 0) {
        number = number << 8 | at[bytes];
    }
    return number;
}

pstp_reply first_refusal(const struct bytes *s) {
    pstp_reply opened = pstp_open(s->at, s->len);
    for (size_t i = 0; i < opened.second; i++) {
        const uint8_t *entry = s->at + 72 + 32 * i, *names = s->at + 72 + 32 * (size_t)opened.second;
        pstp_reply r = pstp_docs_with_term(s->at, s->len, names + number_at(entry, 4), number_at(entry + 4, 4), nowhere, 0);
        if (r.kind != PSTP_ACCEPTED && r.kind != PSTP_NO_ROOM) {
            return r;
        }
    }
    return opened;
}

pstp_handle handle_of(const struct bytes *segment, pstp_reply want, uint32_t level) {
    pstp_handle h = {want.kind, want.which, want.index, PSTP_LEVEL_REFUSED, 0, 0, 0, 0, 0, 0};
    if (want.kind == PSTP_ACCEPTED) {
        h.level = level;
        h.documents = (uint32_t)want.first;
        h.terms = (uint32_t)want.second;
        h.names = 72 + number_at(segment->at + 24, 8);
        h.metadata = h.names + number_at(segment->at + 32, 8);
        h.lists = h.metadata + number_at(segment->at + 40, 8);
    }
    return h;
}

static void print_handle(const char *what, pstp_handle h) {
    printf("  %s %" PRIu32 " %" PRIu32 " %" PRIu64 ", level %" PRIu32 ", %" PRIu32 " %" PRIu32 " %" PRIu32 ", %zu %zu %zu\n", what, h.kind,
           h.which, h.index, h.level, h.documents, h.terms, h.spare, h.names, h.metadata, h.lists);
}

void expect_handle(const char *note, pstp_handle got, pstp_handle want) {
    bool same = got.kind == want.kind && got.which == want.which && got.index == want.index && got.level == want.level
        && got.documents == want.documents && got.terms == want.terms && got.spare == want.spare && got.names == want.names
        && got.metadata == want.metadata && got.lists == want.lists;
    expect(note, same);
    if (!same) {
        print_handle("got ", got);
        print_handle("want", want);
    }
}

/* What is asked of a segment: terms of the test segments, others, and names that are not UTF-8. */
static const struct {
    enum call call;
    const char *names, *second;
    uint32_t number;
    bool ordered;
} questions[] = {
    {ASK_DOCUMENT_LEN, "", "", 3, false},
    {ASK_DOCUMENT_LEN, "", "", 7, false},
    {ASK_DOCUMENT_LEN, "", "", 4, false},
    {ASK_DOCUMENT_LEN, "", "", 4294967295u, false},
    {ASK_DF, "kick", "", 0, false},
    {ASK_DF, "a", "", 0, false},
    {ASK_DF, "tom", "", 0, false},
    {ASK_DF, "", "", 0, false},
    {ASK_DF, "\xFF", "", 0, false},
    {ASK_DOCS, "kick", "", 0, false},
    {ASK_DOCS, "snare", "", 0, false},
    {ASK_DOCS, "a", "", 0, false},
    {ASK_DOCS, "\xFF", "", 0, false},
    {ASK_POSTINGS, "kick", "", 0, false},
    {ASK_POSTINGS, "snare", "", 0, false},
    {ASK_POSTINGS, "a", "", 0, false},
    {ASK_POSTINGS, "tom", "", 0, false},
    {ASK_POSITIONS, "kick", "", 3, false},
    {ASK_POSITIONS, "snare", "", 7, false},
    {ASK_POSITIONS, "a", "", 3, false},
    {ASK_POSITIONS, "a", "", 5, false},
    {ASK_PHRASE, "", "", 0, false},
    {ASK_PHRASE, "kick snare", "", 0, false},
    {ASK_PHRASE, "tom kick", "", 0, false},
    {ASK_PHRASE, "snare", "", 0, false},
    {ASK_PHRASE, "a", "", 0, false},
    {ASK_PHRASE, "kick \xFF", "", 0, false},
    {ASK_NEAR, "kick", "snare", 1, false},
    {ASK_NEAR, "snare", "snare", 6, false},
    {ASK_NEAR, "a", "a", 4, false},
    {ASK_NEAR, "snare", "kick", 0, false},
    {ASK_NEAR, "kick", "\xFF", 1, false},
    {ASK_NEAR_TERMS, "kick snare", "", 4, true},
    {ASK_NEAR_TERMS, "snare kick snare", "", 7, false},
    {ASK_NEAR_TERMS, "kick snare", "", 0, true},
    {ASK_NEAR_TERMS, "a a", "", 16, true},
    {ASK_NEAR_TERMS, "snare", "", 9, false},
};

static void expect_all_alike(const char *note, const struct bytes *s, pstp_handle handle) {
    for (size_t i = 0; i < sizeof questions / sizeof questions[0]; i++) {
        struct names n = names(questions[i].names);
        struct asked q = {.call = questions[i].call,
                          .segment = s->at,
                          .segment_len = s->len,
                          .text = n.text.at,
                          .text_len = n.text.len,
                          .second = (const uint8_t *)questions[i].second,
                          .second_len = strlen(questions[i].second),
                          .ends = n.ends.at,
                          .ends_len = n.ends.len,
                          .number = questions[i].number,
                          .ordered = questions[i].ordered,
                          .room = {ROOM, ROOM, ROOM}};
        struct lent x = lent(), y = lent(), z = lent();
        pstp_reply whole = without(&q, (uint32_t *[]){x.place, y.place, z.place});
        size_t needed[] = {(size_t)whole.first, (size_t)whole.first, (size_t)whole.second};
        expect_alike_with(note, &q, handle);
        memset(q.room, 0, sizeof q.room);
        expect_alike_with(note, &q, handle);
        if (buffers[q.call] > 0 && whole.kind == PSTP_ACCEPTED) {
            memcpy(q.room, needed, sizeof q.room);
            expect_alike_with(note, &q, handle);
            for (size_t short_one = 0; short_one < buffers[q.call] && whole.first > 0; short_one++) {
                memcpy(q.room, needed, sizeof q.room);
                q.room[short_one]--;
                expect_alike_with(note, &q, handle);
            }
        }
    }
}

void expect_handles(const char *note, const struct bytes *segment, pstp_reply want) {
    watch(note);
    for (int at_end = 0; at_end <= 1; at_end++) {
        const uint8_t *s = guarded(0, at_end, segment->at, segment->len);
        expect_handle(note, pstp_open_once(s, segment->len), handle_of(segment, pstp_open(segment->at, segment->len), PSTP_LEVEL_OPENED));
        expect_handle(note, pstp_check(s, segment->len), handle_of(segment, want, PSTP_LEVEL_CHECKED));
    }
    expect_all_alike(note, segment, pstp_open_once(segment->at, segment->len));
    expect_all_alike(note, segment, pstp_check(segment->at, segment->len));
}
