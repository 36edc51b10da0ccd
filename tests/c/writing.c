/* The writer: exact bytes, every refusal in the order of docs/FORMAT.md, and the buffer in each case; each also over records. */
#include "build.h"
#include "check.h"

#include <stdio.h>
#include <string.h>

/* The eight lists, each as text. */
struct given {
    const char *ids, *lengths, *text, *ends, *posting_counts, *posting_ids, *position_counts, *positions;
};

/* Refusals: three numbers. */
static const struct refusal {
    const char *note;
    struct given given;
    uint32_t kind, which;
} refusals[] = {
    /* 11: lists that do not fit together. */
    {"an id without a length", {"3 7", "16", "", "", "", "", "", ""}, 11, 0},
    {"a length without an id", {"3", "16 16", "", "", "", "", "", ""}, 11, 0},
    {"a text without ends", {"3", "16", "a", "", "", "", "", ""}, 11, 0},
    {"an end without a text", {"3", "16", "", "1", "1", "3", "1", "0"}, 11, 0},
    {"ends that fall", {"3", "16", "ab", "2 1", "1 1", "3 3", "1 1", "0 0"}, 11, 0},
    {"ends that end early", {"3", "16", "ab", "1", "1", "3", "1", "0"}, 11, 0},
    {"ends that end late", {"3", "16", "a", "2", "1", "3", "1", "0"}, 11, 0},
    {"a term without a posting count", {"3", "16", "a", "1", "", "", "", ""}, 11, 0},
    {"a posting count without a term", {"3", "16", "a", "1", "1 0", "3", "1", "0"}, 11, 0},
    {"fewer postings than counted", {"3", "16", "a", "1", "2", "3", "1", "0"}, 11, 0},
    {"more postings than counted", {"3 7", "16 16", "a", "1", "1", "3 7", "1 1", "0 0"}, 11, 0},
    {"a posting without a position count", {"3", "16", "a", "1", "1", "3", "", ""}, 11, 0},
    {"a position count without a posting", {"3", "16", "a", "1", "1", "3", "1 1", "0 1"}, 11, 0},
    {"fewer positions than counted", {"3", "16", "a", "1", "1", "3", "2", "0"}, 11, 0},
    {"more positions than counted", {"3", "16", "a", "1", "1", "3", "1", "0 1"}, 11, 0},
    {"counts that add up modulo 2^32 only", {"3", "16", "ab", "1 2", "4294967295 2", "3", "1", "0"}, 11, 0},
    {"position counts that add up modulo 2^32 only", {"3 7", "16 16", "a", "1", "2", "3 7", "4294967295 2", "0"}, 11, 0},
    {"11 before documents' order", {"3 3", "16 16", "a", "", "", "", "", ""}, 11, 0},

    /* Documents. */
    {"an id twice", {"3 3", "16 16", "", "", "", "", "", ""}, 6, 15},
    {"ids that fall", {"7 3", "16 16", "", "", "", "", "", ""}, 6, 15},
    {"documents before names", {"3 3", "16 16", "\xFF", "1", "1", "3", "1", "0"}, 6, 15},

    /* Names. */
    {"a name that is not UTF-8", {"3", "16", "\xFF", "1", "1", "3", "1", "0"}, 10, 0},
    {"a name cut in a character", {"3", "16", "\xC3\xA9", "1 2", "1 1", "3 3", "1 1", "0 0"}, 10, 0},
    {"an empty name", {"3", "16", "", "0", "1", "3", "1", "0"}, 6, 6},
    {"an empty second name", {"3", "16", "a", "1 1", "1 1", "3 3", "1 1", "0 0"}, 6, 6},
    {"a name twice", {"3", "16", "aa", "1 2", "1 1", "3 3", "1 1", "0 0"}, 6, 16},
    {"names that fall", {"3", "16", "ba", "1 2", "1 1", "3 3", "1 1", "0 0"}, 6, 16},
    {"a beginning of the name before", {"3", "16", "aba", "2 3", "1 1", "3 3", "1 1", "0 0"}, 6, 16},
    {"a term without postings", {"3", "16", "a", "1", "0", "", "", ""}, 6, 8},
    {"names' order before no postings", {"3", "16", "aa", "1 2", "1 0", "3", "1", "0"}, 6, 16},
    {"a first term's positions before a second's name", {"0", "1", "a\xFF", "1 2", "1 1", "0 0", "1 1", "1 0"}, 6, 21},

    /* Postings. */
    {"an unknown document", {"3", "16", "a", "1", "1", "4", "1", "0"}, 6, 10},
    {"an unknown document before a smaller id", {"5", "1", "a", "1", "2", "5 4", "1 1", "0 0"}, 6, 10},
    {"a smaller id", {"3 7", "16 16", "a", "1", "2", "7 3", "1 1", "0 0"}, 6, 17},
    {"an equal id", {"3 7", "16 16", "a", "1", "2", "3 3", "1 1", "0 0"}, 6, 18},
    {"an equal id before no positions", {"3 7", "16 16", "a", "1", "2", "3 3", "1 0", "0"}, 6, 18},
    {"no positions", {"3", "16", "a", "1", "1", "3", "0", ""}, 6, 11},
    {"an unknown document before no positions", {"3", "16", "a", "1", "1", "4", "0", ""}, 6, 10},

    /* Positions. */
    {"a smaller position", {"3", "16", "a", "1", "1", "3", "2", "4 3"}, 6, 19},
    {"an equal position", {"3", "16", "a", "1", "1", "3", "2", "4 4"}, 6, 20},
    {"a position of the document's length", {"3", "16", "a", "1", "1", "3", "1", "16"}, 6, 21},
    {"a position in a document of length 0", {"3", "0", "a", "1", "1", "3", "1", "0"}, 6, 21},
    {"a length of another document", {"3 7", "16 8", "a", "1", "2", "3 7", "1 1", "15 8"}, 6, 21},
};

/* Accepted: the counts and the sections that are to be written; header, directory and checksums are worked out by the test. */
static const struct segment {
    const char *note;
    struct given given;
    struct parts parts;
} segments[] = {
    {"no bars, no sounds", {"", "", "", "", "", "", "", ""}, {.metadata = ""}},
    {"the two bars",
     {"3 7", "16 16", "kicksnare", "4 9", "2 2", "3 7 3 7", "3 1 2 2", "0 4 15 2 8 14 3 4"},
     {.documents = 2,
      .metadata = "03 10 04 10",
      .terms = 2,
      .names = "kicksnare",
      .lists = "03 03 00 04 0B 04 01 02 03 02 08 06 04 02 03 01",
      .entries = 2,
      .entry = {{0, 4, 0, 8, 2}, {4, 5, 8, 8, 2}}}},
    {"unlike numbers",
     {"2 9 70000", "5 300 4096", "hat", "3", "1", "9", "3", "0 128 299"},
     {.documents = 3,
      .metadata = "02 05 07 AC 02 E7 A2 04 80 20",
      .terms = 1,
      .names = "hat",
      .lists = "09 03 00 80 01 AB 01",
      .entries = 1,
      .entry = {{0, 3, 0, 7, 1}}}},
    {"bars only", {"0 1", "0 4294967295", "", "", "", "", "", ""}, {.documents = 2, .metadata = "00 00 01 FF FF FF FF 0F"}},
    {"the largest numbers",
     {"0 4294967295", "4294967295 4294967295", "\xF4\x8F\xBF\xBF", "4", "1", "4294967295", "2", "4294967293 4294967294"},
     {.documents = 2,
      .metadata = "00 FF FF FF FF 0F FF FF FF FF 0F FF FF FF FF 0F",
      .terms = 1,
      .names = "\xF4\x8F\xBF\xBF",
      .lists = "FF FF FF FF 0F 02 FD FF FF FF 0F 01",
      .entries = 1,
      .entry = {{0, 4, 0, 12, 1}}}},
    {"names of which one begins another, one term in the last document",
     {"0 5", "9 9", "aabb", "1 3 4", "1 2 1", "5 0 5 5", "1 1 1 1", "8 0 0 1"},
     {.documents = 2,
      .metadata = "00 09 05 09",
      .terms = 3,
      .names = "aabb",
      .lists = "05 01 08 00 01 00 05 01 00 05 01 01",
      .entries = 3,
      .entry = {{0, 1, 0, 3, 1}, {1, 2, 3, 6, 2}, {3, 1, 9, 3, 1}}}},
};

static pstp_reply write_given(const struct given *g, uint8_t *out, size_t room) {
    struct numbers ids = numbers(g->ids), lengths = numbers(g->lengths), ends = numbers(g->ends);
    struct numbers posting_counts = numbers(g->posting_counts), posting_ids = numbers(g->posting_ids);
    struct numbers position_counts = numbers(g->position_counts), positions = numbers(g->positions);
    return pstp_write_positional_segment(ids.at, ids.len, lengths.at, lengths.len, (const uint8_t *)g->text, strlen(g->text), ends.at,
                                         ends.len, posting_counts.at, posting_counts.len, posting_ids.at, posting_ids.len,
                                         position_counts.at, position_counts.len, positions.at, positions.len, out, room);
}

/* Over the records of the ids and lengths, with two lent lists of so many places. Records and lists are as before on every outcome. */
static pstp_reply write_records(const char *note, const struct given *g, size_t id_places, size_t length_places, uint8_t *out,
                                size_t room) {
    struct numbers ids = numbers(g->ids), lengths = numbers(g->lengths), ends = numbers(g->ends);
    struct numbers posting_counts = numbers(g->posting_counts), posting_ids = numbers(g->posting_ids);
    struct numbers position_counts = numbers(g->position_counts), positions = numbers(g->positions);
    pstp_document_length documents[ROOM], before[ROOM];
    struct lent x = lent(), y = lent();
    memset(documents, 0xA5, sizeof documents);
    for (size_t i = 0; i < ids.len; i++) {
        documents[i].id = ids.at[i];
        documents[i].len = lengths.at[i];
    }
    memcpy(before, documents, sizeof before);
    pstp_reply reply = pstp_write_positional_segment_records(
        documents, ids.len, x.place, id_places, y.place, length_places, (const uint8_t *)g->text, strlen(g->text), ends.at, ends.len,
        posting_counts.at, posting_counts.len, posting_ids.at, posting_ids.len, position_counts.at, position_counts.len, positions.at,
        positions.len, out, room);
    expect(note, memcmp(documents, before, sizeof before) == 0);
    expect_filled(note, &x, nowhere, 0);
    expect_filled(note, &y, nowhere, 0);
    return reply;
}

/* The reply and the slice are those of the two lists. Lists of unlike lengths are no records. */
static void test_over_records(const char *note, const struct given *g, size_t room, pstp_reply want, const struct bytes *bytes, size_t n) {
    struct bytes out = lent_bytes();
    size_t count = numbers(g->ids).len;
    if (numbers(g->lengths).len == count) {
        expect_reply(note, write_records(note, g, count, count, out.at, room), want);
        expect_written(note, &out, bytes, n);
    }
}

/* A lent list with too few or too many elements is 11, before any other check but 12 (limits.c). */
static void test_misfits(void) {
    static const struct given id_twice = {"3 3", "16 16", "", "", "", "", "", ""};
    const struct given *rows[] = {&segments[0].given, &segments[1].given, &id_twice};
    for (size_t i = 0; i < sizeof rows / sizeof rows[0]; i++) {
        size_t count = numbers(rows[i]->ids).len;
        for (size_t x = 0; x <= count + 1; x++) {
            for (size_t y = 0; y <= count + 1; y++) {
                if (x != count || y != count) {
                    struct bytes out = lent_bytes();
                    expect_reply("misfit", write_records("misfit", rows[i], x, y, out.at, sizeof out.at), refused(11, 0, 0));
                    expect_written("misfit", &out, &out, 0);
                }
            }
        }
    }
}

static void test_segment(const struct segment *row) {
    struct bytes want = assemble(row->parts);
    size_t rooms[] = {0, want.len - 1, want.len, want.len + 1, sizeof want.at};
    for (size_t i = 0; i < sizeof rooms / sizeof rooms[0]; i++) {
        struct bytes out = lent_bytes();
        bool fits = want.len <= rooms[i];
        expect_reply(row->note, write_given(&row->given, out.at, rooms[i]), fits ? accepted(want.len, 0) : refused(13, 1, want.len));
        expect_written(row->note, &out, &want, fits ? want.len : 0);
        test_over_records(row->note, &row->given, rooms[i], fits ? accepted(want.len, 0) : refused(13, 1, want.len), &want,
                          fits ? want.len : 0);
    }
    expect_reply(row->note, pstp_open(want.at, want.len), accepted(row->parts.documents, row->parts.terms));
}

void test_writing(void) {
    for (size_t i = 0; i < sizeof refusals / sizeof refusals[0]; i++) {
        const struct refusal *row = &refusals[i];
        for (size_t room = 0; room <= 512; room += 512) { /* 13 is tested last */
            struct bytes out = lent_bytes();
            expect_reply(row->note, write_given(&row->given, out.at, room), refused(row->kind, row->which, 0));
            expect_written(row->note, &out, &out, 0);
            test_over_records(row->note, &row->given, room, refused(row->kind, row->which, 0), &out, 0);
        }
    }
    test_misfits();
    for (size_t i = 0; i < sizeof segments / sizeof segments[0]; i++) {
        test_segment(&segments[i]);
    }

    /* The worked examples, byte by byte. */
    struct bytes out = lent_bytes(), want = two_bars();
    expect_reply("the two bars take 165 bytes", write_given(&segments[1].given, out.at, 165), accepted(165, 0));
    expect_written("the two bars, byte by byte", &out, &want, 165);
    expect("metadata 03 10 04 10", memcmp(out.at + 145, hex("03 10 04 10").at, 4) == 0);
    expect("kick's postings 03 03 00 04 0B 04 01 02", memcmp(out.at + 149, hex("03 03 00 04 0B 04 01 02").at, 8) == 0);
    out = lent_bytes();
    expect_reply("the two bars over records", write_records("two bars", &segments[1].given, 2, 2, out.at, 165), accepted(165, 0));
    expect_written("the two bars over records, byte by byte", &out, &want, 165);
    out = lent_bytes();
    want = hex("50 53 54 50 30 30 30 31 02");
    expect_reply("no bars, no sounds take 72 bytes", write_given(&segments[0].given, out.at, 72), accepted(72, 0));
    expect_written("magic, 02, then 63 zero bytes", &out, &want, 72);
    out = lent_bytes();
    want = uneven();
    expect_reply("unlike numbers take 124 bytes", write_given(&segments[2].given, out.at, 124), accepted(124, 0));
    expect_written("unlike numbers, byte by byte", &out, &want, 124);
}
