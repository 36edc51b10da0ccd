/* pstp_open and the two calls on documents: what opening accepts, and each of its refusals in the order of docs/FORMAT.md. */
#include "asked.h"
#include "build.h"
#include "check.h"

/* The two bars with some bytes overwritten, or cut or lengthened to `len` bytes. REPAIRED: all checksums made right again. */
enum { AS_IS, REPAIRED };
static const struct damage {
    const char *note;
    size_t at;
    const char *over;
    int checksums;
    size_t len; /* 0: the whole */
    uint32_t kind, which;
    uint64_t index;
} damages[] = {
    /* The sections: header 0, directory 72 (entries at 72 and 104), names 136, metadata 145, lists 149, end 165. */
    {"the whole", 0, "", AS_IS, 0, 0, 0, 0},
    {"one byte", 0, "", AS_IS, 1, 1, 1, 0},
    {"71 bytes", 0, "", AS_IS, 71, 1, 1, 0},
    {"71 bytes, wrong magic", 0, "51", AS_IS, 71, 1, 1, 0},
    {"magic, first byte", 0, "51", AS_IS, 0, 2, 0, 0},
    {"magic, last byte", 7, "32", AS_IS, 0, 2, 0, 0},
    {"magic before version", 7, "32 03", AS_IS, 0, 2, 0, 0},
    {"version 3", 8, "03", AS_IS, 0, 3, 0, 3},
    {"version 1", 8, "01", AS_IS, 0, 3, 0, 1},
    {"version 4294967295", 8, "FF FF FF FF", AS_IS, 0, 3, 0, 4294967295u},
    {"version before flags", 8, "00 00 00 00 01", AS_IS, 0, 3, 0, 0},
    {"flags 1", 12, "01", AS_IS, 0, 4, 0, 1},
    {"flags 2147483648", 12, "00 00 00 80", AS_IS, 0, 4, 0, 2147483648u},
    {"flags before ranges", 12, "01", AS_IS, 72, 4, 0, 1},

    /* Ranges: the first that ends past the segment, or past 64 bits. */
    {"a header alone", 0, "", AS_IS, 72, 1, 2, 0},
    {"cut in the directory", 0, "", AS_IS, 135, 1, 2, 0},
    {"cut after the directory", 0, "", AS_IS, 136, 1, 3, 0},
    {"cut in the names", 0, "", AS_IS, 144, 1, 3, 0},
    {"cut in the metadata", 0, "", AS_IS, 148, 1, 4, 0},
    {"cut in the lists", 0, "", AS_IS, 164, 1, 5, 0},
    {"a byte too many", 0, "", AS_IS, 166, 6, 1, 0},
    {"directory to 2^64", 24, "B8 FF FF FF FF FF FF FF", AS_IS, 0, 6, 2, 0},
    {"directory to 2^64 - 1", 24, "B7 FF FF FF FF FF FF FF", AS_IS, 0, 1, 2, 0},
    {"names to 2^64", 32, "78 FF FF FF FF FF FF FF", AS_IS, 0, 6, 2, 0},
    {"names to 2^64 - 1", 32, "77 FF FF FF FF FF FF FF", AS_IS, 0, 1, 3, 0},
    {"metadata to 2^64", 40, "6F FF FF FF FF FF FF FF", AS_IS, 0, 6, 2, 0},
    {"metadata to 2^64 - 1", 40, "6E FF FF FF FF FF FF FF", AS_IS, 0, 1, 4, 0},
    {"lists to 2^64", 48, "6B FF FF FF FF FF FF FF", AS_IS, 0, 6, 2, 0},
    {"lists to 2^64 - 1", 48, "6A FF FF FF FF FF FF FF", AS_IS, 0, 1, 5, 0},
    {"lists a byte shorter", 48, "0F", AS_IS, 0, 6, 1, 0},
    {"lists a byte longer", 48, "11", AS_IS, 0, 1, 5, 0},
    {"a wrong checksum behind a byte too many", 56, "00", AS_IS, 166, 6, 1, 0},

    /* Checksums, in the order of the sections. */
    {"a bit of the directory", 103, "09", AS_IS, 0, 5, 2, 0},
    {"a bit of the names", 136, "6A", AS_IS, 0, 5, 3, 0},
    {"a bit of the metadata", 148, "11", AS_IS, 0, 5, 4, 0},
    {"a bit of the lists", 164, "00", AS_IS, 0, 5, 5, 0},
    {"the directory's checksum", 56, "B2", AS_IS, 0, 5, 2, 0},
    {"the names' checksum", 63, "22", AS_IS, 0, 5, 3, 0},
    {"the metadata's checksum", 64, "E3", AS_IS, 0, 5, 4, 0},
    {"the lists' checksum", 71, "BF", AS_IS, 0, 5, 5, 0},
    {"metadata's checksum before its contents", 145, "80 80 80 80", AS_IS, 0, 5, 4, 0},
    {"a header of four wrong checksums", 56, "00 00 00 00 00 00 00 00 00 00 00 00 00 00 00 00", AS_IS, 0, 5, 2, 0},

    /* Counts: metadata comes before the directory's length. */
    {"a third document", 16, "03", AS_IS, 0, 7, 4, 2},
    {"4294967295 documents", 16, "FF FF FF FF", AS_IS, 0, 7, 4, 2},
    {"one document", 16, "01", AS_IS, 0, 6, 3, 0},
    {"a third term", 20, "03", AS_IS, 0, 6, 5, 0},
    {"one term", 20, "01", AS_IS, 0, 6, 5, 0},
    {"4294967295 terms", 20, "FF FF FF FF", AS_IS, 0, 6, 5, 0},
    {"a third document and a third term", 16, "03 00 00 00 03", AS_IS, 0, 7, 4, 2},

    /* Directory entries: term range, UTF-8, empty, order, postings range, df 0. */
    {"a name past its section", 76, "0A", REPAIRED, 0, 1, 3, 0},
    {"a name from past its section", 72, "0A 00 00 00 00", REPAIRED, 0, 1, 3, 0},
    {"an empty name at its section's end", 72, "09 00 00 00 00", REPAIRED, 0, 6, 6, 0},
    {"a name at and of 2^32 - 1", 72, "FF FF FF FF FF FF FF FF", REPAIRED, 0, 1, 3, 0},
    {"a name that is not UTF-8", 136, "FF", REPAIRED, 0, 10, 0, 0},
    {"a second name that is not UTF-8", 140, "C3", REPAIRED, 0, 10, 0, 0},
    {"an empty name", 76, "00", REPAIRED, 0, 6, 6, 0},
    {"names that fall", 136, "7A", REPAIRED, 0, 6, 7, 0},
    {"one name twice", 104, "00 00 00 00 04", REPAIRED, 0, 6, 7, 0},
    {"a beginning of the name before", 104, "00 00 00 00 03", REPAIRED, 0, 6, 7, 0},
    {"the name before and a letter", 104, "00 00 00 00 05", REPAIRED, 0, 0, 0, 0},
    {"order before the list's range", 104, "00 00 00 00 04 00 00 00 11", REPAIRED, 0, 6, 7, 0},
    {"a list to 2^64", 80, "FF FF FF FF FF FF FF FF 01 00 00 00 00 00 00 00", REPAIRED, 0, 6, 2, 0},
    {"a list to 2^64 - 1", 80, "FF FF FF FF FF FF FF FF 00 00 00 00 00 00 00 00", REPAIRED, 0, 1, 5, 0},
    {"a list past its section", 88, "11", REPAIRED, 0, 1, 5, 0},
    {"an empty list at its section's end", 80, "10 00 00 00 00 00 00 00 00 00 00 00 00 00 00 00", REPAIRED, 0, 0, 0, 0},
    {"df 0", 96, "00", REPAIRED, 0, 6, 8, 0},
    {"df 0 of a list past its section", 88, "11 00 00 00 00 00 00 00 00", REPAIRED, 0, 1, 5, 0},
    {"a first entry's df before a second's name", 96, "00 00 00 00 00 00 00 00 0A", REPAIRED, 0, 6, 8, 0},
    {"lists are not decoded", 149, "80 80 80 80 80 80 80 80", REPAIRED, 0, 0, 0, 0},
};

/* A segment without terms: so many documents, and their metadata. Accepted ones list these ids and lengths. */
static const struct metadata {
    const char *note;
    uint32_t documents;
    const char *metadata;
    uint32_t kind, which;
    uint64_t index;
    const char *ids, *lengths;
} metadata[] = {
    {"no documents", 0, "", 0, 0, 0, "", ""},
    {"the two bars' metadata", 2, "03 10 04 10", 0, 0, 0, "3 7", "16 16"},
    {"the largest number", 1, "FF FF FF FF 0F 10", 0, 0, 0, "4294967295", "16"},
    {"a number of 2^32", 1, "FF FF FF FF 10 10", 7, 4, 0, "", ""},
    {"80 00 is 0", 1, "80 00 10", 0, 0, 0, "0", "16"},
    {"80 80 80 80 00 is 0", 1, "80 80 80 80 00 10", 0, 0, 0, "0", "16"},
    {"80 alone", 1, "80", 7, 4, 0, "", ""},
    {"six bytes for an id", 1, "80 80 80 80 80 00 10", 7, 4, 0, "", ""},
    {"six bytes for a length", 1, "03 90 80 80 80 80 00", 7, 4, 0, "", ""},
    {"six bytes for the second id", 2, "03 10 84 80 80 80 80 00 10", 7, 4, 1, "", ""},
    {"no length", 1, "03", 7, 4, 0, "", ""},
    {"a cut length", 2, "03 10 04 90", 7, 4, 1, "", ""},
    {"id 2^32 with a cut length", 2, "01 01 FF FF FF FF 0F 80", 7, 4, 1, "", ""},
    {"id 2^32", 2, "01 01 FF FF FF FF 0F 01", 8, 0, 1, "", ""},
    {"an id twice", 2, "03 10 00 10", 6, 4, 0, "", ""},
    {"an id twice, third", 3, "03 10 04 10 00 10", 6, 4, 0, "", ""},
    {"a byte too many", 1, "03 10 00", 6, 3, 0, "", ""},
    {"a byte for no documents", 0, "00", 6, 3, 0, "", ""},
    {"2^32 - 1 documents without metadata", 4294967295u, "", 7, 4, 0, "", ""},
    {"the last two ids, lengths 0", 2, "FE FF FF FF 0F 00 01 00", 0, 0, 0, "4294967294 4294967295", "0 0"},
    {"numbers of one to five bytes", 5, "01 7F 7F 80 01 80 01 FF 7F 80 80 01 80 80 01 80 80 80 01 FF FF FF FF 0F", 0, 0, 0,
     "1 128 256 16640 2113792", "127 128 16383 16384 4294967295"},
};

/* The documents of a segment: all of them in every room, and each by its id. */
static void test_documents(const char *note, const struct bytes *segment, struct numbers ids, struct numbers lengths) {
    size_t n = ids.len;
    for (size_t short_by = 0; short_by <= (n > 0); short_by++) {
        struct lent id = lent(), length = lent();
        pstp_reply got = pstp_document_lengths(segment->at, segment->len, id.place, n, length.place, n - short_by);
        expect_reply(note, got, short_by ? refused(13, 2, n) : accepted(n, 0));
        expect_filled(note, &id, ids.at, short_by ? 0 : n);
        expect_filled(note, &length, lengths.at, short_by ? 0 : n);
    }
    struct lent id = lent(), length = lent();
    expect_reply(note, pstp_document_lengths(segment->at, segment->len, id.place, ROOM, length.place, ROOM), accepted(n, 0));
    expect_filled(note, &id, ids.at, n);
    expect_filled(note, &length, lengths.at, n);
    id = lent(), length = lent();
    expect_reply(note, pstp_document_lengths(segment->at, segment->len, id.place, 0, length.place, 0),
                 n > 0 ? refused(13, 1, n) : accepted(0, 0));
    expect_filled(note, &id, ids.at, 0);
    expect_filled(note, &length, lengths.at, 0);
    for (size_t i = 0; i < n; i++) {
        expect_reply(note, pstp_document_len(segment->at, segment->len, ids.at[i]), accepted(1, lengths.at[i]));
    }
}

/* Every call of a segment that does not open gives the refusal of opening, and leaves its buffers. */
static void test_no_call_opens(const char *note, const struct bytes *s, pstp_reply want) {
    const uint8_t *kick = (const uint8_t *)"kick";
    uint32_t ends[] = {2, 4};
    struct lent a = lent(), b = lent(), c = lent();
    struct bytes out = lent_bytes(), nothing = {{0}, 0};
    expect_reply(note, pstp_document_lengths(s->at, s->len, a.place, ROOM, b.place, ROOM), want);
    expect_reply(note, pstp_document_len(s->at, s->len, 3), want);
    expect_reply(note, pstp_df(s->at, s->len, kick, 4), want);
    expect_reply(note, pstp_docs_with_term(s->at, s->len, kick, 4, a.place, ROOM), want);
    expect_reply(note, pstp_term_postings(s->at, s->len, kick, 4, a.place, ROOM, b.place, ROOM, c.place, ROOM), want);
    expect_reply(note, pstp_positions(s->at, s->len, kick, 4, 3, a.place, ROOM), want);
    expect_reply(note, pstp_phrase_match_strs(s->at, s->len, kick, 4, ends, 2, a.place, ROOM), want);
    expect_reply(note, pstp_phrase_match_strs(s->at, s->len, kick, 0, ends, 0, a.place, ROOM), want);
    expect_reply(note, pstp_phrase_match_ranked(s->at, s->len, kick, 4, ends, 2, a.place, ROOM, b.place, ROOM), want);
    expect_reply(note, pstp_phrase_match_ranked(s->at, s->len, kick, 0, ends, 0, a.place, 0, b.place, 0), want);
    expect_reply(note, pstp_near_match(s->at, s->len, kick, 2, kick + 2, 2, 1, a.place, ROOM), want);
    expect_reply(note, pstp_near_match(s->at, s->len, kick, 2, kick + 2, 2, 0, a.place, ROOM), want);
    expect_reply(note, pstp_near_match_terms_strs(s->at, s->len, kick, 4, ends, 2, 1, true, a.place, ROOM), want);
    expect_reply(note, pstp_near_match_terms_strs(s->at, s->len, kick, 4, ends, 2, 0, false, a.place, ROOM), want);
    expect_reply(note, pstp_bar_sheet(s->at, s->len, 3, out.at, sizeof out.at), want);
    expect_reply(note, pstp_bar_sheet(s->at, s->len, 5, out.at, 0), want);
    expect_written(note, &out, &nothing, 0);
    expect_filled(note, &a, nowhere, 0);
    expect_filled(note, &b, nowhere, 0);
    expect_filled(note, &c, nowhere, 0);
}

void test_opening(void) {
    for (size_t i = 0; i < sizeof damages / sizeof damages[0]; i++) {
        const struct damage *row = &damages[i];
        struct bytes segment = two_bars();
        put(&segment, row->at, row->over);
        if (row->checksums == REPAIRED) {
            repair(&segment);
        }
        segment.len = row->len ? row->len : segment.len;
        pstp_reply want = row->kind ? refused(row->kind, row->which, row->index) : accepted(2, 2);
        expect_reply(row->note, pstp_open(segment.at, segment.len), want);
        expect_handles(row->note, &segment, first_refusal(&segment));
        if (row->kind) {
            test_no_call_opens(row->note, &segment, want);
        }
    }
    for (size_t i = 0; i < sizeof metadata / sizeof metadata[0]; i++) {
        const struct metadata *row = &metadata[i];
        struct bytes segment = assemble((struct parts){.documents = row->documents, .metadata = row->metadata});
        pstp_reply want = row->kind ? refused(row->kind, row->which, row->index) : accepted(row->documents, 0);
        expect_reply(row->note, pstp_open(segment.at, segment.len), want);
        expect_handles(row->note, &segment, want);
        if (row->kind) {
            test_no_call_opens(row->note, &segment, want);
        } else {
            test_documents(row->note, &segment, numbers(row->ids), numbers(row->lengths));
        }
    }
    struct bytes segment = uneven();
    expect_reply("three documents, one term", pstp_open(segment.at, segment.len), accepted(3, 1));
    test_documents("three documents", &segment, numbers("2 9 70000"), numbers("5 300 4096"));
    expect_reply("no document below", pstp_document_len(segment.at, segment.len, 1), accepted(0, 0));
    expect_reply("no document between", pstp_document_len(segment.at, segment.len, 10), accepted(0, 0));
    expect_reply("no document above", pstp_document_len(segment.at, segment.len, 4294967295u), accepted(0, 0));
}
