/* Empty slices with NULL for a pointer. The header asks for a valid pointer; this is what a caller who forgets gets. */
#include "build.h"
#include "check.h"

void test_empty(void) {
    const char *note = "NULL for an empty slice";
    struct bytes s = two_bars();
    const uint8_t *kick = (const uint8_t *)"kick";
    const uint32_t end[] = {4}, none[] = {0, 0};
    struct lent x = lent();
    expect_reply(note, pstp_open(NULL, 0), refused(1, 1, 0));
    expect_reply(note, pstp_document_lengths(s.at, s.len, NULL, 0, NULL, 0), refused(13, 1, 2));
    expect_reply(note, pstp_document_lengths(s.at, s.len, x.place, ROOM, NULL, 0), refused(13, 2, 2));
    expect_reply(note, pstp_document_len(NULL, 0, 3), refused(1, 1, 0));
    expect_reply(note, pstp_df(s.at, s.len, NULL, 0), accepted(0, 0));
    expect_reply(note, pstp_docs_with_term(s.at, s.len, kick, 4, NULL, 0), refused(13, 1, 2));
    expect_reply(note, pstp_docs_with_term(s.at, s.len, NULL, 0, NULL, 0), accepted(0, 0));
    expect_reply(note, pstp_term_postings(s.at, s.len, kick, 4, NULL, 0, NULL, 0, NULL, 0), refused(13, 1, 2));
    expect_reply(note, pstp_term_postings(s.at, s.len, kick, 4, x.place, 2, x.place + 2, 2, NULL, 0), refused(13, 3, 4));
    expect_reply(note, pstp_positions(s.at, s.len, kick, 4, 3, NULL, 0), refused(13, 1, 3));
    expect_reply(note, pstp_phrase_match_strs(s.at, s.len, kick, 4, end, 1, NULL, 0), refused(13, 1, 2));
    expect_reply(note, pstp_phrase_match_strs(s.at, s.len, NULL, 0, NULL, 0, NULL, 0), accepted(0, 0));
    expect_reply(note, pstp_phrase_match_strs(s.at, s.len, NULL, 0, none, 2, NULL, 0), accepted(0, 0));
    expect_reply(note, pstp_phrase_match_ranked(s.at, s.len, kick, 4, end, 1, NULL, 0, NULL, 0), refused(13, 1, 2));
    expect_reply(note, pstp_phrase_match_ranked(s.at, s.len, kick, 4, end, 1, x.place, ROOM, NULL, 0), refused(13, 2, 2));
    expect_reply(note, pstp_phrase_match_ranked(s.at, s.len, NULL, 0, NULL, 0, NULL, 0, NULL, 0), accepted(0, 0));
    expect_reply(note, pstp_near_match(s.at, s.len, kick, 4, kick, 4, 4, NULL, 0), refused(13, 1, 1));
    expect_reply(note, pstp_near_match(s.at, s.len, NULL, 0, NULL, 0, 4, NULL, 0), accepted(0, 0));
    expect_reply(note, pstp_near_match_terms_strs(s.at, s.len, NULL, 0, NULL, 0, 4, true, NULL, 0), accepted(0, 0));
    expect_reply(note, pstp_near_match_terms_strs(s.at, s.len, NULL, 0, none, 2, 4, false, NULL, 0), accepted(0, 0));
    pstp_handle h = pstp_check(s.at, s.len), none_given = pstp_check(NULL, 0);
    expect(note, none_given.kind == 1 && none_given.which == 1 && pstp_open_once(NULL, 0).kind == 1);
    expect_reply(note, pstp_document_len_checked(NULL, 0, none_given, 3), refused(1, 1, 0));
    expect_reply(note, pstp_df_checked(s.at, s.len, h, NULL, 0), accepted(0, 0));
    expect_reply(note, pstp_docs_with_term_checked(s.at, s.len, h, kick, 4, NULL, 0), refused(13, 1, 2));
    expect_reply(note, pstp_docs_with_term_checked(s.at, s.len, h, NULL, 0, NULL, 0), accepted(0, 0));
    expect_reply(note, pstp_term_postings_checked(s.at, s.len, h, kick, 4, NULL, 0, NULL, 0, NULL, 0), refused(13, 1, 2));
    expect_reply(note, pstp_term_postings_checked(s.at, s.len, h, kick, 4, x.place, 2, x.place + 2, 2, NULL, 0), refused(13, 3, 4));
    expect_reply(note, pstp_positions_checked(s.at, s.len, h, kick, 4, 3, NULL, 0), refused(13, 1, 3));
    expect_reply(note, pstp_phrase_match_strs_checked(s.at, s.len, h, kick, 4, end, 1, NULL, 0), refused(13, 1, 2));
    expect_reply(note, pstp_phrase_match_strs_checked(s.at, s.len, h, NULL, 0, none, 2, NULL, 0), accepted(0, 0));
    expect_reply(note, pstp_near_match_checked(s.at, s.len, h, kick, 4, kick, 4, 4, NULL, 0), refused(13, 1, 1));
    expect_reply(note, pstp_near_match_checked(s.at, s.len, h, NULL, 0, NULL, 0, 4, NULL, 0), accepted(0, 0));
    expect_reply(note, pstp_near_match_terms_strs_checked(s.at, s.len, h, NULL, 0, NULL, 0, 4, true, NULL, 0), accepted(0, 0));
    expect_reply(note, pstp_near_match_terms_strs_checked(s.at, s.len, h, NULL, 0, none, 2, 4, false, NULL, 0), accepted(0, 0));
    expect_reply(note, pstp_write_positional_segment(NULL, 0, NULL, 0, NULL, 0, NULL, 0, NULL, 0, NULL, 0, NULL, 0, NULL, 0, NULL, 0),
                 refused(13, 1, 72));
    struct bytes out = {{0}, 72};
    expect_reply(note, pstp_write_positional_segment(NULL, 0, NULL, 0, NULL, 0, NULL, 0, NULL, 0, NULL, 0, NULL, 0, NULL, 0, out.at, 72),
                 accepted(72, 0));
    expect_reply(note,
                 pstp_write_positional_segment_records(NULL, 0, NULL, 0, NULL, 0, NULL, 0, NULL, 0, NULL, 0, NULL, 0, NULL, 0, NULL, 0,
                                                       out.at, 72),
                 accepted(72, 0));
    expect_reply(note, pstp_open(out.at, 72), accepted(0, 0));
    expect_reply(note, pstp_document_lengths(out.at, 72, NULL, 0, NULL, 0), accepted(0, 0));
    struct bytes one_hit = midi(4, "00 90 24 40 00 FF 2F 00"), no_hit = midi(4, "00 FF 2F 00");
    expect_reply(note, pstp_midi_bars(NULL, 0, NULL, 0, NULL, 0, NULL, 0, NULL, 0, NULL, 0, NULL, 0, NULL, 0, NULL, 0, NULL, 0),
                 refused(14, 0, 0));
    expect_reply(note,
                 pstp_midi_bars(no_hit.at, no_hit.len, NULL, 0, NULL, 0, NULL, 0, NULL, 0, NULL, 0, NULL, 0, NULL, 0, NULL, 0, NULL, 0),
                 accepted(0, 0));
    expect_reply(note,
                 pstp_midi_bars(one_hit.at, one_hit.len, NULL, 0, NULL, 0, NULL, 0, NULL, 0, NULL, 0, NULL, 0, NULL, 0, NULL, 0, NULL, 0),
                 refused(13, 1, 1));
    expect_reply(note,
                 pstp_midi_bars(one_hit.at, one_hit.len, x.place, 1, x.place + 1, 1, NULL, 0, NULL, 0, NULL, 0, NULL, 0, NULL, 0, NULL, 0,
                                NULL, 0),
                 refused(13, 3, 4));
    expect_reply(note,
                 pstp_midi_bars(one_hit.at, one_hit.len, x.place, 1, x.place + 1, 1, out.at, 4, x.place + 2, 1, x.place + 3, 1,
                                x.place + 4, 1, x.place + 5, 1, x.place + 6, 1, NULL, 0),
                 refused(13, 9, 1));
    expect_reply(note, pstp_bar_sheet(NULL, 0, 3, NULL, 0), refused(1, 1, 0));
    expect_reply(note, pstp_bar_sheet(s.at, s.len, 3, NULL, 0), refused(13, 1, 243));
    expect_reply(note, pstp_length_of(NULL, 0, NULL, 0, 3), accepted(0, 0));
    expect_reply(note, pstp_length_of(end, 1, NULL, 0, 4), refused(11, 0, 0));
    expect_reply(note, pstp_length_of(NULL, 0, end, 1, 4), refused(11, 0, 0));
    uint32_t pad[PSTP_PAD_WORDS] = {0}, name_ends[PSTP_PAD_SOUNDS] = {0};
    uint8_t sounds[1];
    expect_reply(note, pstp_pad_save(NULL, 0, 3, 4, NULL, 0, NULL, 0, NULL, 0), refused(20, 0, 0));
    expect_reply(note, pstp_pad_erase(NULL, 0, 3), refused(20, 0, 0));
    expect_reply(note, pstp_pad_read(NULL, 0, 3, NULL, 0, NULL, 0, NULL, 0), refused(20, 0, 0));
    expect_reply(note, pstp_pad_write(NULL, 0, NULL, 0, NULL, 0, NULL, 0), refused(20, 0, 0));
    expect_reply(note, pstp_pad_hits(NULL, 0), accepted(0, 0));
    expect_reply(note, pstp_pad_save(pad, PSTP_PAD_WORDS, 3, 4, NULL, 0, NULL, 0, NULL, 0), accepted(0, 0));
    expect_reply(note, pstp_pad_read(pad, PSTP_PAD_WORDS, 3, NULL, 0, NULL, 0, NULL, 0), accepted(0, 4));
    expect_reply(note, pstp_pad_save(pad, PSTP_PAD_WORDS, 4, 4, kick, 1, none, 1, NULL, 0), refused(11, 0, 0));
    expect_reply(note, pstp_pad_save(pad, PSTP_PAD_WORDS, 4, 4, NULL, 0, NULL, 0, kick, 1), refused(11, 0, 0));
    expect_reply(note, pstp_pad_save(pad, PSTP_PAD_WORDS, 4, 4, kick, 1, none, 1, kick, 1), accepted(1, 0));
    expect_reply(note, pstp_pad_read(pad, PSTP_PAD_WORDS, 4, NULL, 0, NULL, 0, NULL, 0), refused(13, 1, 1));
    expect_reply(note, pstp_pad_read(pad, PSTP_PAD_WORDS, 4, sounds, 1, NULL, 0, NULL, 0), refused(13, 2, 1));
    expect_reply(note, pstp_pad_read(pad, PSTP_PAD_WORDS, 4, sounds, 1, x.place, 1, NULL, 0), refused(13, 3, 1));
    expect_reply(note, pstp_pad_write(pad, PSTP_PAD_WORDS, NULL, 0, name_ends, 128, NULL, 0), refused(6, 6, 0));
    expect_reply(note, pstp_pad_write(pad, PSTP_PAD_WORDS, NULL, 0, NULL, 0, NULL, 0), refused(11, 0, 0));
    expect_reply(note, pstp_pad_erase(pad, PSTP_PAD_WORDS, 4), accepted(1, 0));
    expect_reply(note, pstp_pad_write(pad, PSTP_PAD_WORDS, NULL, 0, name_ends, 128, NULL, 0), refused(13, 1, 74));
    expect_filled(note, &x, nowhere, 0);
}
