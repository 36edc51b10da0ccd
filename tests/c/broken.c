#define _DEFAULT_SOURCE
#include "broken.h"
#include "check.h"
#include "guarded.h"

#include <string.h>
#include <sys/mman.h>

enum { LIMIT = 16777216 };

/* Bars 3, 7 and 9: id, length, number of hits, hits. */
const uint32_t three_bars[THREE_BARS] = {
    3, 8, /* bars, hits */
    3, 16, 5, HIT(36, 127), 0, HIT(36, 1), 4, HIT(36, 64), 15, HIT(38, 100), 8, HIT(38, 2), 14, /* from word 2 on */
    7, 16, 3, HIT(36, 90), 2, HIT(38, 126), 3, HIT(38, 5), 4, /* from word 15 on */
    9, 0, 0, /* from word 24 on */
};

uint32_t made[PSTP_PAD_WORDS + 1];
static const uint8_t *long_bytes; /* one more than a list may have */
static const uint32_t *long_words;

void lay_three_bars(uint32_t behind) {
    for (size_t i = 0; i < sizeof made / sizeof made[0]; i++) {
        made[i] = i < THREE_BARS ? three_bars[i] : behind;
    }
}

void lend_long_lists(void) {
    void *untouched = mmap(NULL, 5 * (size_t)LIMIT, PROT_READ, MAP_PRIVATE | MAP_ANONYMOUS | MAP_NORESERVE, -1, 0);
    long_bytes = untouched;
    long_words = untouched;
}

void release_long_lists(void) {
    munmap((void *)long_bytes, 5 * (size_t)LIMIT);
}

void expect_stored(const char *note, const uint32_t *pad, size_t len) {
    expect_reply(note, pstp_pad_hits(pad, len), accepted(len > PSTP_PAD_HIT_COUNT ? made[PSTP_PAD_HIT_COUNT] : 0, 0));
}

void expect_broken(const char *note, uint32_t *pad, size_t len) {
    const uint8_t sounds[] = {5, 128}, loud[] = {1, 0}, text[] = {'a', 0xFF};
    const uint32_t steps[] = {0, 99};
    struct lent places = lent();
    struct bytes out = lent_bytes();
    uint8_t back[16], loud_back[16];
    uint32_t rising[PSTP_PAD_SOUNDS + 1], falling[PSTP_PAD_SOUNDS];
    pstp_reply want = refused(PSTP_BROKEN_PAD, 0, 0);
    for (uint32_t i = 0; i <= PSTP_PAD_SOUNDS; i++) {
        rising[i] = i < 36 ? 0 : i < 38 ? 1 : 2;
        falling[i % PSTP_PAD_SOUNDS] = i < 64 ? 2 : 0;
    }
    memset(back, 0x5A, sizeof back);
    memset(loud_back, 0x5A, sizeof loud_back);
    watch(note);
    expect_stored(note, pad, len);
    for (uint32_t id = 2; id <= 9; id++) {
        expect_reply(note, pstp_pad_save(pad, len, id, 4, sounds, 1, steps, 1, loud, 1), want);
        expect_reply(note, pstp_pad_save(pad, len, id, 4, sounds, 0, steps, 0, loud, 0), want);
        expect_reply(note, pstp_pad_save(pad, len, id, 4, sounds, 2, steps, 2, loud, 2), want);
        expect_reply(note, pstp_pad_save(pad, len, id, 4, sounds, 1, steps, 1, loud + 1, 1), want);
        expect_reply(note, pstp_pad_save(pad, len, id, 4, sounds, 1, steps, 2, loud, 1), want);
        expect_reply(note, pstp_pad_save(pad, len, id, 4, sounds, 1, steps, 1, loud, 2), want);
        expect_reply(note, pstp_pad_save(pad, len, id, 4, long_bytes, LIMIT + 1, steps, 1, loud, 1), want);
        expect_reply(note, pstp_pad_save(pad, len, id, 4, sounds, 1, steps, 1, long_bytes, LIMIT + 1), want);
        expect_reply(note, pstp_pad_save(pad, len, id, 4, long_bytes, LIMIT + 1, long_words, LIMIT + 1, long_bytes, LIMIT + 1), want);
        expect_reply(note, pstp_pad_erase(pad, len, id), want);
        expect_reply(note, pstp_pad_read(pad, len, id, back, 16, places.place, ROOM, loud_back, 16), want);
        expect_reply(note, pstp_pad_read(pad, len, id, back, 0, places.place, ROOM, loud_back, 16), want);
        expect_reply(note, pstp_pad_read(pad, len, id, back, 16, places.place, 0, loud_back, 16), want);
        expect_reply(note, pstp_pad_read(pad, len, id, back, 16, places.place, ROOM, loud_back, 0), want);
    }
    expect_reply(note, pstp_pad_write(pad, len, text, 1, rising, PSTP_PAD_SOUNDS, out.at, sizeof out.at), want);
    expect_reply(note, pstp_pad_write(pad, len, text, 2, rising, PSTP_PAD_SOUNDS, out.at, sizeof out.at), want);
    expect_reply(note, pstp_pad_write(pad, len, text, 2, rising, PSTP_PAD_SOUNDS, out.at, 0), want);
    expect_reply(note, pstp_pad_write(pad, len, text, 2, falling, PSTP_PAD_SOUNDS, out.at, sizeof out.at), want);
    expect_reply(note, pstp_pad_write(pad, len, text, 2, rising, PSTP_PAD_SOUNDS + 1, out.at, sizeof out.at), want);
    expect_reply(note, pstp_pad_write(pad, len, text, 0, rising, 0, out.at, sizeof out.at), want);
    expect_reply(note, pstp_pad_write(pad, len, long_bytes, LIMIT + 1, rising, PSTP_PAD_SOUNDS, out.at, 0), want);
    expect_reply(note, pstp_pad_write(pad, len, text, 2, long_words, LIMIT + 1, out.at, 0), want);
    expect_stored(note, pad, len);
    expect_filled(note, &places, nowhere, 0);
    expect_written(note, &out, &out, 0);
    expect(note, back[0] == 0x5A && memcmp(back, back + 1, sizeof back - 1) == 0 && memcmp(loud_back, back, sizeof back) == 0);
}

void expect_words_broken(const char *note, size_t len) {
    for (int at_end = 0; at_end <= 1; at_end++) {
        uint32_t *pad = guarded(0, at_end, made, len * sizeof made[0]);
        expect_broken(note, pad, len);
        expect(note, memcmp(pad, made, len * sizeof made[0]) == 0);
    }
}
