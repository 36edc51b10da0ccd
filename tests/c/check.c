#include "check.h"

#include <inttypes.h>
#include <stdio.h>
#include <string.h>

unsigned passed, failed;
uint32_t nowhere[1];
uint8_t no_bytes[1];

void expect(const char *note, bool ok) {
    if (ok) {
        passed++;
    } else {
        failed++;
        printf("FAILED %s\n", note);
    }
}

pstp_reply accepted(uint64_t first, uint64_t second) {
    return accepted_four(first, second, 0, 0);
}

pstp_reply accepted_four(uint64_t first, uint64_t second, uint64_t third, uint64_t fourth) {
    pstp_reply r = {PSTP_ACCEPTED, 0, 0, first, second, third, fourth};
    return r;
}

pstp_reply refused(uint32_t kind, uint32_t which, uint64_t index) {
    pstp_reply r = {kind, which, index, 0, 0, 0, 0};
    return r;
}

static void print_reply(const char *what, pstp_reply r) {
    printf("  %s %" PRIu32 " %" PRIu32 " %" PRIu64 ", %" PRIu64 " %" PRIu64 " %" PRIu64 " %" PRIu64 "\n", what, r.kind, r.which, r.index,
           r.first, r.second, r.third, r.fourth);
}

void expect_reply(const char *note, pstp_reply got, pstp_reply want) {
    bool same = got.kind == want.kind && got.which == want.which && got.index == want.index && got.first == want.first
        && got.second == want.second && got.third == want.third && got.fourth == want.fourth;
    expect(note, same);
    if (!same) {
        print_reply("got ", got);
        print_reply("want", want);
    }
}

static uint32_t mark(size_t i) {
    return 0xC0DE0000u + (uint32_t)i;
}

struct lent lent(void) {
    struct lent buffer;
    for (size_t i = 0; i < ROOM; i++) {
        buffer.place[i] = mark(i);
    }
    return buffer;
}

void expect_filled(const char *note, const struct lent *buffer, const uint32_t *answer, size_t n) {
    bool same = true;
    for (size_t i = 0; i < ROOM; i++) {
        same = same && buffer->place[i] == (i < n ? answer[i] : mark(i));
    }
    expect(note, same);
}

struct bytes lent_bytes(void) {
    struct bytes buffer = {{0}, 0};
    for (size_t i = 0; i < sizeof buffer.at; i++) {
        buffer.at[i] = (uint8_t)(0xA0 ^ i ^ (i >> 8));
    }
    return buffer;
}

void expect_written(const char *note, const struct bytes *buffer, const struct bytes *answer, size_t n) {
    struct bytes whole = lent_bytes();
    memcpy(whole.at, answer->at, n);
    expect(note, memcmp(buffer->at, whole.at, sizeof whole.at) == 0);
}

int main(void) {
    expect("a reply has 48 bytes", sizeof(pstp_reply) == 48);
    test_opening();
    test_decoding();
    test_reading();
    test_searching();
    test_ranked();
    test_writing();
    test_midi();
    test_midi_events();
    test_midi_velocity();
    test_midi_limits();
    test_sheet();
    test_lookup();
    test_pad();
    test_pad_velocity();
    test_pad_broken();
    test_pad_limits();
    test_handles();
    test_limits();
    test_empty();
    test_stack();
    printf("%u passed, %u failed\n", passed, failed);
    return failed == 0 ? 0 : 1;
}
