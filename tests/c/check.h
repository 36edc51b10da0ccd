/* What every test of this folder uses: expectations that are counted, and lent buffers whose every place is watched. */
#ifndef CHECK_H
#define CHECK_H

#include "build.h"

/* How many expectations held, and how many did not; each of the latter prints a line. */
extern unsigned passed, failed;

void expect(const char *note, bool ok);

pstp_reply accepted(uint64_t first, uint64_t second); /* third and fourth are 0 */
pstp_reply accepted_four(uint64_t first, uint64_t second, uint64_t third, uint64_t fourth);
pstp_reply refused(uint32_t kind, uint32_t which, uint64_t index);
void expect_reply(const char *note, pstp_reply got, pstp_reply want);

/* A buffer to lend: each place has a value of its own, so that a place written to, or moved, is seen. */
enum { ROOM = 256 };
struct lent {
    uint32_t place[ROOM];
};
struct lent lent(void);

/* The first n places are the answer, the others as lent. n = 0: untouched. */
void expect_filled(const char *note, const struct lent *buffer, const uint32_t *answer, size_t n);

/* The same with bytes. */
struct bytes lent_bytes(void);
void expect_written(const char *note, const struct bytes *buffer, const struct bytes *answer, size_t n);

/* Any address: what an empty slice points to. */
extern uint32_t nowhere[1];
extern uint8_t no_bytes[1];

/* The tests, a file each. */
void test_opening(void);
void test_decoding(void);
void test_reading(void);
void test_searching(void);
void test_ranked(void);
void test_writing(void);
void test_midi(void);
void test_midi_events(void);
void test_midi_velocity(void);
void test_midi_limits(void);
void test_sheet(void);
void test_lookup(void);
void test_pad(void);
void test_pad_velocity(void);
void test_pad_broken(void);
void test_pad_limits(void);
void test_handles(void);
void test_limits(void);
void test_empty(void);
void test_stack(void);

#endif
