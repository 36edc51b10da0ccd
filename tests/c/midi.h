/* What the tests of MIDI files share: a file imported into lent buffers, whose every place is watched. */
#ifndef MIDI_H
#define MIDI_H

#include "build.h"
#include "check.h"

/* The nine lists that a file becomes. */
enum { LISTS = 9 };
struct lists {
    struct numbers ids, lengths;
    struct bytes text;
    struct numbers ends, posting_counts, posting_ids, position_counts, positions;
    struct bytes velocities;
};

/* Those of some hits, given by note, then step from the beginning of the file: "36@0:127 36@1". Without a velocity it is 64. */
struct lists bars_of(const char *hits);

/* Accepted with places enough, and nothing but the lists is filled. With a place too few in a buffer it is 13 for that buffer, and every
 * buffer is as it was. */
void expect_bars(const char *note, const struct bytes *file, const struct lists *want);

/* Refused, with places and without; every buffer is as it was. */
void expect_no_bars(const char *note, const struct bytes *file, pstp_reply want);

#endif
