/* Words that are no pad: made from three bars, put to every call, and left as they were. */
#ifndef BROKEN_H
#define BROKEN_H

#include "build.h"

/* A hit's first word. */
#define HIT(sound, velocity) ((sound) + (uint32_t)PSTP_PAD_VELOCITY_UNIT * (velocity))

/* Bars 3, 7 and 9, and a place for a word more than a pad has. */
enum { THREE_BARS = 27 };
extern const uint32_t three_bars[THREE_BARS];
extern uint32_t made[PSTP_PAD_WORDS + 1];

/* Makes the three bars, with this word in every place behind them, which is free. */
void lay_three_bars(uint32_t behind);

/* Before expect_words_broken and after it: the longest lists. */
void lend_long_lists(void), release_long_lists(void);

/* The counter answers word 1 as it is stored, if there is one; every other call answers 20, with nothing else wrong and with each other
 * refusal beside it. The second form tries the words made so far at both edges of their memory; they stay as they are. */
void expect_stored(const char *note, const uint32_t *pad, size_t len);
void expect_broken(const char *note, uint32_t *pad, size_t len);
void expect_words_broken(const char *note, size_t len);

#endif
