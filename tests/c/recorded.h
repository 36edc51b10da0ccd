/* A pad beside a plain map: each call runs at the edge of its memory, and after it every word of the pad and every lent place is what it
 * must be. There is one pad, which new_pad empties. */
#ifndef RECORDED_H
#define RECORDED_H

#include "build.h"

/* The hits of a bar, as three lists. */
enum { MOST_HITS = PSTP_PAD_HITS + 8 };
struct hits {
    uint8_t sounds[MOST_HITS];
    uint32_t steps[MOST_HITS];
    uint8_t velocities[MOST_HITS];
    size_t sounds_len, steps_len, velocities_len;
};
struct hits hits(const char *list);         /* "36:2@127 38:3"; without @ a velocity that differs from hit to hit */
struct hits grid(size_t n, uint32_t width); /* n hits: sound 0 on steps 0 to width - 1, then sound 1, and so on */
struct hits louder(const struct hits *hits, uint32_t by); /* every velocity by so many further, and after 127 from 1 on */

/* The names of the 128 sounds: "36=kick 38=snare"; the others are empty. */
struct names sound_names(const char *list);
struct names all_names(void); /* s000 to s127 */

/* Empty: all zeros, or with other words where a pad is free. */
void new_pad(bool zeros);

/* The words as the last call left them. */
const uint32_t *recorded(void);

/* Each call with its reply. What it leaves is that of the map: a refusal and a call that only reads change nothing. The hit counter, asked
 * after each, answers the map's sum. */
void expect_saved(const char *note, uint32_t id, uint32_t length, const struct hits *hits, pstp_reply want);
void expect_erased(const char *note, uint32_t id, pstp_reply want);
void expect_back(const char *note, uint32_t id, size_t sounds_room, size_t steps_room, size_t velocities_room, const struct hits *answer,
                 pstp_reply want);
void expect_segment(const char *note, const struct names *names, size_t room, const uint8_t *answer, pstp_reply want);

/* Writing out is what the writer does with the map's lists, for every room around what is needed. The reply with all the room. */
pstp_reply expect_as_writer(const char *note, const struct names *names);

/* Every bar of the map is read back, and the ids behind them that are not held are unknown. */
void expect_map(const char *note);

/* How many bars and hits the map has, and the hits of one bar, or -1. */
size_t bars_held(void), hits_held(void);
int hits_under(uint32_t id);

#endif
