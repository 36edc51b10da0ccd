#include "recorded.h"
#include "check.h"
#include "guarded.h"

#include <stdio.h>
#include <stdlib.h>
#include <string.h>

static uint32_t pad[PSTP_PAD_WORDS];  /* as the calls left it */
static uint32_t must[PSTP_PAD_WORDS]; /* as it must be */
static bool at_end;                   /* where the slices of a call lie in their memory: each time at the other edge */

/* The map, by rising id. */
static struct {
    uint32_t id, length;
    struct hits *hits;
} map[PSTP_PAD_BARS];
static size_t bars;

/* Hits side by side have different velocities, so that one in a wrong place is seen. */
static uint8_t some_velocity(uint32_t sound, uint32_t step) {
    return (uint8_t)(1 + (31 * (sound % 127) + 17 * (step % 127)) % 127);
}

struct hits hits(const char *list) {
    static struct hits h;
    size_t n = 0;
    for (const char *next = list; *next; n++) {
        char *end;
        h.sounds[n] = (uint8_t)strtoul(next, &end, 10);
        h.steps[n] = (uint32_t)strtoul(end + 1, &end, 10);
        h.velocities[n] = *end == '@' ? (uint8_t)strtoul(end + 1, &end, 10) : some_velocity(h.sounds[n], h.steps[n]);
        next = *end == ' ' ? end + 1 : end;
    }
    h.sounds_len = h.steps_len = h.velocities_len = n;
    return h;
}

struct hits grid(size_t n, uint32_t width) {
    static struct hits h;
    for (size_t i = 0; i < n; i++) {
        h.sounds[i] = (uint8_t)(i / width);
        h.steps[i] = (uint32_t)(i % width);
        h.velocities[i] = some_velocity(h.sounds[i], h.steps[i]);
    }
    h.sounds_len = h.steps_len = h.velocities_len = n;
    return h;
}

struct hits louder(const struct hits *from, uint32_t by) {
    static struct hits h;
    h = *from;
    for (size_t i = 0; i < h.velocities_len; i++) {
        h.velocities[i] = (uint8_t)(1 + (h.velocities[i] - 1 + by) % 127);
    }
    return h;
}

struct names sound_names(const char *list) {
    struct names n = {{{0}, 0}, {{0}, 0}};
    for (uint32_t sound = 0; sound < PSTP_PAD_SOUNDS; sound++) {
        char *name;
        if (*list && strtoul(list, &name, 10) == sound) {
            size_t len = strcspn(++name, " ");
            append(&n.text, name, len);
            list = name + len + (name[len] == ' ');
        }
        n.ends.at[n.ends.len++] = (uint32_t)n.text.len;
    }
    return n;
}

struct names all_names(void) {
    struct names n = {{{0}, 0}, {{0}, 0}};
    for (unsigned sound = 0; sound < PSTP_PAD_SOUNDS; sound++) {
        char name[8];
        append(&n.text, name, (size_t)sprintf(name, "s%03u", sound));
        n.ends.at[n.ends.len++] = (uint32_t)n.text.len;
    }
    return n;
}

void new_pad(bool zeros) {
    while (bars > 0) {
        free(map[--bars].hits);
    }
    for (size_t i = 0; i < PSTP_PAD_WORDS; i++) {
        must[i] = zeros || i < PSTP_PAD_FIRST_BAR ? 0 : 0xC0DE0000u + (uint32_t)i;
    }
    memcpy(pad, must, sizeof pad);
}

const uint32_t *recorded(void) {
    return pad;
}

size_t bars_held(void) {
    return bars;
}

size_t hits_held(void) {
    size_t sum = 0;
    for (size_t i = 0; i < bars; i++) {
        sum += map[i].hits->sounds_len;
    }
    return sum;
}

/* The bar of this id, or the first of a higher one. */
static size_t place_of(uint32_t id) {
    size_t i = 0;
    while (i < bars && map[i].id < id) {
        i++;
    }
    return i;
}

int hits_under(uint32_t id) {
    size_t at = place_of(id);
    return at < bars && map[at].id == id ? (int)map[at].hits->sounds_len : -1;
}

/* The map in the header's layout; the words behind it are as they were. */
static void lay_out(void) {
    uint32_t *bar = must + PSTP_PAD_FIRST_BAR;
    must[PSTP_PAD_BAR_COUNT] = (uint32_t)bars;
    must[PSTP_PAD_HIT_COUNT] = (uint32_t)hits_held();
    for (size_t i = 0; i < bars; i++) {
        uint32_t *hit = bar + PSTP_PAD_BAR_WORDS;
        bar[PSTP_PAD_BAR_ID] = map[i].id;
        bar[PSTP_PAD_BAR_LENGTH] = map[i].length;
        bar[PSTP_PAD_BAR_HITS] = (uint32_t)map[i].hits->sounds_len;
        for (size_t k = 0; k < map[i].hits->sounds_len; k++, hit += PSTP_PAD_HIT_WORDS) {
            hit[PSTP_PAD_HIT_SOUND_VELOCITY] = map[i].hits->sounds[k] + PSTP_PAD_VELOCITY_UNIT * (uint32_t)map[i].hits->velocities[k];
            hit[PSTP_PAD_HIT_STEP] = map[i].hits->steps[k];
        }
        bar = hit;
    }
}

static void expect_words(const char *note) {
    expect(note, memcmp(pad, must, sizeof pad) == 0);
    uint32_t *words = guarded(0, at_end, pad, sizeof pad);
    expect_reply(note, pstp_pad_hits(words, PSTP_PAD_WORDS), accepted(hits_held(), 0));
    expect(note, memcmp(words, pad, sizeof pad) == 0);
}

void expect_saved(const char *note, uint32_t id, uint32_t length, const struct hits *h, pstp_reply want) {
    watch(note);
    at_end = !at_end;
    uint32_t *words = guarded(0, at_end, pad, sizeof pad);
    const uint8_t *sounds = guarded(1, at_end, h->sounds, h->sounds_len);
    const uint32_t *steps = guarded(2, at_end, h->steps, h->steps_len * sizeof *steps);
    const uint8_t *velocities = guarded(3, at_end, h->velocities, h->velocities_len);
    pstp_reply got = pstp_pad_save(words, PSTP_PAD_WORDS, id, length, sounds, h->sounds_len, steps, h->steps_len, velocities,
                                   h->velocities_len);
    expect_reply(note, got, want);
    memcpy(pad, words, sizeof pad);
    if (want.kind == PSTP_ACCEPTED) {
        size_t at = place_of(id);
        memmove(&map[at + 1], &map[at], (bars++ - at) * sizeof map[0]);
        map[at].id = id;
        map[at].length = length;
        map[at].hits = malloc(sizeof *h);
        *map[at].hits = *h;
        lay_out();
    }
    expect_words(note);
}

void expect_erased(const char *note, uint32_t id, pstp_reply want) {
    watch(note);
    at_end = !at_end;
    uint32_t *words = guarded(0, at_end, pad, sizeof pad);
    expect_reply(note, pstp_pad_erase(words, PSTP_PAD_WORDS, id), want);
    memcpy(pad, words, sizeof pad);
    if (want.kind == PSTP_ACCEPTED) {
        size_t at = place_of(id);
        free(map[at].hits);
        memmove(&map[at], &map[at + 1], (--bars - at) * sizeof map[0]);
        lay_out();
    }
    expect_words(note);
}

static uint8_t byte_mark(size_t i) {
    return (uint8_t)(0xA0 ^ i ^ (i >> 8));
}

void expect_back(const char *note, uint32_t id, size_t sounds_room, size_t steps_room, size_t velocities_room, const struct hits *answer,
                 pstp_reply want) {
    static struct hits lent_hits;
    size_t n = want.kind == PSTP_ACCEPTED ? answer->sounds_len : 0;
    bool same = true;
    for (size_t i = 0; i < MOST_HITS; i++) {
        lent_hits.sounds[i] = byte_mark(i);
        lent_hits.steps[i] = 0xC0DE0000u + (uint32_t)i;
        lent_hits.velocities[i] = byte_mark(i + 8);
    }
    watch(note);
    at_end = !at_end;
    uint32_t *words = guarded(0, at_end, pad, sizeof pad);
    uint8_t *sounds = guarded(1, at_end, lent_hits.sounds, sounds_room);
    uint32_t *steps = guarded(2, at_end, lent_hits.steps, steps_room * sizeof *steps);
    uint8_t *velocities = guarded(3, at_end, lent_hits.velocities, velocities_room);
    pstp_reply got = pstp_pad_read(words, PSTP_PAD_WORDS, id, sounds, sounds_room, steps, steps_room, velocities, velocities_room);
    expect_reply(note, got, want);
    memcpy(pad, words, sizeof pad);
    for (size_t i = 0; i < sounds_room; i++) {
        same = same && sounds[i] == (i < n ? answer->sounds[i] : lent_hits.sounds[i]);
    }
    for (size_t i = 0; i < steps_room; i++) {
        same = same && steps[i] == (i < n ? answer->steps[i] : lent_hits.steps[i]);
    }
    for (size_t i = 0; i < velocities_room; i++) {
        same = same && velocities[i] == (i < n ? answer->velocities[i] : lent_hits.velocities[i]);
    }
    expect(note, same);
    expect_words(note);
}

void expect_segment(const char *note, const struct names *names, size_t room, const uint8_t *answer, pstp_reply want) {
    static uint8_t lent_out[GUARDED_BYTES];
    size_t n = want.kind == PSTP_ACCEPTED ? (size_t)want.first : 0;
    for (size_t i = 0; i < room; i++) {
        lent_out[i] = byte_mark(i);
    }
    watch(note);
    at_end = !at_end;
    uint32_t *words = guarded(0, at_end, pad, sizeof pad);
    const uint8_t *text = guarded(1, at_end, names->text.at, names->text.len);
    const uint32_t *ends = guarded(2, at_end, names->ends.at, names->ends.len * sizeof *ends);
    uint8_t *out = guarded(3, at_end, lent_out, room);
    expect_reply(note, pstp_pad_write(words, PSTP_PAD_WORDS, text, names->text.len, ends, names->ends.len, out, room), want);
    memcpy(pad, words, sizeof pad);
    expect(note, (n == 0 || memcmp(out, answer, n) == 0) && memcmp(out + n, lent_out + n, room - n) == 0);
    expect_words(note);
}

/* The writer on the map's lists, with the names of the sounds that have hits. */
static pstp_reply write_map(const struct names *names, uint8_t *out, size_t room) {
    static uint32_t ids[PSTP_PAD_BARS], lengths[PSTP_PAD_BARS], posting_ids[PSTP_PAD_HITS], counts[PSTP_PAD_HITS], steps[PSTP_PAD_HITS];
    struct names used = {{{0}, 0}, {{0}, 0}};
    struct numbers posting_counts = {{0}, 0};
    size_t postings = 0, positions = 0;
    for (size_t i = 0; i < bars; i++) {
        ids[i] = map[i].id;
        lengths[i] = map[i].length;
    }
    for (uint32_t sound = 0; sound < PSTP_PAD_SOUNDS; sound++) {
        size_t before = postings;
        for (size_t i = 0; i < bars; i++) {
            size_t hits_before = positions;
            for (size_t k = 0; k < map[i].hits->sounds_len; k++) {
                if (map[i].hits->sounds[k] == sound) {
                    steps[positions++] = map[i].hits->steps[k];
                }
            }
            if (positions > hits_before) {
                posting_ids[postings] = map[i].id;
                counts[postings++] = (uint32_t)(positions - hits_before);
            }
        }
        if (postings > before) {
            uint32_t from = sound > 0 ? names->ends.at[sound - 1] : 0;
            append(&used.text, names->text.at + from, names->ends.at[sound] - from);
            used.ends.at[used.ends.len++] = (uint32_t)used.text.len;
            posting_counts.at[posting_counts.len++] = (uint32_t)(postings - before);
        }
    }
    return pstp_write_positional_segment(ids, bars, lengths, bars, used.text.at, used.text.len, used.ends.at, used.ends.len,
                                         posting_counts.at, posting_counts.len, posting_ids, postings, counts, postings, steps, positions,
                                         out, room);
}

pstp_reply expect_as_writer(const char *note, const struct names *names) {
    static uint8_t out[GUARDED_BYTES];
    pstp_reply whole = write_map(names, out, sizeof out);
    size_t n = (size_t)whole.first;
    expect(note, whole.kind != PSTP_ACCEPTED || n <= 129608 + names->text.len);
    expect_segment(note, names, sizeof out, out, whole);
    if (whole.kind == PSTP_ACCEPTED) {
        expect_segment(note, names, n + 1, out, whole);
        expect_segment(note, names, n, out, whole);
        expect_segment(note, names, n - 1, out, refused(PSTP_NO_ROOM, 1, n));
        expect_segment(note, names, 0, out, refused(PSTP_NO_ROOM, 1, n));
    } else {
        expect_segment(note, names, 0, out, whole);
    }
    return whole;
}

void expect_map(const char *note) {
    for (size_t i = 0; i < bars; i++) {
        size_t n = map[i].hits->sounds_len;
        expect_back(note, map[i].id, n, n, n, map[i].hits, accepted(n, map[i].length));
        if (hits_under(map[i].id + 1) < 0) {
            expect_back(note, map[i].id + 1, MOST_HITS, MOST_HITS, MOST_HITS, NULL, refused(PSTP_UNKNOWN_BAR, 0, 0));
        }
    }
}
