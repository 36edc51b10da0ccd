/* Test inputs from readable text, and segments put together byte by byte: nothing here calls the library. */
#ifndef BUILD_H
#define BUILD_H

#include "pstp.h"

struct bytes {
    uint8_t at[2048];
    size_t len;
};

struct numbers {
    uint32_t at[256];
    size_t len;
};

struct names {
    struct bytes text;
    struct numbers ends;
};

struct bytes hex(const char *digits);        /* "03 10" */
struct numbers numbers(const char *list);    /* "3 7" */
struct names names(const char *words);       /* "kick snare" */

void append(struct bytes *to, const void *from, size_t len);
void put(struct bytes *to, size_t at, const char *digits);
uint32_t crc32(const uint8_t *bytes, size_t len);

/* A directory entry; its list's checksum is worked out. */
struct entry {
    uint32_t name_at, name_len;
    uint64_t list_at, list_len;
    uint32_t df;
};

/* A segment by its parts, all checksums right. A row of a table names the parts that it needs. */
struct parts {
    uint32_t documents;
    const char *metadata; /* hex */
    uint32_t terms;
    const char *names; /* plain text */
    const char *lists; /* hex */
    struct entry entry[4];
    size_t entries;
};
struct bytes assemble(struct parts parts);

/* The checksums of the header, and of each list, made to fit what stands in the sections. */
void repair(struct bytes *segment);

/* The two bars of docs/FORMAT.md, byte by byte: (3, 16), (7, 16); kick in 3 on 0, 4, 15, in 7 on 2; snare in 3 on 8, 14, in 7 on 3, 4. */
struct bytes two_bars(void);

/* Unlike numbers throughout: documents (2, 5), (9, 300), (70000, 4096), and hat in 9 on 0, 128, 299. */
struct bytes uneven(void);

/* A MIDI file of format 0 and one track: this division, and these events (hex). The first event is at offset 22. */
struct bytes midi(uint32_t division, const char *events);

/* A file whose events were appended one by one: the end of track behind them, and the heading's length. */
void close_track(struct bytes *file);

#endif
