#include "build.h"

#include <stdlib.h>
#include <string.h>

void append(struct bytes *to, const void *from, size_t len) {
    if (len > sizeof to->at - to->len) {
        abort();
    }
    if (len > 0) {
        memcpy(to->at + to->len, from, len);
    }
    to->len += len;
}

struct bytes hex(const char *digits) {
    struct bytes b = {{0}, 0};
    for (const char *next = digits; digits && *next;) {
        char *end;
        uint8_t byte = (uint8_t)strtoul(next, &end, 16);
        append(&b, &byte, 1);
        next = *end == ' ' ? end + 1 : end;
    }
    return b;
}

struct numbers numbers(const char *list) {
    struct numbers n = {{0}, 0};
    for (const char *next = list; *next;) {
        char *end;
        if (n.len == sizeof n.at / sizeof n.at[0]) {
            abort();
        }
        n.at[n.len++] = (uint32_t)strtoul(next, &end, 10);
        next = *end == ' ' ? end + 1 : end;
    }
    return n;
}

struct names names(const char *words) {
    struct names n = {{{0}, 0}, {{0}, 0}};
    while (*words) {
        size_t len = strcspn(words, " ");
        append(&n.text, words, len);
        n.ends.at[n.ends.len++] = (uint32_t)n.text.len;
        words += len + (words[len] == ' ');
    }
    return n;
}

void put(struct bytes *to, size_t at, const char *digits) {
    struct bytes b = hex(digits);
    if (at + b.len > sizeof to->at) {
        abort();
    }
    memcpy(to->at + at, b.at, b.len);
}

/* CRC-32 of IEEE 802.3, bit by bit. */
uint32_t crc32(const uint8_t *bytes, size_t len) {
    uint32_t r = 0xFFFFFFFFu;
    for (size_t i = 0; i < len; i++) {
        r ^= bytes[i];
        for (int k = 0; k < 8; k++) {
            r = (r >> 1) ^ ((r & 1) ? 0xEDB88320u : 0);
        }
    }
    return ~r;
}

static void put_little(uint8_t *at, uint64_t value, int bytes) {
    for (int i = 0; i < bytes; i++) {
        at[i] = (uint8_t)(value >> (8 * i));
    }
}

static uint64_t little(const uint8_t *at, int bytes) {
    uint64_t value = 0;
    for (int i = 0; i < bytes; i++) {
        value |= (uint64_t)at[i] << (8 * i);
    }
    return value;
}

void repair(struct bytes *segment) {
    uint8_t *at = segment->at;
    size_t directory = (size_t)little(at + 24, 8);
    size_t lists_len = (size_t)little(at + 48, 8);
    const uint8_t *lists = at + segment->len - lists_len;
    for (size_t entry = 72; entry < 72 + directory; entry += 32) {
        uint64_t from = little(at + entry + 8, 8);
        uint64_t len = little(at + entry + 16, 8);
        if (from <= lists_len && len <= lists_len - from) {
            put_little(at + entry + 28, crc32(lists + from, (size_t)len), 4);
        }
    }
    const uint8_t *section = at + 72;
    for (int i = 0; i < 4; i++) {
        size_t len = (size_t)little(at + 24 + 8 * i, 8);
        put_little(at + 56 + 4 * i, crc32(section, len), 4);
        section += len;
    }
}

struct bytes assemble(struct parts parts) {
    struct bytes segment = {{0}, 72};
    struct bytes metadata = hex(parts.metadata);
    struct bytes lists = hex(parts.lists);
    size_t names_len = parts.names ? strlen(parts.names) : 0;
    memcpy(segment.at, "PSTP0001", 8);
    put_little(segment.at + 8, 2, 4);
    put_little(segment.at + 16, parts.documents, 4);
    put_little(segment.at + 20, parts.terms, 4);
    put_little(segment.at + 24, 32 * parts.entries, 8);
    put_little(segment.at + 32, names_len, 8);
    put_little(segment.at + 40, metadata.len, 8);
    put_little(segment.at + 48, lists.len, 8);
    for (size_t i = 0; i < parts.entries; i++) {
        uint8_t entry[32] = {0};
        put_little(entry, parts.entry[i].name_at, 4);
        put_little(entry + 4, parts.entry[i].name_len, 4);
        put_little(entry + 8, parts.entry[i].list_at, 8);
        put_little(entry + 16, parts.entry[i].list_len, 8);
        put_little(entry + 24, parts.entry[i].df, 4);
        append(&segment, entry, 32);
    }
    append(&segment, parts.names, names_len);
    append(&segment, metadata.at, metadata.len);
    append(&segment, lists.at, lists.len);
    repair(&segment);
    return segment;
}

/* The checksums in these two were worked out with zlib. */
struct bytes two_bars(void) {
    return hex("50 53 54 50 30 30 30 31 02 00 00 00 00 00 00 00 02 00 00 00 02 00 00 00 "
               "40 00 00 00 00 00 00 00 09 00 00 00 00 00 00 00 04 00 00 00 00 00 00 00 10 00 00 00 00 00 00 00 "
               "B3 AA 9A DD 3D 2C B9 23 E2 06 0C 56 17 2A 07 BE "
               "00 00 00 00 04 00 00 00 00 00 00 00 00 00 00 00 08 00 00 00 00 00 00 00 02 00 00 00 67 1B D8 08 "
               "04 00 00 00 05 00 00 00 08 00 00 00 00 00 00 00 08 00 00 00 00 00 00 00 02 00 00 00 02 9E ED CF "
               "6B 69 63 6B 73 6E 61 72 65 "
               "03 10 04 10 "
               "03 03 00 04 0B 04 01 02 03 02 08 06 04 02 03 01");
}

struct bytes uneven(void) {
    return hex("50 53 54 50 30 30 30 31 02 00 00 00 00 00 00 00 03 00 00 00 01 00 00 00 "
               "20 00 00 00 00 00 00 00 03 00 00 00 00 00 00 00 0A 00 00 00 00 00 00 00 07 00 00 00 00 00 00 00 "
               "E4 07 C9 4B 49 AC 0B 92 12 36 9C 10 BB 61 0F 58 "
               "00 00 00 00 03 00 00 00 00 00 00 00 00 00 00 00 07 00 00 00 00 00 00 00 01 00 00 00 BB 61 0F 58 "
               "68 61 74 "
               "02 05 07 AC 02 E7 A2 04 80 20 "
               "09 03 00 80 01 AB 01");
}

static void set_track_length(struct bytes *file) {
    file->at[20] = (uint8_t)((file->len - 22) >> 8);
    file->at[21] = (uint8_t)(file->len - 22);
}

struct bytes midi(uint32_t division, const char *events) {
    struct bytes file = hex("4D 54 68 64 00 00 00 06 00 00 00 01 00 00 4D 54 72 6B 00 00 00 00");
    struct bytes track = hex(events);
    file.at[12] = (uint8_t)(division >> 8);
    file.at[13] = (uint8_t)division;
    append(&file, track.at, track.len);
    set_track_length(&file);
    return file;
}

void close_track(struct bytes *file) {
    append(file, "\x00\xFF\x2F\x00", 4);
    set_track_length(file);
}
