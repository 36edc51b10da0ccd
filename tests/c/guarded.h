/* Slices that end, or begin, where the memory does: one element too far is a fault, and a fault is a failure that says where. */
#ifndef GUARDED_H
#define GUARDED_H

#include <stdbool.h>
#include <stddef.h>

/* Places for slices that are used at the same time, each between two pages that cannot be touched, and how much they hold. */
enum { GUARDED_PLACES = 8, GUARDED_BYTES = 262144 };

/* A copy at the place's end, or at its beginning. */
void *guarded(unsigned place, bool at_end, const void *from, size_t bytes);

/* What a fault from here on is said to be in: a note that is not empty. */
void watch(const char *note);

#endif
