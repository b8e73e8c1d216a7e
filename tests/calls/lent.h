/* Slices that are lent to a call, with guard bytes on both sides. */
#ifndef LENT_H
#define LENT_H

#include <stdint.h>
#include <stdio.h>
#include <stdlib.h>
#include <string.h>

#define GUARD_BYTES 64
/* Byte i of the pattern is i % PERIOD + 1: a prime, so that no run of a power of two bytes repeats it, and never 0. */
#define PERIOD 251

struct lent {
    uint8_t *whole;  /* guard, bytes, guard */
    uint8_t *before; /* the same, as it was lent */
    uint8_t *bytes;
    size_t length;
};

static inline void *need(size_t length) {
    void *found = malloc(length);
    if (found == NULL) {
        fprintf(stderr, "calls: no memory\n");
        exit(2);
    }
    return found;
}

/* A slice of these bytes, or of the pattern where there are none. */
static inline struct lent lend(const uint8_t *bytes, size_t length) {
    size_t whole = length + 2 * GUARD_BYTES;
    struct lent slice = {need(whole), need(whole), NULL, length};
    for (size_t i = 0; i < whole; i++) {
        slice.whole[i] = (uint8_t)(i % PERIOD + 1);
    }
    slice.bytes = slice.whole + GUARD_BYTES;
    if (bytes != NULL) {
        memcpy(slice.bytes, bytes, length);
    }
    memcpy(slice.before, slice.whole, whole);
    return slice;
}

/* Both guards are as they were, and the slice from that byte on. */
static inline int stays(const struct lent *slice, size_t from) {
    size_t behind = GUARD_BYTES + from;
    return from <= slice->length && memcmp(slice->whole, slice->before, GUARD_BYTES) == 0
        && memcmp(slice->whole + behind, slice->before + behind, slice->length - from + GUARD_BYTES) == 0;
}

static inline void take_back(struct lent *slice) {
    free(slice->whole);
    free(slice->before);
}

#endif
