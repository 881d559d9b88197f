/*
 * What the C programs of the tests have in common: words of buffers, buffers of an exact length, and holding
 * a number to the one it must be. It is C99 and C++11.
 */
#ifndef CHECK_H
#define CHECK_H

#include <stdint.h>
#include <stdio.h>
#include <stdlib.h>
#include <string.h>

#define FILLER 0xa5

/* Fails unless a number is the one it must be. */
static inline void hold(const char *what, size_t which, uint64_t is, uint64_t must_be)
{
    if (is != must_be) {
        printf("%s %lu: %llu, not %llu\n", what, (unsigned long)which, (unsigned long long)is,
               (unsigned long long)must_be);
        exit(1);
    }
}

/* A buffer of just this length; what it holds is not set. */
static inline uint8_t *buffer(size_t length)
{
    uint8_t *bytes = (uint8_t *)malloc(length);
    if (bytes == NULL) {
        printf("no memory\n");
        exit(1);
    }
    return bytes;
}

/* A buffer of just this length, filled. */
static inline uint8_t *filled(size_t length)
{
    uint8_t *bytes = buffer(length);
    memset(bytes, FILLER, length);
    return bytes;
}

/* A buffer of just the first so many bytes of these 32-bit words, each lowest byte first. */
static inline uint8_t *bytes_of(const uint32_t *words, size_t length)
{
    uint8_t *bytes = buffer(length);
    size_t i;
    for (i = 0; i < length; i++) {
        bytes[i] = (uint8_t)(words[i / 4] >> (8 * (i % 4)));
    }
    return bytes;
}

/* A 64-bit word of a ledger or result, lowest byte first. */
static inline uint64_t word(const uint8_t *bytes, size_t number)
{
    uint64_t value = 0;
    size_t i;
    for (i = 8; i > 0; i--) {
        value = 256 * value + bytes[8 * number + i - 1];
    }
    return value;
}

/* Holds bytes from one place to another to the filler. */
static inline void hold_filler(const char *what, const uint8_t *bytes, size_t from, size_t to)
{
    size_t i;
    for (i = from; i < to; i++) {
        hold(what, i, bytes[i], FILLER);
    }
}

#endif
