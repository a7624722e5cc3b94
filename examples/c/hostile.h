/* What the programs with hostile input share: parts in blocks of exactly their length, numbers that look random, and stores. */
#ifndef HOSTILE_H
#define HOSTILE_H

#include <inttypes.h>
#include <stdio.h>
#include <stdlib.h>
#include <string.h>

#include "daybook.h"

enum { FILLER = 0xA5 };

static unsigned long calls;

/* ---- parts */

static void *block(size_t size)
{
    void *p = malloc(size);
    if (p == NULL && size != 0) {
        fprintf(stderr, "no memory\n");
        exit(2);
    }
    return p;
}

static uint8_t *copy_of(const uint8_t *bytes, size_t size)
{
    uint8_t *p = block(size);
    if (size != 0)
        memcpy(p, bytes, size);
    return p;
}

static int all_bytes(const void *part, size_t size, uint8_t value)
{
    const uint8_t *p = part;
    for (size_t i = 0; i < size; i++)
        if (p[i] != value)
            return 0;
    return 1;
}

static void expect(int holds, const char *call, const char *what, uint32_t number)
{
    if (!holds) {
        fprintf(stderr, "%s: %s (number %" PRIu32 ")\n", call, what, number);
        exit(1);
    }
}

/* A fixed sequence of numbers that look random. */
static uint64_t state = 88172645463325252u;

static uint64_t next(void)
{
    state ^= state << 13;
    state ^= state >> 7;
    state ^= state << 17;
    return state;
}

/* ---- stores */

/* The store of a call: none, of length 0, bytes that are no store, or one set with today's figures, of which a bit may be turned round. */
static struct {
    uint32_t with;
    size_t size;
    uint8_t *bytes;
} given;

/* As the three arguments of a call. */
#define GIVEN given.with, given.bytes, given.size

static inline void give_store(void)
{
    static const uint8_t today[30] = {'G',  'P',  'S', 1, 0, 1, 0xA5, 0x3A, 0x34, 1,    0x30, 0x75, 0, 0, 0x40,
                                      0x42, 0x0F, 0,   0, 0, 0, 0,    0x80, 0x96, 0x98, 0,    0,    0, 0, 0};
    uint64_t drawn = next();
    given.with = (uint32_t)(drawn % 4);
    given.size = drawn / 4 % 8 == 0 ? drawn / 32 % 30 : drawn / 4 % 8 == 1 ? 0 : sizeof today;
    given.bytes = copy_of(today, given.size);
    if (drawn / 1024 % 2 == 0 && given.size != 0)
        given.bytes[drawn / 2048 % given.size] ^= (uint8_t)(1u << drawn / 65536 % 8);
}

static inline void take_store_back(void)
{
    free(given.bytes);
}

/* The sample book and the id of its first user. */
static size_t read_sample(int argc, char **argv, uint8_t *sample, uint32_t *id)
{
    if (argc != 2) {
        fprintf(stderr, "usage: %s BOOK\n", argv[0]);
        exit(2);
    }
    FILE *file = fopen(argv[1], "rb");
    if (file == NULL) {
        perror(argv[1]);
        exit(2);
    }
    size_t size = fread(sample, 1, DAYBOOK_IMAGE_SIZE, file);
    fclose(file);
    if (size < DAYBOOK_HEADER_SIZE_2 + DAYBOOK_USER_SIZE_1) {
        fprintf(stderr, "%s: no book\n", argv[1]);
        exit(2);
    }
    const uint8_t *user = sample + DAYBOOK_HEADER_SIZE(sample);
    *id = user[0] | (uint32_t)user[1] << 8 | (uint32_t)user[2] << 16 | (uint32_t)user[3] << 24;
    return size;
}

#endif
