/* Runs the day of a book and prints it, as the program `day` does: day < BOOK. */
#include <inttypes.h>
#include <stdio.h>
#include <string.h>

#include "daybook.h"

/* An unsigned field of 4 bytes. */
static uint32_t field(const uint8_t *bytes)
{
    return (uint32_t)bytes[0] | (uint32_t)bytes[1] << 8 | (uint32_t)bytes[2] << 16 | (uint32_t)bytes[3] << 24;
}

/* A signed field of 4 bytes, in two's complement. */
static int64_t signed_field(const uint8_t *bytes)
{
    int64_t bits = field(bytes);
    return bits < INT64_C(0x80000000) ? bits : bits - INT64_C(0x100000000);
}

/* The state of a user, told by what the afternoon call on a copy of the book answers: 9 a clearing house, 12 short of cover, 0 a call that is due, else none of these. */
static const char *state_of(const daybook_setting *desk, daybook_bytes book, uint32_t id)
{
    static uint8_t copy[DAYBOOK_IMAGE_SIZE];
    daybook_guarantee answer;

    memcpy(copy, book.bytes, book.length);
    switch (daybook_afternoon_call(desk, (daybook_part){copy, book.length}, id, &answer)) {
    case 9:
        return "clear";
    case 12:
        return "short";
    case 0:
        return "call";
    default:
        return "quiet";
    }
}

int main(void)
{
    /* one byte more than the largest book, so that a longer input is refused and not cut */
    static uint8_t bytes[DAYBOOK_IMAGE_SIZE + 1];
    daybook_setting desk = {.party = DAYBOOK_OPERATOR};
    daybook_ran run;
    daybook_level level;

    daybook_part book = {bytes, fread(bytes, 1, sizeof bytes, stdin)};
    uint32_t number = daybook_run(&desk, book, &run);
    if (number != 0) {
        printf("refused %" PRIu32 "\n", number);
        return 0;
    }
    printf("run %" PRIu64 " %" PRIu64 " %" PRIu64 "\n", run.reductions, run.mwh, run.worth);
    for (size_t place = 0; place < bytes[5]; place++) {
        const uint8_t *user = bytes + DAYBOOK_HEADER_SIZE(bytes) + DAYBOOK_USER_SIZE(bytes) * place;
        uint32_t id = field(user);
        /* a refused level is 0, as a clearing house's is printed */
        daybook_afternoon_level(&desk, daybook_read_only(book), id, &level);
        printf("%" PRIu32 " %s %" PRIu64, id, state_of(&desk, daybook_read_only(book), id), level.level);
        for (size_t area = 0; area < 3; area++)
            printf(" %" PRId64, signed_field(user + 20 + 4 * area));
        printf("\n");
    }
    return 0;
}
