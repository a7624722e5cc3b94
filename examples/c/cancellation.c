/* Prints the whole trades of a user to cancel, as many as its level needs: cancellation BOOK ID TRIES. */
#include <inttypes.h>
#include <stdio.h>
#include <stdlib.h>

#include "daybook.h"

/* A 32-bit field of a trade of an accepted book. */
static uint32_t field(const uint8_t *book, size_t trade, size_t at)
{
    const uint8_t *p = book + DAYBOOK_HEADER_SIZE(book) + DAYBOOK_USER_SIZE(book) * (size_t)book[5] + DAYBOOK_TRADE_SIZE * trade + at;
    return p[0] | (uint32_t)p[1] << 8 | (uint32_t)p[2] << 16 | (uint32_t)p[3] << 24;
}

int main(int argc, char **argv)
{
    static uint8_t book[DAYBOOK_IMAGE_SIZE + 1];
    daybook_setting desk = {.party = DAYBOOK_OPERATOR};
    daybook_cancelled answer;

    if (argc != 4) {
        fprintf(stderr, "usage: cancellation BOOK ID TRIES\n");
        return 2;
    }
    FILE *file = fopen(argv[1], "rb");
    if (file == NULL) {
        perror(argv[1]);
        return 2;
    }
    size_t length = fread(book, 1, sizeof book, file);
    fclose(file);

    uint32_t id = (uint32_t)strtoul(argv[2], NULL, 10);
    uint32_t tries = (uint32_t)strtoul(argv[3], NULL, 10);
    uint32_t number = daybook_cancellation(&desk, (daybook_bytes){book, length}, id, tries, &answer);
    if (number != 0) {
        printf("refused, question %" PRIu32 "\n", number);
        return 1;
    }
    for (size_t i = 0; i < DAYBOOK_MARKS; i++)
        if (answer.marks[i] == 1)
            printf("cancel trade %zu: %" PRIu32 " MWh to %" PRIu32 "\n", i, field(book, i, 16), field(book, i, 4));
    printf("%" PRIu64 ".%02" PRIu64 " more than needed, %" PRIu64 " tries, %s\n", answer.excess / 100, answer.excess % 100, answer.tries,
           answer.complete == 1 ? "complete" : "not complete");
    return 0;
}
