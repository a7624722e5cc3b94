/* Posts a list of corrections to a book and prints each line's number: list BOOK [ID AREA MWH].. */
#include <errno.h>
#include <inttypes.h>
#include <stdio.h>
#include <stdlib.h>

#include "daybook.h"

/* one line more than a list may have, so that a longer one is refused by the engine */
enum { LINES = DAYBOOK_MAX_LINES + 1 };

static long long number_of(const char *word)
{
    char *end;
    errno = 0;
    long long number = strtoll(word, &end, 10);
    if (errno != 0 || *end != '\0' || end == word) {
        fprintf(stderr, "list: %s is no number\n", word);
        exit(2);
    }
    return number;
}

int main(int argc, char **argv)
{
    static uint8_t bytes[DAYBOOK_IMAGE_SIZE + 1];
    static uint32_t ids[LINES], areas[LINES], places[LINES];
    static int64_t amounts[LINES];

    if (argc < 2 || argc % 3 != 2 || argc / 3 > LINES) {
        fprintf(stderr, "usage: list BOOK [ID AREA MWH]..\n");
        return 2;
    }
    FILE *file = fopen(argv[1], "rb");
    if (file == NULL) {
        perror(argv[1]);
        return 2;
    }
    daybook_part book = {bytes, fread(bytes, 1, sizeof bytes, file)};
    fclose(file);

    daybook_setting desk = {.party = DAYBOOK_OPERATOR};
    daybook_lines lines = {ids, areas, amounts, places, (size_t)(argc / 3)};
    for (size_t i = 0; i < lines.count; i++) {
        ids[i] = (uint32_t)number_of(argv[2 + 3 * i]);
        areas[i] = (uint32_t)number_of(argv[3 + 3 * i]);
        amounts[i] = (int64_t)number_of(argv[4 + 3 * i]);
    }
    uint32_t number = daybook_list(&desk, book, lines);
    if (number != 0) {
        printf("refused, question %" PRIu32 "\n", number);
        return 1;
    }
    for (size_t i = 0; i < lines.count; i++)
        printf("%" PRIu32 " %" PRIu32 " %" PRId64 ": %" PRIu32 "\n", ids[i], areas[i], amounts[i], places[i]);
    return 0;
}
