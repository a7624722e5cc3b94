/* Prints the morning and the afternoon level of a user of a book: level BOOK ID. */
#include <inttypes.h>
#include <stdio.h>
#include <stdlib.h>

#include "daybook.h"

/* Prints one level, or the number of the question that refuses it; answers whether there was one. */
static int print_level(const char *name, uint32_t number, uint64_t level)
{
    if (number != 0) {
        printf("%s level: refused, question %" PRIu32 "\n", name, number);
        return 0;
    }
    printf("%s level: %" PRIu64 ".%02" PRIu64 "\n", name, level / 100, level % 100);
    return 1;
}

int main(int argc, char **argv)
{
    /* one byte more than the largest book, so that a longer file is refused and not cut */
    static uint8_t bytes[DAYBOOK_IMAGE_SIZE + 1];
    daybook_setting desk = {.party = DAYBOOK_OPERATOR};
    daybook_level morning, afternoon;

    if (argc != 3) {
        fprintf(stderr, "usage: level BOOK ID\n");
        return 2;
    }
    FILE *file = fopen(argv[1], "rb");
    if (file == NULL) {
        perror(argv[1]);
        return 2;
    }
    daybook_bytes book = {bytes, fread(bytes, 1, sizeof bytes, file)};
    fclose(file);

    uint32_t id = (uint32_t)strtoul(argv[2], NULL, 10);
    uint32_t number = daybook_morning_level(&desk, book, id, &morning);
    int told = print_level("morning", number, morning.level);
    number = daybook_afternoon_level(&desk, book, id, &afternoon);
    told &= print_level("afternoon", number, afternoon.level);
    return told ? 0 : 1;
}
