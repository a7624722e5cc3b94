/* Writes a book as a version to a file: convert BOOK VERSION FILE */
#include <inttypes.h>
#include <stdio.h>
#include <stdlib.h>

#include "daybook.h"

int main(int argc, char **argv)
{
    static uint8_t book[DAYBOOK_IMAGE_SIZE + 1], converted[DAYBOOK_IMAGE_SIZE];

    if (argc != 4) {
        fprintf(stderr, "usage: convert BOOK VERSION FILE\n");
        return 2;
    }
    FILE *file = fopen(argv[1], "rb");
    if (file == NULL) {
        perror(argv[1]);
        return 2;
    }
    size_t length = fread(book, 1, sizeof book, file);
    fclose(file);

    daybook_setting desk = {.party = DAYBOOK_OPERATOR};
    uint32_t number = daybook_convert(&desk, (daybook_bytes){book, length}, (uint32_t)strtoul(argv[2], NULL, 10), (daybook_part){converted, sizeof converted});
    if (number != 0) {
        printf("refused, question %" PRIu32 "\n", number);
        return 1;
    }
    /* the length that was written follows from version and counts */
    length = DAYBOOK_LENGTH_AS(DAYBOOK_VERSION(converted), DAYBOOK_USERS(converted), DAYBOOK_TRADES(converted));
    file = fopen(argv[3], "wb");
    if (file == NULL || fwrite(converted, 1, length, file) != length || fclose(file) != 0) {
        perror(argv[3]);
        return 2;
    }
    printf("version %" PRIu32 ", %zu bytes\n", DAYBOOK_VERSION(converted), length);
    return 0;
}
