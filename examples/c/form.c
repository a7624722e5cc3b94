/* Writes the field-wise form of a book to a file, once the form has given the book back: form BOOK FORM */
#include <inttypes.h>
#include <stdio.h>
#include <string.h>

#include "daybook.h"

int main(int argc, char **argv)
{
    static uint8_t book[DAYBOOK_IMAGE_SIZE + 1], form[DAYBOOK_IMAGE_SIZE], back[DAYBOOK_IMAGE_SIZE];

    if (argc != 3) {
        fprintf(stderr, "usage: form BOOK FORM\n");
        return 2;
    }
    FILE *file = fopen(argv[1], "rb");
    if (file == NULL) {
        perror(argv[1]);
        return 2;
    }
    size_t length = fread(book, 1, sizeof book, file);
    fclose(file);

    daybook_setting desk = {.party = DAYBOOK_OPERATOR};
    uint32_t number = daybook_form(&desk, (daybook_bytes){book, length}, (daybook_part){form, sizeof form});
    if (number != 0) {
        printf("refused, question %" PRIu32 "\n", number);
        return 1;
    }
    number = daybook_restore((daybook_bytes){form, length}, (daybook_part){back, sizeof back});
    if (number != 0 || memcmp(back, book, length) != 0) {
        printf("the form gives another book, question %" PRIu32 "\n", number);
        return 1;
    }
    file = fopen(argv[2], "wb");
    if (file == NULL || fwrite(form, 1, length, file) != length || fclose(file) != 0) {
        perror(argv[2]);
        return 2;
    }
    printf("%zu bytes, version %" PRIu32 ", %zu users, %zu trades\n", length, DAYBOOK_VERSION(form), DAYBOOK_USERS(form), DAYBOOK_TRADES(form));
    return 0;
}
