/* Runs a book with a log and withdraws every reduction again: withdrawal BOOK. */
#include <inttypes.h>
#include <stdio.h>
#include <string.h>

#include "daybook.h"

static void print(const char *what, uint64_t mwh, uint64_t cents)
{
    printf("%s %" PRIu64 " MWh, %" PRIu64 ".%02" PRIu64 "\n", what, mwh, cents / 100, cents % 100);
}

int main(int argc, char **argv)
{
    static uint8_t bytes[DAYBOOK_IMAGE_SIZE + 1], first[DAYBOOK_IMAGE_SIZE + 1], log[DAYBOOK_LOG_SIZE];
    daybook_setting desk = {.party = DAYBOOK_OPERATOR, .log = {log, sizeof log}};
    daybook_ran run;
    daybook_withdrawn back;

    if (argc != 2) {
        fprintf(stderr, "usage: withdrawal BOOK\n");
        return 2;
    }
    FILE *file = fopen(argv[1], "rb");
    if (file == NULL) {
        perror(argv[1]);
        return 2;
    }
    daybook_part book = {bytes, fread(bytes, 1, sizeof bytes, file)};
    fclose(file);
    memcpy(first, bytes, book.length);

    /* the log holds the book from here on: give it to every call that may change the book */
    uint32_t number = daybook_start_log(desk.log, daybook_read_only(book));
    if (number == 0)
        number = daybook_run(&desk, book, &run);
    /* a run that fills the log stops with 20, and its cuts stand */
    if (number != 0 && number != 20) {
        printf("refused, question %" PRIu32 "\n", number);
        return 1;
    }
    print(number == 20 ? "cut until the log was full:" : "cut", run.mwh, run.worth);

    /* the last reduction first, until the log has no entry */
    while ((number = daybook_withdrawal(&desk, book, &back)) == 0)
        print("withdrawn", back.mwh, back.worth);
    printf("withdrawal refused, question %" PRIu32 "; the book is %s\n", number, memcmp(bytes, first, book.length) == 0 ? "the first one again" : "another one");
    return 0;
}
