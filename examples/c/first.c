/* A first program: the afternoon level of user 101 of the book on standard input. docs/CALLS.md shows it. */
#include <inttypes.h>
#include <stdio.h>
#include "daybook.h"

int main(void)
{
    static uint8_t book[DAYBOOK_IMAGE_SIZE + 1]; /* a byte more than the largest book, so that a longer input is refused */
    daybook_setting desk = {.party = DAYBOOK_OPERATOR};
    daybook_level level;
    size_t length = fread(book, 1, sizeof book, stdin);
    uint32_t number = daybook_afternoon_level(&desk, (daybook_bytes){book, length}, 101, &level);
    printf("number %" PRIu32 ", level %" PRIu64 "\n", number, level.level);
    return number != 0;
}
