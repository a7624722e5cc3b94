/* Makes the book of document 01's example, checks it and runs its day. With the package installed: cc book.c $(pkg-config --cflags --libs daybook) */
#include <inttypes.h>
#include <stdio.h>
#include <daybook.h>

int main(void)
{
    const daybook_header_fields header = {.version = 1, .users = 2, .trades = 1, .date = 20260318, .p = 2000, .q = 2100, .l = 300, .x = 100, .i = 50};
    const daybook_user_fields users[] = {{.id = 101, .physical = {-10000}, .position = {-40000}, .assigned = 50000000, .blocked = 10000000},
                                         {.id = 102, .position = {30000}, .assigned = 10000000, .blocked = 10000000}};
    const daybook_trade_fields sale = {101, 102, DAYBOOK_PVB, DAYBOOK_BILATERAL, DAYBOOK_DAY_D, 30000, 30000};
    static daybook_image image;
    static uint8_t bytes[DAYBOOK_LENGTH_AS(1, 2, 1)];
    daybook_part book = {bytes, sizeof bytes};
    daybook_setting desk = {.party = DAYBOOK_OPERATOR};
    daybook_ran day = {0, 0, 0};
    daybook_put_image(image.bytes, &header, users, &sale);
    uint32_t number = daybook_write(&image, book);
    if (number == 0) number = daybook_read(&desk, daybook_read_only(book), &image);
    if (number == 0) number = daybook_run(&desk, book, &day);
    printf("number %" PRIu32 ": %" PRIu64 " reduction, %" PRIu64 " MWh, %" PRIu64 " cents\n", number, day.reductions, day.mwh, day.worth);
    return number != 0;
}
