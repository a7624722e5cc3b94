/* Makes a book from nothing, checks it, and runs its day: make [MWh]. Three shippers and a clearing house; 101 bears the risk of 103 in PVB. 101 sells so many MWh, 40,000 where
   nothing is said; an amount that no book can have is refused, and the question is printed in words. */
#include <inttypes.h>
#include <stdio.h>
#include <stdlib.h>
#include "daybook.h"

/* Positions are the physical entries and what stands bought for the day, less what stands sold. */
static void settle(daybook_user_fields *users, uint32_t count, const daybook_trade_fields *trades, uint32_t trade_count)
{
    uint32_t user, trade;
    for (user = 0; user < count; user++)
        memcpy(users[user].position, users[user].physical, sizeof users[user].position);
    for (trade = 0; trade < trade_count; trade++)
        for (user = 0; user < count && trades[trade].day == DAYBOOK_DAY_D; user++) {
            if (users[user].id == trades[trade].seller)
                users[user].position[trades[trade].area] -= (int32_t)trades[trade].standing;
            if (users[user].id == trades[trade].buyer)
                users[user].position[trades[trade].area] += (int32_t)trades[trade].standing;
        }
}

int main(int count, char **words)
{
    const uint32_t mwh = count > 1 ? (uint32_t)strtoul(words[1], NULL, 10) : 40000;
    const daybook_header_fields header = {.version = DAYBOOK_VERSION_3, .users = 4, .trades = 3, .date = 20260318, .p = 2000, .q = 2100, .l = 300, .x = 100, .i = 50,
                                          .s = 1800, .u = 1900};
    daybook_user_fields users[] = {
        {.id = 101, .physical = {-5000, 0, 0}, .assigned = 50000000, .blocked = 10000000},
        {.id = 102, .assigned = 10000000, .blocked = 10000000},
        {.id = 103, .physical = {-3000, 700, 0}, .charges = -250000, .assigned = 20000000, .manager = {[DAYBOOK_PVB] = 101}},
        {.id = 900, .role = DAYBOOK_CLEARING_HOUSE},
    };
    const daybook_trade_fields trades[] = {
        {101, 102, DAYBOOK_PVB, DAYBOOK_BILATERAL, DAYBOOK_DAY_D, mwh, mwh},
        {900, 103, DAYBOOK_TVB, DAYBOOK_COUNTERPARTY, DAYBOOK_DAY_D, 900, 900},
        {102, 101, DAYBOOK_PVB, DAYBOOK_PLATFORM, DAYBOOK_DAY_NEXT, 2500, 2500},
    };
    static uint8_t bytes[DAYBOOK_LENGTH_AS(DAYBOOK_VERSION_3, 4, 3)];
    static daybook_image image;
    const daybook_part book = {bytes, sizeof bytes};
    const daybook_setting desk = {.party = DAYBOOK_OPERATOR};
    daybook_header_fields read;
    daybook_ran day;
    uint32_t number, place;

    settle(users, header.users, trades, header.trades);
    daybook_put_image(image.bytes, &header, users, trades);
    number = daybook_write(&image, book);
    if (number == DAYBOOK_ACCEPTED)
        number = daybook_read(&desk, daybook_read_only(book), &image);
    if (number == DAYBOOK_ACCEPTED)
        number = daybook_run(&desk, book, &day);
    if (number != DAYBOOK_ACCEPTED) {
        printf("refused by question %" PRIu32 ": %s\n", number, daybook_question(number));
        return 1;
    }
    printf("run %" PRIu64 " %" PRIu64 " %" PRIu64 "\n", day.reductions, day.mwh, day.worth);
    daybook_get_header(bytes, &read);
    for (place = 0; place < read.users; place++) {
        daybook_user_fields user;
        daybook_get_user(bytes + DAYBOOK_HEADER_SIZE(bytes) + place * DAYBOOK_USER_SIZE(bytes), DAYBOOK_USER_SIZE(bytes), &user);
        printf("user %" PRIu32 " %s %" PRId32 " %" PRId32 " %" PRId32 " charges %" PRId64 " manager in PVB %" PRIu32 "\n", user.id,
               user.role == DAYBOOK_SHIPPER ? "shipper" : "clearing house", user.position[DAYBOOK_PVB], user.position[DAYBOOK_TVB], user.position[DAYBOOK_AVB], user.charges,
               user.manager[DAYBOOK_PVB]);
    }
    for (place = 0; place < read.trades; place++) {
        daybook_trade_fields trade;
        daybook_get_trade(bytes + DAYBOOK_LENGTH_AS(read.version, read.users, place), &trade);
        printf("trade %" PRIu32 " to %" PRIu32 " stands %" PRIu32 " of %" PRIu32 "\n", trade.seller, trade.buyer, trade.standing, trade.notified);
    }
    return 0;
}
