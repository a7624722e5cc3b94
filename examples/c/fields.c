/* Reads the fields of a book by daybook_fields.h, writes them again, and holds both to the engine: fields BOOK. The image of the fields has to be the one that daybook_read
   gives, and daybook_write has to give the book's bytes; the least and the largest numbers have to come back. It compiles as C99 and as C++11. */
#include <inttypes.h>
#include <stdio.h>
#include <stdlib.h>

#include "daybook.h"

static void hold(int is_so, const char *what)
{
    if (!is_so) {
        fprintf(stderr, "fields: %s\n", what);
        exit(1);
    }
}

/* Numbers at the ends of what their fields hold, written to a record and read again. */
static void ends(void)
{
    daybook_user_fields user = {UINT32_MAX, UINT8_MAX, {INT32_MIN, -1, INT32_MAX}, {0, INT32_MAX, INT32_MIN}, INT64_MIN, UINT64_MAX, 1, {UINT32_MAX, 0, 1}}, user_read;
    daybook_trade_fields trade = {UINT32_MAX, 1, DAYBOOK_AVB, DAYBOOK_COUNTERPARTY, DAYBOOK_DAY_NEXT, UINT32_MAX, 0}, trade_read;
    uint8_t record[DAYBOOK_RECORD_SIZE];
    unsigned area;

    memset(record, 0xA5, sizeof record);
    daybook_put_user(record, &user);
    daybook_get_user(record, sizeof record, &user_read);
    for (area = 0; area < DAYBOOK_AREAS; area++)
        hold(user.physical[area] == user_read.physical[area] && user.position[area] == user_read.position[area] && user.manager[area] == user_read.manager[area], "by area");
    hold(user.id == user_read.id && user.role == user_read.role && user.charges == user_read.charges && user.assigned == user_read.assigned &&
             user.blocked == user_read.blocked && record[5] == 0 && record[6] == 0 && record[7] == 0, "a user");
    user.charges = INT64_MAX;
    daybook_put_user(record, &user);
    daybook_get_user(record, DAYBOOK_USER_SIZE_1, &user_read);
    hold(user_read.charges == INT64_MAX && user_read.manager[0] == 0 && user_read.manager[2] == 0, "a short record");
    memset(record, 0xA5, sizeof record);
    daybook_put_trade(record, &trade);
    daybook_get_trade(record, &trade_read);
    hold(memcmp(&trade.notified, &trade_read.notified, 8) == 0 && trade.seller == trade_read.seller && trade.buyer == trade_read.buyer && trade.area == trade_read.area &&
             trade.kind == trade_read.kind && trade.day == trade_read.day && record[11] == 0 && record[DAYBOOK_TRADE_SIZE] == 0xA5, "a trade");
}

/* More than an image has room for is refused, by its counts and its version. */
static void too_many(void)
{
    static daybook_user_fields users[DAYBOOK_MAX_USERS + 1];
    static daybook_trade_fields trades[DAYBOOK_MAX_TRADES + 1];
    static daybook_image image;
    daybook_header_fields header = {1, DAYBOOK_MAX_USERS + 1, 0, 20260318, 1, 1, 0, 0, 0, 0, 0};
    daybook_part none = {NULL, 0};

    daybook_put_image(image.bytes, &header, users, trades);
    hold(daybook_write(&image, none) == DAYBOOK_REFUSED_COUNTS_AND_LENGTH, "65 users");
    header.users = 256 + 1;
    daybook_put_image(image.bytes, &header, users, trades);
    hold(daybook_write(&image, none) == DAYBOOK_REFUSED_COUNTS_AND_LENGTH, "257 users");
    header.users = 1;
    header.trades = 65536 + 1;
    daybook_put_image(image.bytes, &header, users, trades);
    hold(daybook_write(&image, none) == DAYBOOK_REFUSED_COUNTS_AND_LENGTH, "65,537 trades");
    header.version = 65536 + 1;
    daybook_put_image(image.bytes, &header, users, trades);
    hold(daybook_write(&image, none) == DAYBOOK_REFUSED_VERSION, "version 65,537");
}

int main(int argc, char **argv)
{
    static uint8_t bytes[DAYBOOK_IMAGE_SIZE], again[DAYBOOK_IMAGE_SIZE];
    static daybook_user_fields users[DAYBOOK_MAX_USERS];
    static daybook_trade_fields trades[DAYBOOK_MAX_TRADES];
    static daybook_image image, of_fields;
    daybook_setting desk = {DAYBOOK_OPERATOR, {NULL, 0}, {NULL, 0}};
    daybook_header_fields header;
    FILE *file = argc == 2 ? fopen(argv[1], "rb") : NULL;
    daybook_bytes book = {bytes, 0};
    daybook_part out = {again, 0};
    uint32_t place, number;

    hold(file != NULL, "usage: fields BOOK");
    book.length = out.length = fread(bytes, 1, sizeof bytes, file);
    fclose(file);
    hold(daybook_read(&desk, book, &image) == DAYBOOK_ACCEPTED, "the book is refused");
    daybook_get_header(bytes, &header);
    hold(book.length == DAYBOOK_LENGTH_AS(header.version, header.users, header.trades), "the length");
    for (place = 0; place < header.users; place++)
        daybook_get_user(bytes + DAYBOOK_HEADER_SIZE(bytes) + place * DAYBOOK_USER_SIZE(bytes), DAYBOOK_USER_SIZE(bytes), users + place);
    for (place = 0; place < header.trades; place++)
        daybook_get_trade(bytes + DAYBOOK_LENGTH_AS(header.version, header.users, place), trades + place);
    daybook_put_image(of_fields.bytes, &header, users, trades);
    hold(memcmp(image.bytes, of_fields.bytes, sizeof image.bytes) == 0, "the image is another");
    hold(daybook_write(&of_fields, out) == DAYBOOK_ACCEPTED && memcmp(bytes, again, book.length) == 0, "the bytes are others");
    ends();
    too_many();
    for (number = 0; number < 256; number++)
        hold((daybook_question(number)[0] != 0) == (number >= 1 && number <= DAYBOOK_QUESTIONS), "the words of a question");
    printf("version %" PRIu32 ", %" PRIu32 " users, %" PRIu32 " trades: read and written again\n", header.version, header.users, header.trades);
    return 0;
}
