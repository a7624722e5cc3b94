/* The fields of a book for C and C++: what their numbers mean, where they stand in the bytes, and how they are read and written. No archive is needed for it.
 *
 * A book is a header, its users and its trades, one after the other (DAYBOOK_HEADER_SIZE, DAYBOOK_USER_SIZE, DAYBOOK_TRADE_SIZE of daybook_raw.h); an image has the same fields,
 * always with the longest header, 64 of the longest user records and 256 trades. Numbers have the lowest byte first, those with a sign are in two's complement.
 * To make a book, fill in the fields, daybook_put_image them, and let daybook_write of daybook.h write the book's bytes; it refuses what is no book.
 */
#ifndef DAYBOOK_FIELDS_H
#define DAYBOOK_FIELDS_H

#include <string.h>
#include "daybook_raw.h"

/* ---- what the numbers mean */

/* The areas, in the order of what a user has by area: pipeline hub, LNG tank, underground store. */
typedef enum daybook_area {
    DAYBOOK_PVB = 0,
    DAYBOOK_TVB = 1,
    DAYBOOK_AVB = 2
} daybook_area;
#define DAYBOOK_AREAS 3

/* The roles of a user. */
typedef enum daybook_role {
    DAYBOOK_SHIPPER = 0,
    DAYBOOK_CLEARING_HOUSE = 1
} daybook_role;

/* The kinds of a trade; a reduction cuts bilateral ones alone. */
typedef enum daybook_kind {
    DAYBOOK_BILATERAL = 0,
    DAYBOOK_PLATFORM = 1,
    DAYBOOK_COUNTERPARTY = 2
} daybook_kind;

/* The days of a trade: the gas day d, and the day after. */
typedef enum daybook_day {
    DAYBOOK_DAY_D = 0,
    DAYBOOK_DAY_NEXT = 1
} daybook_day;

/* The versions of a book: 2 has the selling tariffs, 3 has managers too. */
typedef enum daybook_version {
    DAYBOOK_VERSION_1 = 1,
    DAYBOOK_VERSION_2 = 2,
    DAYBOOK_VERSION_3 = 3
} daybook_version;

/* ---- where the fields stand: bytes from the start of their record */

#define DAYBOOK_MARK "GDB"
enum {
    DAYBOOK_HEADER_MARK = 0,
    DAYBOOK_HEADER_VERSION = 3, /* 2 bytes */
    DAYBOOK_HEADER_USERS = 5,   /* 1 byte */
    DAYBOOK_HEADER_TRADES = 6,  /* 2 bytes */
    DAYBOOK_HEADER_DATE = 8,    /* 4 bytes, and so all that follow */
    DAYBOOK_HEADER_P = 12,
    DAYBOOK_HEADER_Q = 16,
    DAYBOOK_HEADER_L = 20,
    DAYBOOK_HEADER_X = 24,
    DAYBOOK_HEADER_I = 28,
    DAYBOOK_HEADER_S = 32, /* not in version 1 */
    DAYBOOK_HEADER_U = 36  /* not in version 1 */
};

enum {
    DAYBOOK_USER_ID = 0,        /* 4 bytes */
    DAYBOOK_USER_ROLE = 4,      /* 1 byte, and three zero bytes behind it */
    DAYBOOK_USER_PHYSICAL = 8,  /* 4 bytes with a sign for each area */
    DAYBOOK_USER_POSITION = 20, /* 4 bytes with a sign for each area */
    DAYBOOK_USER_CHARGES = 32,  /* 8 bytes with a sign */
    DAYBOOK_USER_ASSIGNED = 40, /* 8 bytes */
    DAYBOOK_USER_BLOCKED = 48,  /* 8 bytes */
    DAYBOOK_USER_MANAGER = 56   /* 4 bytes for each area, in version 3 alone */
};

enum {
    DAYBOOK_TRADE_SELLER = 0,    /* 4 bytes */
    DAYBOOK_TRADE_BUYER = 4,     /* 4 bytes */
    DAYBOOK_TRADE_AREA = 8,      /* 1 byte */
    DAYBOOK_TRADE_KIND = 9,      /* 1 byte */
    DAYBOOK_TRADE_DAY = 10,      /* 1 byte, and a zero byte behind it */
    DAYBOOK_TRADE_NOTIFIED = 12, /* 4 bytes */
    DAYBOOK_TRADE_STANDING = 16  /* 4 bytes */
};

/* Where the user and the trade of a place, from 0, stand in an image. */
#define DAYBOOK_IMAGE_USER(place) (DAYBOOK_HEADER_SIZE_2 + DAYBOOK_USER_SIZE_3 * (size_t)(place))
#define DAYBOOK_IMAGE_TRADE(place) (DAYBOOK_IMAGE_USER(DAYBOOK_MAX_USERS) + DAYBOOK_TRADE_SIZE * (size_t)(place))

/* ---- the fields: gas in MWh, money in cents, prices in cents per MWh */

/* The date is year × 10,000 + month × 100 + day; P and Q are the tariffs, L, X and I the tolls for liquefaction, exit and injection, S and U the selling tariffs, of PVB and of
   TVB and AVB. */
typedef struct daybook_header_fields {
    uint32_t version, users, trades, date, p, q, l, x, i, s, u;
} daybook_header_fields;

/* A manager is the id of the user that bears the risk in an area, 0 for none. */
typedef struct daybook_user_fields {
    uint32_t id;
    uint8_t role;
    int32_t physical[DAYBOOK_AREAS], position[DAYBOOK_AREAS];
    int64_t charges;
    uint64_t assigned, blocked;
    uint32_t manager[DAYBOOK_AREAS];
} daybook_user_fields;

typedef struct daybook_trade_fields {
    uint32_t seller, buyer;
    uint8_t area, kind, day;
    uint32_t notified, standing;
} daybook_trade_fields;

/* ---- reading and writing them */

/* The number of so many bytes, at most 8, without a sign. */
static inline uint64_t daybook_get(const uint8_t *bytes, unsigned width)
{
    uint64_t number = 0;
    while (width-- > 0)
        number = number << 8 | bytes[width];
    return number;
}

/* Writes the lowest so many bytes of a number; one with a sign is given as its two's complement, which is what (uint64_t) makes of it. */
static inline void daybook_put(uint8_t *bytes, unsigned width, uint64_t number)
{
    unsigned place;
    for (place = 0; place < width; place++)
        bytes[place] = (uint8_t)(number >> 8 * place);
}

/* A number of 4 bytes with a sign, and one of 8. */
static inline int32_t daybook_get_signed(const uint8_t *bytes)
{
    const uint32_t number = (uint32_t)daybook_get(bytes, 4);
    return number <= INT32_MAX ? (int32_t)number : -(int32_t)(UINT32_MAX - number) - 1;
}
static inline int64_t daybook_get_signed_long(const uint8_t *bytes)
{
    const uint64_t number = daybook_get(bytes, 8);
    return number <= INT64_MAX ? (int64_t)number : -(int64_t)(UINT64_MAX - number) - 1;
}

/* The header of a book or an image, which has at least DAYBOOK_HEADER_SIZE_1 bytes, and DAYBOOK_HEADER_SIZE_2 where its version is not 1; S and U of version 1 are 0. */
static inline void daybook_get_header(const uint8_t *book, daybook_header_fields *header)
{
    header->version = (uint32_t)daybook_get(book + DAYBOOK_HEADER_VERSION, 2);
    header->users = book[DAYBOOK_HEADER_USERS];
    header->trades = (uint32_t)daybook_get(book + DAYBOOK_HEADER_TRADES, 2);
    header->date = (uint32_t)daybook_get(book + DAYBOOK_HEADER_DATE, 4);
    header->p = (uint32_t)daybook_get(book + DAYBOOK_HEADER_P, 4);
    header->q = (uint32_t)daybook_get(book + DAYBOOK_HEADER_Q, 4);
    header->l = (uint32_t)daybook_get(book + DAYBOOK_HEADER_L, 4);
    header->x = (uint32_t)daybook_get(book + DAYBOOK_HEADER_X, 4);
    header->i = (uint32_t)daybook_get(book + DAYBOOK_HEADER_I, 4);
    header->s = header->version == DAYBOOK_VERSION_1 ? 0 : (uint32_t)daybook_get(book + DAYBOOK_HEADER_S, 4);
    header->u = header->version == DAYBOOK_VERSION_1 ? 0 : (uint32_t)daybook_get(book + DAYBOOK_HEADER_U, 4);
}

/* Writes the header of an image, all DAYBOOK_HEADER_SIZE_2 bytes; a count that its field cannot hold becomes the most that it can, so that the image is refused with 3. */
static inline void daybook_put_header(uint8_t *image, const daybook_header_fields *header)
{
    memcpy(image + DAYBOOK_HEADER_MARK, DAYBOOK_MARK, 3);
    daybook_put(image + DAYBOOK_HEADER_VERSION, 2, header->version < UINT16_MAX ? header->version : UINT16_MAX);
    daybook_put(image + DAYBOOK_HEADER_USERS, 1, header->users < UINT8_MAX ? header->users : UINT8_MAX);
    daybook_put(image + DAYBOOK_HEADER_TRADES, 2, header->trades < UINT16_MAX ? header->trades : UINT16_MAX);
    daybook_put(image + DAYBOOK_HEADER_DATE, 4, header->date);
    daybook_put(image + DAYBOOK_HEADER_P, 4, header->p);
    daybook_put(image + DAYBOOK_HEADER_Q, 4, header->q);
    daybook_put(image + DAYBOOK_HEADER_L, 4, header->l);
    daybook_put(image + DAYBOOK_HEADER_X, 4, header->x);
    daybook_put(image + DAYBOOK_HEADER_I, 4, header->i);
    daybook_put(image + DAYBOOK_HEADER_S, 4, header->s);
    daybook_put(image + DAYBOOK_HEADER_U, 4, header->u);
}

/* A user's record of so many bytes: DAYBOOK_USER_SIZE of a book, DAYBOOK_RECORD_SIZE of an image or a shown record. Managers that it has not are 0. */
static inline void daybook_get_user(const uint8_t *record, size_t size, daybook_user_fields *user)
{
    unsigned area;
    user->id = (uint32_t)daybook_get(record + DAYBOOK_USER_ID, 4);
    user->role = record[DAYBOOK_USER_ROLE];
    for (area = 0; area < DAYBOOK_AREAS; area++) {
        user->physical[area] = daybook_get_signed(record + DAYBOOK_USER_PHYSICAL + 4 * area);
        user->position[area] = daybook_get_signed(record + DAYBOOK_USER_POSITION + 4 * area);
        user->manager[area] = size < DAYBOOK_USER_SIZE_3 ? 0 : (uint32_t)daybook_get(record + DAYBOOK_USER_MANAGER + 4 * area, 4);
    }
    user->charges = daybook_get_signed_long(record + DAYBOOK_USER_CHARGES);
    user->assigned = daybook_get(record + DAYBOOK_USER_ASSIGNED, 8);
    user->blocked = daybook_get(record + DAYBOOK_USER_BLOCKED, 8);
}

/* Writes a user's record of an image, all DAYBOOK_RECORD_SIZE bytes. */
static inline void daybook_put_user(uint8_t *record, const daybook_user_fields *user)
{
    unsigned area;
    daybook_put(record + DAYBOOK_USER_ID, 4, user->id);
    daybook_put(record + DAYBOOK_USER_ROLE, 4, user->role); /* and the zero bytes behind it */
    for (area = 0; area < DAYBOOK_AREAS; area++) {
        daybook_put(record + DAYBOOK_USER_PHYSICAL + 4 * area, 4, (uint64_t)user->physical[area]);
        daybook_put(record + DAYBOOK_USER_POSITION + 4 * area, 4, (uint64_t)user->position[area]);
        daybook_put(record + DAYBOOK_USER_MANAGER + 4 * area, 4, user->manager[area]);
    }
    daybook_put(record + DAYBOOK_USER_CHARGES, 8, (uint64_t)user->charges);
    daybook_put(record + DAYBOOK_USER_ASSIGNED, 8, user->assigned);
    daybook_put(record + DAYBOOK_USER_BLOCKED, 8, user->blocked);
}

/* A trade's record, of a book, an image or a shown one. */
static inline void daybook_get_trade(const uint8_t *record, daybook_trade_fields *trade)
{
    trade->seller = (uint32_t)daybook_get(record + DAYBOOK_TRADE_SELLER, 4);
    trade->buyer = (uint32_t)daybook_get(record + DAYBOOK_TRADE_BUYER, 4);
    trade->area = record[DAYBOOK_TRADE_AREA];
    trade->kind = record[DAYBOOK_TRADE_KIND];
    trade->day = record[DAYBOOK_TRADE_DAY];
    trade->notified = (uint32_t)daybook_get(record + DAYBOOK_TRADE_NOTIFIED, 4);
    trade->standing = (uint32_t)daybook_get(record + DAYBOOK_TRADE_STANDING, 4);
}

/* Writes a trade's record. */
static inline void daybook_put_trade(uint8_t *record, const daybook_trade_fields *trade)
{
    daybook_put(record + DAYBOOK_TRADE_SELLER, 4, trade->seller);
    daybook_put(record + DAYBOOK_TRADE_BUYER, 4, trade->buyer);
    record[DAYBOOK_TRADE_AREA] = trade->area;
    record[DAYBOOK_TRADE_KIND] = trade->kind;
    daybook_put(record + DAYBOOK_TRADE_DAY, 2, trade->day); /* and the zero byte behind it */
    daybook_put(record + DAYBOOK_TRADE_NOTIFIED, 4, trade->notified);
    daybook_put(record + DAYBOOK_TRADE_STANDING, 4, trade->standing);
}

/* Writes an image of DAYBOOK_IMAGE_SIZE bytes: the header, as many users and trades as it says, and 0 behind them. Of more than an image has room for the first ones are
   written, and daybook_write refuses the image with 3. */
static inline void daybook_put_image(uint8_t *image, const daybook_header_fields *header, const daybook_user_fields *users, const daybook_trade_fields *trades)
{
    uint32_t place;
    memset(image, 0, DAYBOOK_IMAGE_SIZE);
    daybook_put_header(image, header);
    for (place = 0; place < header->users && place < DAYBOOK_MAX_USERS; place++)
        daybook_put_user(image + DAYBOOK_IMAGE_USER(place), users + place);
    for (place = 0; place < header->trades && place < DAYBOOK_MAX_TRADES; place++)
        daybook_put_trade(image + DAYBOOK_IMAGE_TRADE(place), trades + place);
}

#endif
