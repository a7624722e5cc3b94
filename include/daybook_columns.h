/* Where a field stands in the field-wise form of a book (daybook_form of daybook.h), told without the archive. */
#ifndef DAYBOOK_COLUMNS_H
#define DAYBOOK_COLUMNS_H

#include "daybook_raw.h"

/* The fields of a form in the order of their columns: those of users, then those of trades. Each area's number is a field, and so is each run of zero bytes. Versions 1 and
   2 have no managers. */
typedef enum daybook_field {
    DAYBOOK_FIELD_ID,
    DAYBOOK_FIELD_ROLE,
    DAYBOOK_FIELD_USER_ZEROS,
    DAYBOOK_FIELD_PHYSICAL_PVB,
    DAYBOOK_FIELD_PHYSICAL_TVB,
    DAYBOOK_FIELD_PHYSICAL_AVB,
    DAYBOOK_FIELD_POSITION_PVB,
    DAYBOOK_FIELD_POSITION_TVB,
    DAYBOOK_FIELD_POSITION_AVB,
    DAYBOOK_FIELD_CHARGES,
    DAYBOOK_FIELD_ASSIGNED,
    DAYBOOK_FIELD_BLOCKED,
    DAYBOOK_FIELD_MANAGER_PVB,
    DAYBOOK_FIELD_MANAGER_TVB,
    DAYBOOK_FIELD_MANAGER_AVB,
    DAYBOOK_FIELD_SELLER,
    DAYBOOK_FIELD_BUYER,
    DAYBOOK_FIELD_AREA,
    DAYBOOK_FIELD_KIND,
    DAYBOOK_FIELD_DAY,
    DAYBOOK_FIELD_TRADE_ZERO,
    DAYBOOK_FIELD_NOTIFIED,
    DAYBOOK_FIELD_STANDING
} daybook_field;
#define DAYBOOK_FIELDS 23

/* Version and counts, from the first DAYBOOK_COUNTS_SIZE bytes of a form or of a book. */
#define DAYBOOK_COUNTS_SIZE 8
#define DAYBOOK_VERSION(form) ((uint32_t)((form)[3] | (form)[4] << 8))
#define DAYBOOK_USERS(form) ((size_t)(form)[5])
#define DAYBOOK_TRADES(form) ((size_t)((form)[6] | (form)[7] << 8))

/* Where a field of all records stands: `count` numbers of `width` bytes each, the lowest byte first, one after the other from `offset` on. */
typedef struct daybook_span {
    size_t offset;
    size_t width;
    size_t count;
} daybook_span;

/* The column of a field in the form of a book of a version with so many users and trades; no byte of it is looked at or copied. All three numbers are 0 for a field that the
   version has not, and for an unknown version or field. A form that daybook_restore accepts has all of its columns; of other bytes ask first whether the column ends in them:
   offset + width * count. */
static inline daybook_span daybook_column(daybook_field field, uint32_t version, size_t users, size_t trades)
{
    static const uint8_t widths[DAYBOOK_FIELDS] = {4, 1, 3, 4, 4, 4, 4, 4, 4, 8, 8, 8, 4, 4, 4, 4, 4, 1, 1, 1, 1, 4, 4};
    const unsigned place = (unsigned)field, first_manager = DAYBOOK_FIELD_MANAGER_PVB, first_of_trades = DAYBOOK_FIELD_SELLER;
    daybook_span column = {0, 0, 0};
    unsigned before;

    if (version < 1 || version > 3 || place >= DAYBOOK_FIELDS || (version < 3 && place >= first_manager && place < first_of_trades))
        return column;
    column.offset = version == 1 ? DAYBOOK_HEADER_SIZE_1 : DAYBOOK_HEADER_SIZE_2;
    for (before = 0; before < place; before++)
        if (version == 3 || before < first_manager || before >= first_of_trades)
            column.offset += widths[before] * (before < first_of_trades ? users : trades);
    column.width = widths[place];
    column.count = place < first_of_trades ? users : trades;
    return column;
}

#endif
