/* Prints what a shipper is told of itself, as a broker would ask for it: its levels, its flag and the trades that it may see: broker BOOK ID. Every call is made in the
   shipper's name, so that nothing of another's can be in an answer. */
#include <inttypes.h>
#include <stdio.h>
#include <stdlib.h>

#include "daybook.h"

/* A 32-bit field of a trade. */
static uint32_t field(const daybook_trade_record *trade, size_t at)
{
    const uint8_t *p = trade->bytes + at;
    return p[0] | (uint32_t)p[1] << 8 | (uint32_t)p[2] << 16 | (uint32_t)p[3] << 24;
}

int main(int argc, char **argv)
{
    static const char *const areas[] = {"PVB", "TVB", "AVB"};
    static uint8_t bytes[DAYBOOK_IMAGE_SIZE + 1];
    daybook_level morning, afternoon;
    daybook_flagged flag;
    daybook_seen seen;

    if (argc != 3) {
        fprintf(stderr, "usage: broker BOOK ID\n");
        return 2;
    }
    FILE *file = fopen(argv[1], "rb");
    if (file == NULL) {
        perror(argv[1]);
        return 2;
    }
    daybook_bytes book = {bytes, fread(bytes, 1, sizeof bytes, file)};
    fclose(file);

    uint32_t id = (uint32_t)strtoul(argv[2], NULL, 10);
    daybook_setting shipper = {.party = id};
    uint32_t number = daybook_morning_level(&shipper, book, id, &morning);
    if (number == 0)
        number = daybook_afternoon_level(&shipper, book, id, &afternoon);
    if (number == 0)
        number = daybook_flag(&shipper, book, id, &flag);
    if (number == 0)
        number = daybook_trade_count(&shipper, book, id, &seen);
    if (number != 0) {
        printf("%" PRIu32 ": refused, question %" PRIu32 "\n", id, number);
        return 1;
    }
    printf("%" PRIu32 ": levels %" PRIu64 " and %" PRIu64 ", %s, %" PRIu64 " trades\n", id, morning.level, afternoon.level,
           flag.flagged != 0 ? "flagged" : "not flagged", seen.trades);
    for (uint32_t ordinal = 0; ordinal < seen.trades; ordinal++) {
        daybook_trade_record trade;
        daybook_trade(&shipper, book, id, ordinal, &trade);
        printf("  %" PRIu32 " to %" PRIu32 " %s standing %" PRIu32 " of %" PRIu32 "\n", field(&trade, 0), field(&trade, 4), areas[trade.bytes[8]], field(&trade, 16),
               field(&trade, 12));
    }
    return 0;
}
