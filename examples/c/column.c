/* Prints one field of all records of forms, and reads nothing of a file but its version, its counts and that column: column FIELD FORM.. */
#include <inttypes.h>
#include <stdio.h>
#include <string.h>

#include "daybook.h"

static const char *const names[DAYBOOK_FIELDS] = {
    "id",           "role",         "user_zeros",   "physical_PVB", "physical_TVB", "physical_AVB", "position_PVB", "position_TVB",
    "position_AVB", "charges",      "assigned",     "blocked",      "manager_PVB",  "manager_TVB",  "manager_AVB",  "seller",
    "buyer",        "area",         "kind",         "day",          "trade_zero",   "notified",     "standing"};

/* Physical entries, positions and charges have a sign. */
static int is_signed(daybook_field field)
{
    return field >= DAYBOOK_FIELD_PHYSICAL_PVB && field <= DAYBOOK_FIELD_CHARGES;
}

static void print_number(const uint8_t *bytes, size_t width, int with_sign)
{
    uint64_t number = with_sign && bytes[width - 1] >= 128 ? UINT64_MAX : 0;
    for (size_t k = width; k-- > 0;)
        number = number << 8 | bytes[k];
    if (with_sign)
        printf(" %" PRId64, (int64_t)number);
    else
        printf(" %" PRIu64, number);
}

/* The bytes read of a form: 0 where it is none. */
static size_t print_column(FILE *file, daybook_field field)
{
    uint8_t counts[DAYBOOK_COUNTS_SIZE], column[8 * 65535];
    setvbuf(file, NULL, _IONBF, 0); /* nothing is read ahead */
    if (fread(counts, 1, sizeof counts, file) != sizeof counts || memcmp(counts, "GDF", 3) != 0)
        return 0;
    daybook_span at = daybook_column(field, DAYBOOK_VERSION(counts), DAYBOOK_USERS(counts), DAYBOOK_TRADES(counts));
    if (fseek(file, (long)at.offset, SEEK_SET) != 0 || fread(column, 1, at.width * at.count, file) != at.width * at.count)
        return 0;
    printf("%s, from byte %zu, %zu of %zu bytes:", names[field], at.offset, at.count, at.width);
    for (size_t record = 0; record < at.count; record++)
        print_number(column + at.width * record, at.width, is_signed(field));
    printf("\n");
    return sizeof counts + at.width * at.count;
}

int main(int argc, char **argv)
{
    unsigned field = 0;
    size_t bytes = 0;

    while (argc > 2 && field < DAYBOOK_FIELDS && strcmp(argv[1], names[field]) != 0)
        field++;
    if (argc < 3 || field == DAYBOOK_FIELDS) {
        fprintf(stderr, "usage: column FIELD FORM..\n");
        return 2;
    }
    for (int form = 2; form < argc; form++) {
        FILE *file = fopen(argv[form], "rb");
        if (file == NULL) {
            perror(argv[form]);
            return 2;
        }
        size_t read = print_column(file, (daybook_field)field);
        fclose(file);
        if (read == 0) {
            printf("no form\n");
            return 1;
        }
        bytes += read;
    }
    printf("%zu bytes read\n", bytes);
    return 0;
}
