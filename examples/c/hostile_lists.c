/* Calls daybook_raw_list on hostile input: hostile_lists BOOK. Each part is a block of exactly its length, so that valgrind sees a byte read or written outside it (the script
   `valgrind` beside this file). An accepted list is held against daybook_raw_posting, line by line; a refused one has to leave book and places. */
#include "hostile.h"

enum { IDS, AREAS, AMOUNTS, PLACES, COLUMNS };

/* What the lines are drawn from: of the book, next to the ends of ranges and of types. */
static uint32_t drawn_id(uint32_t id)
{
    const uint32_t ids[] = {id, id, id, id + 1, id - 1, 0, 1, 2, 0x80000000, 0xFFFFFFFF, (uint32_t)next()};
    return ids[next() % (sizeof ids / sizeof ids[0])];
}

static uint32_t drawn_area(void)
{
    const uint32_t areas[] = {0, 0, 0, 1, 1, 2, 2, 3, 0x100, 0x80000000, 0xFFFFFFFF};
    return areas[next() % (sizeof areas / sizeof areas[0])];
}

static int64_t drawn_amount(void)
{
    const int64_t amounts[] = {0, 1, -1, 1000000, -1000000, 2000000, -2000000, 2000001, INT64_C(4294967296), INT64_MAX, INT64_MIN, (int64_t)next()};
    return amounts[next() % (sizeof amounts / sizeof amounts[0])];
}

/* The single postings of an accepted list, on a book of their own: the same numbers and the same book. */
static void expect_postings(const uint8_t *bytes, const uint8_t *left, size_t size, const uint32_t *ids, const uint32_t *areas, const int64_t *amounts,
                            const uint32_t *places, size_t lines)
{
    uint8_t *book = copy_of(bytes, size);
    for (size_t i = 0; i < lines; i++) {
        uint32_t number = daybook_raw_posting(book, size, DAYBOOK_OPERATOR, GIVEN, DAYBOOK_NO_LOG, ids[i], areas[i], amounts[i]);
        calls++;
        expect(number == places[i], "list", "another number than the line's posting", places[i]);
    }
    expect(memcmp(book, left, size) == 0, "list", "another book than the postings leave", 0);
    free(book);
}

static void list(const uint8_t *bytes, size_t size, uint32_t id, const size_t counts[COLUMNS])
{
    uint8_t *book = copy_of(bytes, size);
    uint32_t *ids = block(counts[IDS] * sizeof *ids);
    uint32_t *areas = block(counts[AREAS] * sizeof *areas);
    int64_t *amounts = block(counts[AMOUNTS] * sizeof *amounts);
    uint32_t *places = block(counts[PLACES] * sizeof *places);
    for (size_t i = 0; i < counts[IDS]; i++)
        ids[i] = drawn_id(id);
    for (size_t i = 0; i < counts[AREAS]; i++)
        areas[i] = drawn_area();
    for (size_t i = 0; i < counts[AMOUNTS]; i++)
        amounts[i] = drawn_amount();
    memset(places, FILLER, counts[PLACES] * sizeof *places);
    give_store();
    uint32_t number = daybook_raw_list(book, size, DAYBOOK_OPERATOR, GIVEN, DAYBOOK_NO_LOG, ids, counts[IDS], areas, counts[AREAS], amounts, counts[AMOUNTS], places, counts[PLACES]);
    calls++;
    expect(number <= 7 || (number >= 15 && number <= 17), "list", "no number of a question", number);
    int fits = counts[PLACES] <= DAYBOOK_MAX_LINES;
    for (size_t k = 0; k < COLUMNS; k++)
        fits &= counts[k] == counts[PLACES];
    if (fits)
        expect(number != 15, "list", "15 for columns and places of one count", number);
    else
        expect(number >= 1 && number <= 15, "list", "columns and places of several counts, or too many lines, are not refused", number);
    if (number == 0) {
        expect_postings(bytes, book, size, ids, areas, amounts, places, counts[PLACES]);
    } else {
        expect(all_bytes(places, counts[PLACES] * sizeof *places, FILLER), "list", "the places of a refused list are changed", number);
        expect(size == 0 || memcmp(book, bytes, size) == 0, "list", "the book is changed", number);
    }
    take_store_back();
    free(places);
    free(amounts);
    free(areas);
    free(ids);
    free(book);
}

static void list_of(const uint8_t *bytes, size_t size, uint32_t id, size_t lines)
{
    const size_t counts[COLUMNS] = {lines, lines, lines, lines};
    list(bytes, size, id, counts);
}

/* Columns and places of every count near none and near the most. */
static void every_count(const uint8_t *sample, size_t size, uint32_t id)
{
    const size_t near[] = {0, 1, 2, DAYBOOK_MAX_LINES - 1, DAYBOOK_MAX_LINES, DAYBOOK_MAX_LINES + 1};
    enum { NEAR = sizeof near / sizeof near[0] };
    for (size_t k = 0; k < (size_t)NEAR * NEAR * NEAR * NEAR; k++) {
        const size_t counts[COLUMNS] = {near[k % NEAR], near[k / NEAR % NEAR], near[k / NEAR / NEAR % NEAR], near[k / NEAR / NEAR / NEAR]};
        list(sample, size, id, counts);
    }
}

/* Random bytes as a book, and the sample with one byte changed. */
static void other_books(const uint8_t *sample, size_t size, uint32_t id)
{
    for (size_t length = 0; length <= 400; length++) {
        uint8_t *bytes = block(length);
        for (size_t i = 0; i < length; i++)
            bytes[i] = (uint8_t)next();
        list_of(bytes, length, id, length % 5);
        free(bytes);
    }
    for (size_t at = 0; at < size; at++) {
        uint8_t *bytes = copy_of(sample, size);
        bytes[at] ^= (uint8_t)(1u << next() % 8);
        list_of(bytes, size, id, at % 7);
        free(bytes);
    }
}

int main(int argc, char **argv)
{
    static uint8_t sample[DAYBOOK_IMAGE_SIZE];
    uint32_t id;
    size_t size = read_sample(argc, argv, sample, &id);

    every_count(sample, size, id);
    other_books(sample, size, id);
    for (size_t lines = 0; lines <= 40; lines++)
        list_of(sample, size, id, lines);
    for (size_t turn = 0; turn < 8; turn++)
        list_of(sample, size, id, DAYBOOK_MAX_LINES);
    printf("%lu calls of lists and of their lines, as the header says\n", calls);
    return 0;
}
