/* Calls daybook_raw_cancellation on hostile input: hostile_cancellations BOOK. Each part is a block of exactly its length, so that valgrind sees a byte read or written outside it
   (the script `valgrind` beside this file). What a caller can tell is held against the header: the numbers, the 0 of a refused answer, the marks, and that no book changes. */
#include "hostile.h"

enum { MOST_TRIES = 65535 };

/* A set that was found: marks of 0 and 1, none past the trades; tries within those given; complete where the tries were not all made, and at an excess of 0. */
static void expect_found(const uint8_t *book, uint32_t tries, const uint8_t *marks, const uint64_t *answer)
{
    const char *call = "cancellation";
    size_t trades = book[6] | (size_t)book[7] << 8;
    for (size_t i = 0; i < DAYBOOK_MARKS; i++) {
        expect(marks[i] <= 1, call, "a mark is neither 0 nor 1", marks[i]);
        expect(i < trades || marks[i] == 0, call, "a trade past the count is marked", (uint32_t)i);
    }
    expect(answer[1] >= 1 && answer[1] <= tries, call, "more tries than were given, or none", 0);
    expect(answer[2] <= 1, call, "complete is neither 0 nor 1", 0);
    expect(answer[2] == 1 || answer[1] == tries, call, "not complete, though tries are left", 0);
    expect(answer[2] == 1 || answer[0] != 0, call, "not complete, though the excess is 0", 0);
}

static uint32_t cancel(const uint8_t *bytes, size_t size, uint32_t id, uint32_t tries, size_t marked, size_t count)
{
    const char *call = "cancellation";
    uint8_t *book = copy_of(bytes, size);
    uint8_t *marks = block(marked);
    uint64_t *answer = block(count * sizeof *answer);
    memset(marks, FILLER, marked);
    memset(answer, FILLER, count * sizeof *answer);
    give_store();
    uint32_t number = daybook_raw_cancellation(book, size, DAYBOOK_OPERATOR, GIVEN, id, tries, marks, marked, answer, count);
    take_store_back();
    calls++;
    expect(size == 0 || memcmp(book, bytes, size) == 0, call, "the book is changed", number);
    if (marked != DAYBOOK_MARKS || count != DAYBOOK_CANCELLATION_NUMBERS) {
        expect(number == DAYBOOK_WRONG_LENGTH, call, "another length is not refused", number);
        expect(all_bytes(marks, marked, FILLER) && all_bytes(answer, count * sizeof *answer, FILLER), call, "a part beside one of another length is changed", number);
    } else if (number == 0) {
        expect_found(bytes, tries, marks, answer);
    } else {
        expect((number <= 17 && number != 10 && number != 12 && number != 15) || number == 24 || number == 25, call, "no number of a question", number);
        expect(number != 25 || tries == 0 || tries > MOST_TRIES, call, "tries in range are refused", number);
        expect(number < 8 || number > 14 || (tries != 0 && tries <= MOST_TRIES), call, "a later question than that of the tries", number);
        expect(all_bytes(marks, marked, 0) && all_bytes(answer, count * sizeof *answer, 0), call, "a refused answer is not 0", number);
    }
    free(answer);
    free(marks);
    free(book);
    return number;
}

static uint32_t cancel_right(const uint8_t *bytes, size_t size, uint32_t id, uint32_t tries)
{
    return cancel(bytes, size, id, tries, DAYBOOK_MARKS, DAYBOOK_CANCELLATION_NUMBERS);
}

/* Few, many and impossible tries, for ids of the book and of nobody; says how many of them found a set. */
static unsigned long every_number_of_tries(const uint8_t *sample, size_t size, uint32_t id)
{
    const uint32_t tries[] = {0, 1, 2, 3, 29, 63, 64, 65, 1000, MOST_TRIES, MOST_TRIES + 1, 0x10001, 0x80000000, 0xFFFFFFFF};
    const uint32_t ids[] = {id, id, id, id, id + 1, id - 1, 0, 0xFFFFFFFF};
    unsigned long found = 0;
    for (size_t k = 0; k < sizeof tries / sizeof tries[0]; k++)
        for (size_t i = 0; i < sizeof ids / sizeof ids[0]; i++)
            found += cancel_right(sample, size, ids[i], tries[k]) == 0;
    return found;
}

/* Marks and answers of every length near the one that is asked for, and of none. */
static void wrong_lengths(const uint8_t *sample, size_t size, uint32_t id)
{
    const size_t marked[] = {0, 1, DAYBOOK_MARKS - 1, DAYBOOK_MARKS, DAYBOOK_MARKS + 1, 2 * DAYBOOK_MARKS};
    for (size_t k = 0; k < sizeof marked / sizeof marked[0]; k++)
        for (size_t count = 0; count <= DAYBOOK_CANCELLATION_NUMBERS + 2; count++)
            cancel(sample, size, id, 5, marked[k], count);
}

/* Random bytes as a book, and the sample with one byte changed. */
static void other_books(const uint8_t *sample, size_t size, uint32_t id)
{
    for (size_t length = 0; length <= 400; length++) {
        uint8_t *bytes = block(length);
        for (size_t i = 0; i < length; i++)
            bytes[i] = (uint8_t)next();
        cancel_right(bytes, length, id, (uint32_t)next() % 70);
        free(bytes);
    }
    for (size_t at = 0; at < size; at++)
        for (unsigned bit = 0; bit < 8; bit += 3) {
            uint8_t *bytes = copy_of(sample, size);
            bytes[at] ^= (uint8_t)(1u << bit);
            cancel_right(bytes, size, id, (uint32_t)next() % 70);
            free(bytes);
        }
}

int main(int argc, char **argv)
{
    static uint8_t sample[DAYBOOK_IMAGE_SIZE];
    uint32_t id;
    size_t size = read_sample(argc, argv, sample, &id);

    unsigned long found = every_number_of_tries(sample, size, id);
    expect(found != 0, "cancellation", "no set is found on the sample", 0);
    wrong_lengths(sample, size, id);
    other_books(sample, size, id);
    printf("%lu cancellations, %lu of them found on the sample, as the header says\n", calls, found);
    return 0;
}
