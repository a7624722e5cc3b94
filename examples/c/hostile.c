/* Calls every function of daybook_raw.h on hostile input, but daybook_raw_list (hostile_lists.c), daybook_raw_cancellation (hostile_cancellations.c), daybook_raw_form and daybook_raw_restore
   (hostile_forms.c), daybook_raw_convert (hostile_conversions.c), and without a log (hostile_logs.c): hostile BOOK. Each part is a block of exactly its length, so that valgrind
   sees a byte read or written outside it (the script `valgrind` beside this file). What a caller can tell is held against the header: the numbers, the 0 of a refused
   answer, and what stays unchanged. */
#include "hostile.h"

enum { LONGEST = DAYBOOK_IMAGE_SIZE + 60 };
/* ---- the functions with an answer in numbers, under one type */

typedef uint32_t answering(uint8_t *book, size_t size, uint32_t with_store, const uint8_t *store, size_t store_size, uint32_t id, uint64_t *answer, size_t count);

static uint32_t morning_level(uint8_t *book, size_t size, uint32_t with_store, const uint8_t *store, size_t store_size, uint32_t id, uint64_t *answer, size_t count)
{
    return daybook_raw_morning_level(book, size, DAYBOOK_OPERATOR, with_store, store, store_size, id, answer, count);
}

static uint32_t afternoon_level(uint8_t *book, size_t size, uint32_t with_store, const uint8_t *store, size_t store_size, uint32_t id, uint64_t *answer, size_t count)
{
    return daybook_raw_afternoon_level(book, size, DAYBOOK_OPERATOR, with_store, store, store_size, id, answer, count);
}

static uint32_t warning(uint8_t *book, size_t size, uint32_t with_store, const uint8_t *store, size_t store_size, uint32_t id, uint64_t *answer, size_t count)
{
    return daybook_raw_warning(book, size, DAYBOOK_OPERATOR, with_store, store, store_size, id, answer, count);
}

static uint32_t morning_call(uint8_t *book, size_t size, uint32_t with_store, const uint8_t *store, size_t store_size, uint32_t id, uint64_t *answer, size_t count)
{
    return daybook_raw_morning_call(book, size, DAYBOOK_OPERATOR, with_store, store, store_size, DAYBOOK_NO_LOG, id, answer, count);
}

static uint32_t afternoon_call(uint8_t *book, size_t size, uint32_t with_store, const uint8_t *store, size_t store_size, uint32_t id, uint64_t *answer, size_t count)
{
    return daybook_raw_afternoon_call(book, size, DAYBOOK_OPERATOR, with_store, store, store_size, DAYBOOK_NO_LOG, id, answer, count);
}

static uint32_t reduction(uint8_t *book, size_t size, uint32_t with_store, const uint8_t *store, size_t store_size, uint32_t id, uint64_t *answer, size_t count)
{
    return daybook_raw_reduction(book, size, DAYBOOK_OPERATOR, with_store, store, store_size, DAYBOOK_NO_LOG, id, answer, count);
}

/* The levels of all users, and a run, are of no user. */
static uint32_t levels(uint8_t *book, size_t size, uint32_t with_store, const uint8_t *store, size_t store_size, uint32_t id, uint64_t *answer, size_t count)
{
    (void)id;
    return daybook_raw_levels(book, size, DAYBOOK_OPERATOR, with_store, store, store_size, answer, count);
}

static uint32_t run(uint8_t *book, size_t size, uint32_t with_store, const uint8_t *store, size_t store_size, uint32_t id, uint64_t *answer, size_t count)
{
    (void)id;
    return daybook_raw_run(book, size, DAYBOOK_OPERATOR, with_store, store, store_size, DAYBOOK_NO_LOG, answer, count);
}

static const struct {
    const char *name;
    answering *call;
    size_t count;
    int changes; /* may an accepted call change the book? */
} answers[] = {
    {"morning_level", morning_level, DAYBOOK_LEVEL_NUMBERS, 0},
    {"afternoon_level", afternoon_level, DAYBOOK_LEVEL_NUMBERS, 0},
    {"levels", levels, DAYBOOK_ALL_LEVELS_NUMBERS, 0},
    {"warning", warning, DAYBOOK_WARNING_NUMBERS, 0},
    {"morning_call", morning_call, DAYBOOK_CALL_NUMBERS, 1},
    {"afternoon_call", afternoon_call, DAYBOOK_CALL_NUMBERS, 1},
    {"reduction", reduction, DAYBOOK_REDUCTION_NUMBERS, 1},
    {"run", run, DAYBOOK_RUN_NUMBERS, 1},
};

enum { ANSWERS = sizeof answers / sizeof answers[0] };

/* What holds of every function with a lent part: 255 exactly where the part is of another length, and then the part is left; else a number of the questions, and 0 in the
   whole part where it is refused. */
static void expect_part(const char *call, uint32_t number, const void *part, size_t size, size_t asked)
{
    calls++;
    if (size != asked) {
        expect(number == DAYBOOK_WRONG_LENGTH, call, "another length is not refused", number);
        expect(all_bytes(part, size, FILLER), call, "a part of another length is changed", number);
        return;
    }
    expect(number <= 14 || number == 16 || number == 17, call, "no number of a question", number);
    if (number != 0)
        expect(all_bytes(part, size, 0), call, "a refused answer is not 0", number);
}

static void ask(size_t which, const uint8_t *bytes, size_t size, uint32_t id, size_t count)
{
    const char *name = answers[which].name;
    uint8_t *book = copy_of(bytes, size);
    uint64_t *answer = block(count * sizeof *answer);
    memset(answer, FILLER, count * sizeof *answer);
    give_store();
    uint32_t number = answers[which].call(book, size, GIVEN, id, answer, count);
    expect_part(name, number, answer, count * sizeof *answer, answers[which].count * sizeof *answer);
    if (number != 0 || !answers[which].changes)
        expect(size == 0 || memcmp(book, bytes, size) == 0, name, "the book is changed", number);
    take_store_back();
    free(answer);
    free(book);
}

static void post(const uint8_t *bytes, size_t size, uint32_t id, uint32_t area, int64_t amount)
{
    uint8_t *book = copy_of(bytes, size);
    give_store();
    uint32_t number = daybook_raw_posting(book, size, DAYBOOK_OPERATOR, GIVEN, DAYBOOK_NO_LOG, id, area, amount);
    take_store_back();
    calls++;
    expect(number <= 10 || number == 16 || number == 17, "posting", "no number of a question", number);
    if (number != 0)
        expect(size == 0 || memcmp(book, bytes, size) == 0, "posting", "the book is changed", number);
    free(book);
}

static void show(const uint8_t *bytes, size_t size, uint32_t id, size_t lent)
{
    uint8_t *book = copy_of(bytes, size);
    uint8_t *record = block(lent);
    memset(record, FILLER, lent);
    give_store();
    uint32_t number = daybook_raw_show(book, size, DAYBOOK_OPERATOR, GIVEN, id, record, lent);
    expect_part("show", number, record, lent, DAYBOOK_RECORD_SIZE);
    if (number == 0)
        expect(all_bytes(record + DAYBOOK_USER_SIZE(book), DAYBOOK_RECORD_SIZE - DAYBOOK_USER_SIZE(book), 0), "show", "bytes behind the record are not 0", number);

    /* picked from two, the other of which is one byte long */
    uint8_t *other = block(1);
    other[0] = FILLER;
    for (uint32_t pick = 0; pick <= 2; pick++) {
        uint8_t *picked = block(lent);
        memset(picked, FILLER, lent);
        uint32_t again = pick == 0 ? daybook_raw_show_picked(book, size, other, 1, DAYBOOK_OPERATOR, GIVEN, pick, id, picked, lent)
                                   : daybook_raw_show_picked(other, 1, book, size, DAYBOOK_OPERATOR, GIVEN, pick, id, picked, lent);
        expect_part("show_picked", again, picked, lent, DAYBOOK_RECORD_SIZE);
        expect(again == number, "show_picked", "another number than show", again);
        expect(memcmp(picked, record, lent) == 0, "show_picked", "another record than show", again);
        free(picked);
    }
    take_store_back();
    free(other);
    free(record);
    free(book);
}

/* Reads a book into an image; where it is accepted, writes it back, which gives the same bytes. */
static void read_book(const uint8_t *bytes, size_t size, size_t lent)
{
    uint8_t *book = copy_of(bytes, size);
    uint8_t *image = block(lent);
    memset(image, FILLER, lent);
    uint32_t number = daybook_raw_read(book, size, DAYBOOK_OPERATOR, image, lent);
    expect_part("read", number, image, lent, DAYBOOK_IMAGE_SIZE);
    if (number == 0) {
        uint8_t *out = block(size);
        memset(out, FILLER, size);
        uint32_t again = daybook_raw_write(image, lent, out, size);
        calls++;
        expect(again == 0, "write", "refuses what read accepts", again);
        expect(memcmp(out, bytes, size) == 0, "write", "writes other bytes than were read", again);
        free(out);
    }
    free(image);
    free(book);
}

static void write_book(const uint8_t *bytes, size_t size, size_t lent)
{
    uint8_t *image = copy_of(bytes, size);
    uint8_t *out = block(lent);
    memset(out, FILLER, lent);
    uint32_t number = daybook_raw_write(image, size, out, lent);
    calls++;
    if (size != DAYBOOK_IMAGE_SIZE)
        expect(number == DAYBOOK_WRONG_LENGTH, "write", "another length is not refused", number);
    else
        expect(number <= 7 && number != 1, "write", "no number of a question", number);
    if (number != 0)
        expect(all_bytes(out, lent, FILLER), "write", "the part is changed", number);
    free(out);
    free(image);
}

/* Every function once, on bytes taken for a book and for an image. */
static void every(const uint8_t *bytes, size_t size, uint32_t id)
{
    for (size_t which = 0; which < ANSWERS; which++)
        ask(which, bytes, size, id, answers[which].count);
    post(bytes, size, id, (uint32_t)(next() % 4), (int64_t)next());
    show(bytes, size, id, DAYBOOK_RECORD_SIZE);
    read_book(bytes, size, DAYBOOK_IMAGE_SIZE);
    write_book(bytes, size, (size_t)(next() % 300));
}

/* ---- the return of shrinkage */

/* A return for balances in a block of exactly their number. */
static void return_shrinkage(const int64_t *balances, size_t users, size_t count)
{
    uint8_t *given = copy_of((const uint8_t *)balances, users * sizeof *balances);
    uint64_t *answer = block(count * sizeof *answer);
    memset(answer, FILLER, count * sizeof *answer);
    uint32_t number = daybook_raw_shrinkage_return((const int64_t *)(const void *)given, users, answer, count);
    calls++;
    if (count != DAYBOOK_RETURN_NUMBERS) {
        expect(number == DAYBOOK_WRONG_LENGTH, "shrinkage_return", "another length is not refused", number);
        expect(all_bytes(answer, count * sizeof *answer, FILLER), "shrinkage_return", "a part of another length is changed", number);
    } else {
        expect(number == 0 || number == 27 || number == 28, "shrinkage_return", "no number of a question", number);
        expect((number == 28) == (users > DAYBOOK_MAX_USERS), "shrinkage_return", "28 is for more than 64 users", number);
        if (number != 0)
            expect(all_bytes(answer, count * sizeof *answer, 0), "shrinkage_return", "a refused answer is not 0", number);
    }
    free(answer);
    free(given);
}

/* The days of a share: they sum to it, and none falls below the next. */
static void spread_share(uint64_t share, size_t count)
{
    uint64_t *days = block(count * sizeof *days);
    memset(days, FILLER, count * sizeof *days);
    uint32_t number = daybook_raw_shrinkage_days(share, days, count);
    calls++;
    if (count != DAYBOOK_SHRINKAGE_DAYS) {
        expect(number == DAYBOOK_WRONG_LENGTH, "shrinkage_days", "another length is not refused", number);
        expect(all_bytes(days, count * sizeof *days, FILLER), "shrinkage_days", "a part of another length is changed", number);
    } else {
        uint64_t sum = days[0];
        expect(number == 0, "shrinkage_days", "a share is refused", number);
        for (size_t i = 1; i < count; i++) {
            expect(days[i] <= days[i - 1], "shrinkage_days", "a day exceeds the one before", number);
            sum += days[i];
        }
        expect(sum == share, "shrinkage_days", "the days do not sum to the share", number);
    }
    free(days);
}

/* Balances of any 64 bits, in range, and in range below 0, of every number of users up to some more than 64; lent parts of every length near those that are asked for. */
static void shrinkage_returns(void)
{
    int64_t balances[70];
    for (size_t users = 0; users <= 70; users++)
        for (int kind = 0; kind < 3; kind++) {
            for (size_t i = 0; i < users; i++) {
                uint64_t drawn = next();
                balances[i] = kind == 0 ? (int64_t)drawn : kind == 1 ? (int64_t)(drawn % 1000000001) - 500000000 : -(int64_t)(drawn % 500000001);
            }
            return_shrinkage(balances, users, DAYBOOK_RETURN_NUMBERS);
        }
    for (size_t count = 0; count <= DAYBOOK_RETURN_NUMBERS + 3; count++) {
        return_shrinkage(balances, 3, count);
        spread_share(next(), count);
    }
}

/* ---- the inputs */

/* Random bytes of every length; at every fourth with the sample's header, and the counts that the length allows, so that the fields are asked too. */
static void random_bytes(const uint8_t *sample)
{
    const size_t header = DAYBOOK_HEADER_SIZE(sample);
    for (size_t size = 0; size <= LONGEST; size++) {
        uint8_t *bytes = block(size);
        for (size_t i = 0; i < size; i++)
            bytes[i] = (uint8_t)next();
        if (size % 4 == 0 && size >= header + DAYBOOK_USER_SIZE(sample)) {
            memcpy(bytes, sample, header);
            size_t users = (size - header) / DAYBOOK_USER_SIZE(sample);
            users = users > DAYBOOK_MAX_USERS ? DAYBOOK_MAX_USERS : users;
            while (users > 1 && (size - header - users * DAYBOOK_USER_SIZE(sample)) % DAYBOOK_TRADE_SIZE != 0)
                users--;
            size_t trades = (size - header - users * DAYBOOK_USER_SIZE(sample)) / DAYBOOK_TRADE_SIZE;
            bytes[5] = (uint8_t)users;
            bytes[6] = (uint8_t)trades;
            bytes[7] = (uint8_t)(trades >> 8);
        }
        every(bytes, size, (uint32_t)next());
        free(bytes);
    }
}

/* The sample with one byte changed, each byte in three ways. */
static void damaged_books(const uint8_t *sample, size_t size, uint32_t id)
{
    const uint8_t changes[] = {0x01, 0x80, 0xFF};
    for (size_t at = 0; at < size; at++)
        for (size_t k = 0; k < sizeof changes; k++) {
            uint8_t *bytes = copy_of(sample, size);
            bytes[at] ^= changes[k];
            every(bytes, size, id);
            free(bytes);
        }
}

/* The image of the sample with one byte of the header, of the first users, around the first trades or of the last one changed, written to a part of the sample's length. */
static void damaged_images(const uint8_t *sample, size_t size)
{
    uint8_t *image = block(DAYBOOK_IMAGE_SIZE);
    uint32_t number = daybook_raw_read(sample, size, DAYBOOK_OPERATOR, image, DAYBOOK_IMAGE_SIZE);
    expect(number == 0, "read", "the sample is refused", number);
    const size_t users = DAYBOOK_HEADER_SIZE_2, trades = users + DAYBOOK_USER_SIZE_3 * DAYBOOK_MAX_USERS;
    for (size_t at = 0; at < DAYBOOK_IMAGE_SIZE; at++) {
        if (at == users + 4 * DAYBOOK_USER_SIZE_3)
            at = trades - DAYBOOK_USER_SIZE_3;
        if (at == trades + 4 * DAYBOOK_TRADE_SIZE)
            at = DAYBOOK_IMAGE_SIZE - 2 * DAYBOOK_TRADE_SIZE;
        image[at] ^= 0xFF;
        write_book(image, DAYBOOK_IMAGE_SIZE, size);
        image[at] ^= 0xFF;
    }
    free(image);
}

/* Ids, areas and amounts at the ends of their types and of their ranges. */
static void hostile_arguments(const uint8_t *sample, size_t size, uint32_t id)
{
    const uint32_t ids[] = {0, 1, id, id + 1, 0x7FFFFFFF, 0x80000000, 0xFFFFFFFF};
    const uint32_t areas[] = {0, 1, 2, 3, 0x100, 0x80000000, 0xFFFFFFFF};
    const int64_t amounts[] = {0, 1, -1, 1000000, -1000000, 2000001, -2000001, INT64_C(4294967296), INT64_MAX, INT64_MIN};
    for (size_t i = 0; i < sizeof ids / sizeof ids[0]; i++) {
        every(sample, size, ids[i]);
        for (size_t a = 0; a < sizeof areas / sizeof areas[0]; a++)
            for (size_t k = 0; k < sizeof amounts / sizeof amounts[0]; k++)
                post(sample, size, ids[i], areas[a], amounts[k]);
    }
}

/* Lent parts of every length near the one that is asked for, and of none. */
static void wrong_lengths(const uint8_t *sample, size_t size, uint32_t id)
{
    for (size_t which = 0; which < ANSWERS; which++)
        for (size_t count = 0; count <= answers[which].count + 3; count++)
            ask(which, sample, size, id, count);
    for (size_t lent = 0; lent <= 2 * DAYBOOK_RECORD_SIZE; lent++)
        show(sample, size, id, lent);
    const size_t lengths[] = {0, 1, 31, 32, 40, 8744, DAYBOOK_IMAGE_SIZE - 8, DAYBOOK_IMAGE_SIZE - 1, DAYBOOK_IMAGE_SIZE, DAYBOOK_IMAGE_SIZE + 1, 2 * DAYBOOK_IMAGE_SIZE};
    uint8_t *zeros = calloc(2, DAYBOOK_IMAGE_SIZE);
    for (size_t i = 0; i < sizeof lengths / sizeof lengths[0]; i++) {
        read_book(sample, size, lengths[i]);
        for (size_t k = 0; k < sizeof lengths / sizeof lengths[0]; k++)
            write_book(zeros, lengths[i], lengths[k]);
    }
    free(zeros);
}

/* The largest book of the sample's version: 64 users with the ids 1 to 64, and 256 sales of 1 MWh from the first to the second, which in version 3 manage all others. */
static void largest_book(const uint8_t *sample)
{
    const size_t users = DAYBOOK_HEADER_SIZE(sample);
    const size_t trades = users + DAYBOOK_USER_SIZE(sample) * DAYBOOK_MAX_USERS;
    const size_t size = trades + DAYBOOK_TRADE_SIZE * DAYBOOK_MAX_TRADES;
    uint8_t *book = calloc(1, size);
    memcpy(book, sample, users);
    book[5] = DAYBOOK_MAX_USERS;
    book[6] = 0;
    book[7] = 1;
    for (size_t i = 0; i < DAYBOOK_MAX_USERS; i++)
        book[users + DAYBOOK_USER_SIZE(sample) * i] = (uint8_t)(i + 1);
    for (size_t i = 2; sample[3] == 3 && i < DAYBOOK_MAX_USERS; i++)
        for (size_t area = 0; area < 3; area++)
            book[users + DAYBOOK_USER_SIZE_3 * i + DAYBOOK_USER_SIZE_1 + 4 * area] = (uint8_t)((i + area) % 3);
    const int32_t sold = -256, bought = 256;
    for (size_t k = 0; k < 4; k++) {
        book[users + 20 + k] = (uint8_t)((uint32_t)sold >> (8 * k));
        book[users + DAYBOOK_USER_SIZE(sample) + 20 + k] = (uint8_t)((uint32_t)bought >> (8 * k));
    }
    for (size_t i = 0; i < DAYBOOK_MAX_TRADES; i++) {
        uint8_t *trade = book + trades + DAYBOOK_TRADE_SIZE * i;
        trade[0] = 1;
        trade[4] = 2;
        trade[12] = 1;
        trade[16] = 1;
    }
    uint8_t *image = block(DAYBOOK_IMAGE_SIZE);
    uint32_t number = daybook_raw_read(book, size, DAYBOOK_OPERATOR, image, DAYBOOK_IMAGE_SIZE);
    expect(number == 0, "read", "the largest book is refused", number);
    for (uint32_t id = 0; id <= DAYBOOK_MAX_USERS + 1; id += 13)
        every(book, size, id);
    free(image);
    free(book);
}

int main(int argc, char **argv)
{
    static uint8_t sample[DAYBOOK_IMAGE_SIZE];
    uint32_t id;
    size_t size = read_sample(argc, argv, sample, &id);
    random_bytes(sample);
    damaged_books(sample, size, id);
    damaged_images(sample, size);
    hostile_arguments(sample, size, id);
    wrong_lengths(sample, size, id);
    largest_book(sample);
    shrinkage_returns();
    printf("%lu calls, as the header says\n", calls);
    return 0;
}
