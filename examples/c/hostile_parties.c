/* Calls every function that takes an acting party with parties of any kind: hostile_parties BOOK. Each part is a block of exactly its length, so that valgrind sees a byte read
   or written outside it (the script `valgrind` beside this file). What a caller can tell is held against the header: 26 for everybody who may not make the call, before every
   question but 1 to 7, and for a shipper of its own id what the operator is told. */
#include "hostile.h"

enum { ORDINAL = 1, ROOM = DAYBOOK_IMAGE_SIZE + 8 };

/* What a call was given, and what it left. The answer is lent as bytes: numbers, a record, an image, marks and numbers, or an output. */
typedef struct {
    uint32_t number;
    size_t size, answer_size;
    uint8_t *book;
    uint8_t answer[ROOM];
} outcome;

typedef struct {
    const char *name;
    size_t answer_size;
    int shippers; /* may a shipper make the call for its own id? */
    int keeps;    /* is the answer left as it was by a refusal? */
    uint32_t (*call)(uint8_t *book, size_t size, uint64_t party, uint32_t id, uint8_t *answer, size_t answer_size);
} function;

#define NUMBERS(answer, size) (uint64_t *)(void *)(answer), (size) / 8
#define CALL(name, ...) \
    static uint32_t name(uint8_t *book, size_t size, uint64_t party, uint32_t id, uint8_t *answer, size_t answer_size) \
    { \
        (void)id; \
        (void)answer; \
        (void)answer_size; \
        return daybook_raw_##name(__VA_ARGS__); \
    }

CALL(read, book, size, party, answer, answer_size)
CALL(form, book, size, party, answer, answer_size)
CALL(convert, book, size, party, id % 5, answer, answer_size)
CALL(show, book, size, party, GIVEN, id, answer, answer_size)
CALL(morning_level, book, size, party, GIVEN, id, NUMBERS(answer, answer_size))
CALL(afternoon_level, book, size, party, GIVEN, id, NUMBERS(answer, answer_size))
CALL(levels, book, size, party, GIVEN, NUMBERS(answer, answer_size))
CALL(warning, book, size, party, GIVEN, id, NUMBERS(answer, answer_size))
CALL(flag, book, size, party, GIVEN, id, NUMBERS(answer, answer_size))
CALL(trade_count, book, size, party, GIVEN, id, NUMBERS(answer, answer_size))
CALL(posting, book, size, party, GIVEN, DAYBOOK_NO_LOG, id, 1, 5)
CALL(morning_call, book, size, party, GIVEN, DAYBOOK_NO_LOG, id, NUMBERS(answer, answer_size))
CALL(afternoon_call, book, size, party, GIVEN, DAYBOOK_NO_LOG, id, NUMBERS(answer, answer_size))
CALL(reduction, book, size, party, GIVEN, DAYBOOK_NO_LOG, id, NUMBERS(answer, answer_size))
CALL(run, book, size, party, GIVEN, DAYBOOK_NO_LOG, NUMBERS(answer, answer_size))

/* The picked book is the given one, the other is none. */
static uint32_t show_picked(uint8_t *book, size_t size, uint64_t party, uint32_t id, uint8_t *answer, size_t answer_size)
{
    uint8_t other = 'G';
    return id % 2 == 0 ? daybook_raw_show_picked(book, size, &other, 1, party, GIVEN, 0, id, answer, answer_size)
                       : daybook_raw_show_picked(&other, 1, book, size, party, GIVEN, 7, id, answer, answer_size);
}

/* The number, then the trade. */
static uint32_t trade(uint8_t *book, size_t size, uint64_t party, uint32_t id, uint8_t *answer, size_t answer_size)
{
    return daybook_raw_trade(book, size, party, GIVEN, id, ORDINAL, answer + 8, answer_size - 8, NUMBERS(answer, 8));
}

/* The marks, then the numbers. */
static uint32_t cancellation(uint8_t *book, size_t size, uint64_t party, uint32_t id, uint8_t *answer, size_t answer_size)
{
    return daybook_raw_cancellation(book, size, party, GIVEN, id, 9, answer, DAYBOOK_MARKS, NUMBERS(answer + DAYBOOK_MARKS, answer_size - DAYBOOK_MARKS));
}

/* One place more than the lines has 15, which is asked after 26. */
static uint32_t list(uint8_t *book, size_t size, uint64_t party, uint32_t id, uint8_t *answer, size_t answer_size)
{
    const uint32_t ids[2] = {id, 0}, areas[2] = {0, 3};
    const int64_t amounts[2] = {-3, 4};
    return daybook_raw_list(book, size, party, GIVEN, DAYBOOK_NO_LOG, ids, 2, areas, 2, amounts, 2, (uint32_t *)(void *)answer, answer_size / 4);
}

/* A log of another book, or of none, has 19, which is asked after 26. */
static uint32_t withdrawal(uint8_t *book, size_t size, uint64_t party, uint32_t id, uint8_t *answer, size_t answer_size)
{
    size_t length = id % 3 == 0 ? DAYBOOK_LOG_SIZE : id % 3;
    uint8_t *log = block(length);
    memset(log, FILLER, length);
    if (length == DAYBOOK_LOG_SIZE)
        daybook_raw_start_log(log, length, book, size);
    uint8_t *before = copy_of(log, length);
    uint32_t number = daybook_raw_withdrawal(book, size, party, GIVEN, log, length, NUMBERS(answer, answer_size));
    expect(memcmp(before, log, length) == 0, "withdrawal", "a log without an entry is changed", number);
    free(before);
    free(log);
    return number;
}

static const function functions[] = {
    {"read", DAYBOOK_IMAGE_SIZE, 0, 0, read},
    {"convert", ROOM, 0, 1, convert},
    {"form", ROOM, 0, 1, form},
    {"show", DAYBOOK_RECORD_SIZE, 1, 0, show},
    {"show_picked", DAYBOOK_RECORD_SIZE, 1, 0, show_picked},
    {"morning_level", 8 * DAYBOOK_LEVEL_NUMBERS, 1, 0, morning_level},
    {"afternoon_level", 8 * DAYBOOK_LEVEL_NUMBERS, 1, 0, afternoon_level},
    {"warning", 8 * DAYBOOK_WARNING_NUMBERS, 0, 0, warning},
    {"flag", 8 * DAYBOOK_FLAG_NUMBERS, 1, 0, flag},
    {"levels", 8 * DAYBOOK_ALL_LEVELS_NUMBERS, 0, 0, levels},
    {"trade_count", 8 * DAYBOOK_COUNT_NUMBERS, 1, 0, trade_count},
    {"trade", 8 * DAYBOOK_TRADE_NUMBERS + DAYBOOK_TRADE_SIZE, 1, 0, trade},
    {"posting", 0, 0, 1, posting},
    {"list", 8, 0, 1, list},
    {"list of 3 places", 12, 0, 1, list},
    {"morning_call", 8 * DAYBOOK_CALL_NUMBERS, 0, 0, morning_call},
    {"afternoon_call", 8 * DAYBOOK_CALL_NUMBERS, 0, 0, afternoon_call},
    {"reduction", 8 * DAYBOOK_REDUCTION_NUMBERS, 0, 0, reduction},
    {"cancellation", DAYBOOK_MARKS + 8 * DAYBOOK_CANCELLATION_NUMBERS, 0, 0, cancellation},
    {"run", 8 * DAYBOOK_RUN_NUMBERS, 0, 0, run},
    {"withdrawal", 8 * DAYBOOK_WITHDRAWAL_NUMBERS, 0, 0, withdrawal},
};

enum { FUNCTIONS = sizeof functions / sizeof functions[0] };

/* One call on a copy of the book. */
static outcome made(const function *it, const uint8_t *book, size_t size, uint64_t party, uint32_t id)
{
    outcome done = {0, size, it->answer_size, copy_of(book, size), {0}};
    uint8_t *answer = block(it->answer_size);
    memset(answer, FILLER, it->answer_size);
    done.number = it->call(done.book, size, party, id, answer, it->answer_size);
    memcpy(done.answer, answer, it->answer_size);
    free(answer);
    calls++;
    if (done.number != 0) {
        expect(size == 0 || memcmp(done.book, book, size) == 0, it->name, "a refused call changes the book", done.number);
        expect(all_bytes(done.answer, it->answer_size, it->keeps ? FILLER : 0), it->name, "a refused answer tells something", done.number);
    }
    return done;
}

/* Whether the id is a shipper's of an accepted book. */
static int is_shipper(const uint8_t *book, uint64_t id)
{
    const uint8_t *user = book + DAYBOOK_HEADER_SIZE(book);
    for (size_t place = 0; place < book[5]; place++, user += DAYBOOK_USER_SIZE(book))
        if ((user[0] | (uint64_t)user[1] << 8 | (uint64_t)user[2] << 16 | (uint64_t)user[3] << 24) == id && user[4] == 0)
            return 1;
    return 0;
}

/* Every call by one party for one id, held against the operator's. */
static void by_party(const uint8_t *book, size_t size, uint64_t party, uint32_t id)
{
    for (const function *it = functions; it < functions + FUNCTIONS; it++) {
        outcome operators = made(it, book, size, DAYBOOK_OPERATOR, id);
        outcome partys = made(it, book, size, party, id);
        int opens = operators.number == 0 || operators.number > 7;
        int may = party == DAYBOOK_OPERATOR || (it->shippers && party == id && opens && is_shipper(book, party));
        expect(operators.number != 26, it->name, "the operator may not", operators.number);
        if (!opens || may) {
            expect(partys.number == operators.number, it->name, "another number than the operator's", partys.number);
            expect(memcmp(partys.answer, operators.answer, it->answer_size) == 0, it->name, "another answer than the operator's", partys.number);
            expect(size == 0 || memcmp(partys.book, operators.book, size) == 0, it->name, "another book than the operator's", partys.number);
        } else {
            expect(partys.number == 26, it->name, "a forbidden call is not refused by 26", partys.number);
        }
        free(operators.book);
        free(partys.book);
    }
}

/* The ids of the book and of nobody, next to the operator and to the ends of 32 and 64 bits. */
static void every_party(const uint8_t *book, size_t size, uint32_t id)
{
    const uint64_t parties[] = {id, id + 1u, id - 1u, id + 2u, 0, 1, DAYBOOK_OPERATOR, DAYBOOK_OPERATOR + 1, DAYBOOK_OPERATOR - 1, DAYBOOK_OPERATOR + id,
                                (uint64_t)id << 32, UINT64_C(1) << 63, UINT64_MAX, next()};
    const uint32_t ids[] = {id, id + 1, 0, UINT32_MAX};
    for (size_t p = 0; p < sizeof parties / sizeof parties[0]; p++)
        for (size_t i = 0; i < sizeof ids / sizeof ids[0]; i++) {
            give_store();
            by_party(book, size, parties[p], ids[i]);
            take_store_back();
        }
}

/* Parts of other lengths are told before anything is asked, whoever acts. */
static void other_lengths(const uint8_t *book, size_t size, uint32_t id)
{
    for (size_t f = 0; f < FUNCTIONS; f++) {
        function other = functions[f];
        if (other.answer_size == ROOM || other.answer_size == 0 || other.call == list)
            continue;
        other.answer_size += 8;
        other.keeps = 1;
        give_store();
        outcome done = made(&other, book, size, next(), id);
        expect(done.number == DAYBOOK_WRONG_LENGTH, other.name, "another length is not told", done.number);
        free(done.book);
        take_store_back();
    }
}

int main(int argc, char **argv)
{
    static uint8_t sample[DAYBOOK_IMAGE_SIZE], changed[DAYBOOK_IMAGE_SIZE];
    uint32_t id;
    size_t size = read_sample(argc, argv, sample, &id);

    every_party(sample, size, id);
    other_lengths(sample, size, id);
    /* a clearing house acts for nobody, and books with a byte changed or cut off are refused alike for all */
    memcpy(changed, sample, size);
    changed[DAYBOOK_HEADER_SIZE(sample) + 4] = 1;
    every_party(changed, size, id);
    for (size_t round = 0; round < 12; round++) {
        memcpy(changed, sample, size);
        changed[next() % size] ^= (uint8_t)(1u << next() % 8);
        every_party(changed, round % 3 == 0 ? next() % size : size, id);
    }
    printf("%lu calls by parties of any kind, as the header says\n", calls);
    return 0;
}
