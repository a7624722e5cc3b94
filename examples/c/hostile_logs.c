/* Calls the functions that take a log on hostile input: hostile_logs BOOK. Each part is a block of exactly its length, so that valgrind sees a byte read or written outside it
   (the script `valgrind` beside this file). What a caller can tell is held against the header: the numbers, the 0 of a refused answer, what stays unchanged, and what a log
   has after an accepted call. */
#include "hostile.h"

/* The parts of a log: its numbers, 32 bits each, the held book and the entries. */
enum { COUNT_AT = 4, LENGTH_AT = 8, HELD_AT = 12, HELD_ROOM = DAYBOOK_IMAGE_SIZE, ENTRIES_AT = HELD_AT + HELD_ROOM, ENTRY_SIZE = 1024 };

enum { SIZE = DAYBOOK_LOG_SIZE, MOST = DAYBOOK_MAX_ENTRIES };

/* ---- the calls, under one type */

enum { POSTING, LIST, MORNING_CALL, AFTERNOON_CALL, REDUCTION, RUN, WITHDRAWAL, CALLS };

#define QUESTION(number) (1ul << (number))
#define BEFORE_ID (QUESTION(8) - 2 + QUESTION(16) + QUESTION(17) + QUESTION(19))

static const struct {
    const char *name;
    size_t count;            /* of the numbers of its answer */
    unsigned long questions; /* that can refuse it */
} made[CALLS] = {
    {"posting", 0, BEFORE_ID + QUESTION(8) + QUESTION(10)},
    {"list", 0, BEFORE_ID + QUESTION(15)},
    {"morning_call", DAYBOOK_CALL_NUMBERS, BEFORE_ID + QUESTION(8) + QUESTION(9) + QUESTION(11) + QUESTION(12)},
    {"afternoon_call", DAYBOOK_CALL_NUMBERS, BEFORE_ID + QUESTION(8) + QUESTION(9) + QUESTION(11) + QUESTION(12)},
    {"reduction", DAYBOOK_REDUCTION_NUMBERS, BEFORE_ID + QUESTION(8) + QUESTION(9) + QUESTION(11) + QUESTION(13) + QUESTION(14) + QUESTION(20)},
    {"run", DAYBOOK_RUN_NUMBERS, BEFORE_ID},
    {"withdrawal", DAYBOOK_WITHDRAWAL_NUMBERS, BEFORE_ID + QUESTION(18)},
};

struct part {
    uint8_t *bytes;
    size_t size;
};

static uint32_t make(int which, struct part book, uint32_t with_log, struct part log, uint32_t id, uint64_t *answer, size_t count)
{
    const uint32_t ids[2] = {id, id + 1}, areas[2] = {0, 2};
    const int64_t amounts[2] = {-1, 7};
    uint32_t places[2];
    switch (which) {
    case POSTING:
        return daybook_raw_posting(book.bytes, book.size, DAYBOOK_OPERATOR, GIVEN, with_log, log.bytes, log.size, id, 1, 5);
    case LIST:
        return daybook_raw_list(book.bytes, book.size, DAYBOOK_OPERATOR, GIVEN, with_log, log.bytes, log.size, ids, 2, areas, 2, amounts, 2, places, 2);
    case MORNING_CALL:
        return daybook_raw_morning_call(book.bytes, book.size, DAYBOOK_OPERATOR, GIVEN, with_log, log.bytes, log.size, id, answer, count);
    case AFTERNOON_CALL:
        return daybook_raw_afternoon_call(book.bytes, book.size, DAYBOOK_OPERATOR, GIVEN, with_log, log.bytes, log.size, id, answer, count);
    case REDUCTION:
        return daybook_raw_reduction(book.bytes, book.size, DAYBOOK_OPERATOR, GIVEN, with_log, log.bytes, log.size, id, answer, count);
    case RUN:
        return daybook_raw_run(book.bytes, book.size, DAYBOOK_OPERATOR, GIVEN, with_log, log.bytes, log.size, answer, count);
    default:
        return daybook_raw_withdrawal(book.bytes, book.size, DAYBOOK_OPERATOR, GIVEN, log.bytes, log.size, answer, count);
    }
}

/* ---- logs */

static struct part part_of(const uint8_t *bytes, size_t size)
{
    return (struct part){copy_of(bytes, size), size};
}

static int same(struct part part, struct part other)
{
    return part.size == 0 || memcmp(part.bytes, other.bytes, part.size) == 0;
}

static uint32_t number_at(const uint8_t *bytes)
{
    return bytes[0] | (uint32_t)bytes[1] << 8 | (uint32_t)bytes[2] << 16 | (uint32_t)bytes[3] << 24;
}

static void put_number(uint8_t *bytes, uint32_t number)
{
    for (size_t k = 0; k < 4; k++)
        bytes[k] = (uint8_t)(number >> (8 * k));
}

/* A log holds a book: its head and the bytes up to the entries. */
static void expect_held(const char *call, const uint8_t *log, struct part book)
{
    expect(memcmp(log, "GDL", 4) == 0, call, "another mark than a log's", 0);
    expect(number_at(log + LENGTH_AT) == book.size, call, "the held book is of another length", 0);
    expect(book.size == 0 || memcmp(log + HELD_AT, book.bytes, book.size) == 0, call, "the log holds another book", 0);
    expect(all_bytes(log + HELD_AT + book.size, HELD_ROOM - book.size, 0), call, "bytes behind the held book are not 0", 0);
}

/* The log after an accepted call: it holds the book, and has as many entries as the header says. */
static void expect_noted(int which, uint32_t number, struct part before, struct part log, struct part book, const uint64_t *answer)
{
    const char *call = made[which].name;
    expect(log.size == SIZE, call, "a log of another length is accepted", number);
    uint32_t had = number_at(before.bytes + COUNT_AT), has = number_at(log.bytes + COUNT_AT);
    expect_held(call, log.bytes, book);
    if (which == REDUCTION)
        expect(has == had + 1, call, "not one entry more", has);
    else if (which == RUN)
        expect(has == had + answer[0] && (number == 0 || has == MOST), call, "not an entry for each reduction", has);
    else if (which == WITHDRAWAL)
        expect(had != 0 && has == had - 1, call, "not one entry less", has);
    else
        expect(has == 0, call, "the log is not emptied", has);
    expect(has <= MOST && all_bytes(log.bytes + ENTRIES_AT + ENTRY_SIZE * has, ENTRY_SIZE * (size_t)(MOST - has), 0), call, "bytes behind the entries are not 0", has);
}

/* Makes a call, and holds what it leaves against the header. */
static uint32_t ask(int which, struct part book, uint32_t with_log, struct part log, uint32_t id, size_t count)
{
    const char *call = made[which].name;
    struct part book_before = part_of(book.bytes, book.size), log_before = part_of(log.bytes, log.size);
    uint64_t *answer = block(count * sizeof *answer);
    memset(answer, FILLER, count * sizeof *answer);
    uint32_t number = make(which, book, with_log, log, id, answer, count);
    int logged = with_log != 0 || which == WITHDRAWAL;
    calls++;
    if (count != made[which].count) {
        expect(number == DAYBOOK_WRONG_LENGTH, call, "another length is not refused", number);
        expect(all_bytes(answer, count * sizeof *answer, FILLER), call, "a part of another length is changed", number);
    } else if (number == 0 || (which == RUN && number == 20)) {
        expect(number == 0 || logged, call, "20 without a log", number);
        if (logged)
            expect_noted(which, number, log_before, log, book, answer);
    } else {
        expect(number <= 20 && (made[which].questions & QUESTION(number)) != 0, call, "no number of a question", number);
        expect(logged || number < 18, call, "a question about a log that is not given", number);
        expect(all_bytes(answer, count * sizeof *answer, 0), call, "a refused answer is not 0", number);
    }
    if (number != 0 && !(which == RUN && number == 20))
        expect(same(book_before, book) && same(log_before, log), call, "a refused call changes the book or the log", number);
    if (!logged)
        expect(same(log_before, log), call, "a log that is not given is changed", number);
    free(answer);
    free(log_before.bytes);
    free(book_before.bytes);
    return number;
}

/* The same on copies of book and log. */
static uint32_t ask_copies(int which, struct part book, struct part log, uint32_t id)
{
    struct part own = part_of(book.bytes, book.size), lent = part_of(log.bytes, log.size);
    uint32_t number = ask(which, own, 1, lent, id, made[which].count);
    free(lent.bytes);
    free(own.bytes);
    return number;
}

static void without_store(void)
{
    given.with = 0;
    given.size = 0;
    given.bytes = block(0);
}

/* Starts a log in a part of this size that has another content. */
static struct part started(struct part book, size_t size)
{
    struct part log = {block(size), size};
    memset(log.bytes, FILLER, size);
    uint32_t number = daybook_raw_start_log(log.bytes, size, book.bytes, book.size);
    calls++;
    if (size == SIZE && book.size <= HELD_ROOM) {
        expect(number == 0, "start_log", "a book that fits in is refused", number);
        expect_held("start_log", log.bytes, book);
        expect(number_at(log.bytes + COUNT_AT) == 0 && all_bytes(log.bytes + ENTRIES_AT, SIZE - ENTRIES_AT, 0), "start_log", "an entry at the start", number);
    } else {
        expect(number == 19, "start_log", "another length is not refused", number);
        expect(all_bytes(log.bytes, size, FILLER), "start_log", "a refused log is changed", number);
    }
    return log;
}

/* ---- the inputs. `book` is one with a reduction made, which `log` notes. */

/* Logs of other lengths, whole and cut off. */
static void wrong_lengths(struct part book, struct part log, uint32_t id)
{
    const size_t sizes[] = {0, 1, 3, 4, 11, 12, 13, ENTRIES_AT - 1, ENTRIES_AT, ENTRIES_AT + ENTRY_SIZE, SIZE - ENTRY_SIZE, SIZE - 1, SIZE + 1, SIZE + ENTRY_SIZE, 2 * SIZE};
    uint8_t *twice = block(2 * SIZE);
    memcpy(twice, log.bytes, SIZE);
    memset(twice + SIZE, 0, SIZE);
    for (size_t i = 0; i < sizeof sizes / sizeof sizes[0]; i++) {
        free(started(book, sizes[i]).bytes);
        for (int which = 0; which < CALLS; which++) {
            uint32_t number = ask_copies(which, book, (struct part){twice, sizes[i]}, id);
            expect(number == 19, made[which].name, "a log of another length is not refused", number);
        }
    }
    free(twice);
    const size_t lengths[] = {0, 1, HELD_ROOM - 1, HELD_ROOM, HELD_ROOM + 1, SIZE};
    for (size_t i = 0; i < sizeof lengths / sizeof lengths[0]; i++) {
        struct part bytes = {block(lengths[i]), lengths[i]};
        memset(bytes.bytes, FILLER, lengths[i]);
        free(started(bytes, SIZE).bytes);
        free(bytes.bytes);
    }
}

/* One byte changed, then put back: by this call, or by each of them. */
static void damaged(struct part book, struct part log, uint32_t id, size_t at, uint8_t change, int every, int refused)
{
    log.bytes[at] ^= change;
    for (int which = every ? 0 : (int)(at % CALLS); which < CALLS; which += every ? 1 : CALLS) {
        uint32_t number = ask_copies(which, book, log, id);
        expect(!refused || number == 19, made[which].name, "a damaged log is not refused", number);
    }
    log.bytes[at] ^= change;
}

/* Every byte of the head, of the held book and of the first cuts, and bytes that are not used. Another count or another cut may do. */
static void damaged_logs(struct part book, struct part log, uint32_t id)
{
    const size_t cuts = 4 * (book.bytes[6] | (size_t)book.bytes[7] << 8);
    for (size_t at = 0; at < HELD_AT; at++) {
        damaged(book, log, id, at, 0x01, 1, at < COUNT_AT || at >= LENGTH_AT);
        damaged(book, log, id, at, 0x80, 1, at < COUNT_AT || at >= LENGTH_AT);
        damaged(book, log, id, at, 0xFF, 0, at < COUNT_AT || at >= LENGTH_AT);
    }
    for (size_t at = HELD_AT; at < HELD_AT + book.size; at++)
        damaged(book, log, id, at, (uint8_t)(1u << at % 8), 0, 1);
    for (size_t at = HELD_AT + book.size; at < ENTRIES_AT; at += 431)
        damaged(book, log, id, at, 0x10, 0, 1);
    damaged(book, log, id, ENTRIES_AT - 1, 0x01, 1, 1);
    for (size_t at = ENTRIES_AT; at < ENTRIES_AT + cuts; at++)
        for (unsigned change = 1; change < 256; change *= 2)
            damaged(book, log, id, at, (uint8_t)change, 0, 0);
    for (size_t at = ENTRIES_AT + cuts; at < SIZE; at += 8191)
        damaged(book, log, id, at, 0x40, 0, 1);
    damaged(book, log, id, SIZE - 1, 0x01, 1, 1);
}

/* Counts of entries whose cuts are 0; cuts that are too many only together, their sum 0 in 32 bits; full logs whose cuts are as large as they can be. */
static void forged_logs(struct part book, uint32_t id)
{
    const uint32_t counts[] = {0, 1, 2, 127, MOST - 1, MOST, MOST + 1, 0x10000, 0x80000000, 0xFFFFFFFF};
    struct part log = started(book, SIZE);
    for (size_t i = 0; i < sizeof counts / sizeof counts[0]; i++) {
        put_number(log.bytes + COUNT_AT, counts[i]);
        for (int which = 0; which < CALLS; which++)
            expect((ask_copies(which, book, log, id) == 19) == (counts[i] > MOST), made[which].name, "19 is for more than 256 entries", counts[i]);
    }
    put_number(log.bytes + COUNT_AT, 2);
    put_number(log.bytes + ENTRIES_AT, 0x80000000);
    put_number(log.bytes + ENTRIES_AT + ENTRY_SIZE, 0x80000000);
    for (int which = 0; which < CALLS; which++)
        expect(ask_copies(which, book, log, id) == 19, made[which].name, "a sum of cuts beyond what was notified is not refused", 0);
    put_number(log.bytes + COUNT_AT, MOST);
    for (size_t entry = 0; entry < MOST; entry++)
        put_number(log.bytes + ENTRIES_AT + ENTRY_SIZE * entry, 0xFFFFFFFF);
    for (int which = 0; which < CALLS; which++)
        expect(ask_copies(which, book, log, id) == 19, made[which].name, "cuts beyond what was notified are not refused", 0);
    memset(log.bytes + ENTRIES_AT, 0xFF, SIZE - ENTRIES_AT);
    for (int which = 0; which < CALLS; which++)
        expect(ask_copies(which, book, log, id) == 19, made[which].name, "cuts of trades that the book has not are not refused", 0);
    free(log.bytes);
}

/* Books of any bytes, of every kind of length, and the sample with one byte changed, each beside a log that holds it. */
static void other_books(const uint8_t *sample, size_t size, uint32_t id)
{
    without_store();
    for (size_t length = 0; length <= HELD_ROOM; length += length < 200 ? 7 : 233) {
        struct part book = {block(length), length};
        for (size_t i = 0; i < length; i++)
            book.bytes[i] = (uint8_t)next();
        memcpy(book.bytes, sample, length < DAYBOOK_HEADER_SIZE_1 ? length : DAYBOOK_HEADER_SIZE_1);
        struct part log = started(book, SIZE);
        for (int which = 0; which < CALLS; which++)
            ask_copies(which, book, log, id);
        free(log.bytes);
        free(book.bytes);
    }
    take_store_back();
    for (size_t at = 0; at < size; at++) {
        struct part book = part_of(sample, size);
        book.bytes[at] ^= (uint8_t)(1u << next() % 8);
        struct part log = started(book, SIZE);
        give_store();
        for (int turn = 0; turn < 4; turn++)
            ask((int)(next() % CALLS), book, (uint32_t)(next() % 2), log, id, 0);
        for (int turn = 0; turn < 3; turn++) {
            int which = (int)(next() % CALLS);
            ask(which, book, (uint32_t)next() | 1, log, id, made[which].count);
        }
        take_store_back();
        free(log.bytes);
        free(book.bytes);
    }
}

/* Flags of no log and of one beside a part that is none; answers of other lengths. */
static void flags_and_answers(struct part book, struct part log, uint32_t id)
{
    const uint32_t flags[] = {0, 1, 2, 0x100, 0x80000000, 0xFFFFFFFF};
    for (int which = 0; which < CALLS; which++) {
        for (size_t i = 0; i < sizeof flags / sizeof flags[0]; i++) {
            struct part own = part_of(book.bytes, book.size), none = part_of(log.bytes, 100);
            uint32_t number = ask(which, own, flags[i], none, id, made[which].count);
            expect((number == 19) == (flags[i] != 0 || which == WITHDRAWAL), made[which].name, "19 is for a log that is given", number);
            free(none.bytes);
            free(own.bytes);
        }
        for (size_t count = 0; made[which].count != 0 && count <= made[which].count + 2; count++) {
            struct part own = part_of(book.bytes, book.size), lent = part_of(log.bytes, log.size);
            ask(which, own, 1, lent, id, count);
            free(lent.bytes);
            free(own.bytes);
        }
    }
}

/* A seller one cent short of cover whatever is cut, and a sale of 299 MWh, of which a reduction cuts one: a run fills a log, and withdrawals empty it. In version 3 the
   third user is short, as manager of the seller. */
static void life(const uint8_t *sample)
{
    const int managed = sample[3] == 3;
    const uint32_t id = managed ? 3 : 1;
    const size_t users = DAYBOOK_HEADER_SIZE(sample), user = DAYBOOK_USER_SIZE(sample), trade = users + (managed ? 3 : 2) * user;
    struct part book = {calloc(1, trade + DAYBOOK_TRADE_SIZE), trade + DAYBOOK_TRADE_SIZE};
    memcpy(book.bytes, sample, DAYBOOK_HEADER_SIZE_1);
    book.bytes[5] = managed ? 3 : 2;
    book.bytes[6] = 1;
    book.bytes[7] = 0;
    uint8_t *seller = book.bytes + users, *buyer = seller + user, *bearer = managed ? buyer + user : seller;
    put_number(seller, 1);
    put_number(seller + 8, 300);
    put_number(seller + 20, 1);
    if (managed)
        put_number(seller + DAYBOOK_USER_SIZE_1, id);
    put_number(bearer, id);
    put_number(bearer + 32, 20000000);
    put_number(bearer + 40, 19999999);
    put_number(buyer, 2);
    put_number(buyer + 20, 299);
    put_number(book.bytes + trade, 1);
    put_number(book.bytes + trade + 4, 2);
    put_number(book.bytes + trade + 12, 300);
    put_number(book.bytes + trade + 16, 299);

    struct part first = part_of(book.bytes, book.size), log = started(book, SIZE);
    expect(ask(REDUCTION, book, 1, log, id, DAYBOOK_REDUCTION_NUMBERS) == 0, "reduction", "refused", 0);
    expect(ask(RUN, book, 1, log, id, DAYBOOK_RUN_NUMBERS) == 20, "run", "a log does not fill", 0);
    expect(number_at(log.bytes + COUNT_AT) == MOST, "run", "a log is not full", 0);
    expect(ask(REDUCTION, book, 1, log, id, DAYBOOK_REDUCTION_NUMBERS) == 20, "reduction", "not refused by a full log", 0);
    expect(ask(RUN, book, 1, log, id, DAYBOOK_RUN_NUMBERS) == 20, "run", "not stopped by a full log", 0);
    for (uint32_t left = MOST; left != 0; left--)
        expect(ask(WITHDRAWAL, book, 1, log, id, DAYBOOK_WITHDRAWAL_NUMBERS) == 0, "withdrawal", "refused", left);
    expect(same(first, book), "withdrawal", "the book is not the first one", 0);
    expect(ask(WITHDRAWAL, book, 1, log, id, DAYBOOK_WITHDRAWAL_NUMBERS) == 18, "withdrawal", "an empty log is not refused", 0);
    expect(ask(RUN, book, 1, log, id, DAYBOOK_RUN_NUMBERS) == 20, "run", "a log does not fill again", 0);
    expect(ask(POSTING, book, 1, log, 2, 0) == 0, "posting", "refused", 0);
    expect(ask(RUN, book, 1, log, id, DAYBOOK_RUN_NUMBERS) == 0, "run", "a log that was emptied is full", 0);
    free(log.bytes);
    free(first.bytes);
    free(book.bytes);
}

int main(int argc, char **argv)
{
    static uint8_t sample[DAYBOOK_IMAGE_SIZE];
    uint32_t id;
    size_t size = read_sample(argc, argv, sample, &id);

    other_books(sample, size, id);
    without_store();
    struct part book = part_of(sample, size);
    struct part log = started(book, SIZE);
    uint32_t number = ask(REDUCTION, book, 1, log, id, DAYBOOK_REDUCTION_NUMBERS);
    expect(number == 0, "reduction", "the sample's first user is not reduced", number);
    wrong_lengths(book, log, id);
    damaged_logs(book, log, id);
    forged_logs(book, id);
    flags_and_answers(book, log, id);
    life(sample);
    free(log.bytes);
    free(book.bytes);
    take_store_back();
    printf("%lu calls with logs, as the header says\n", calls);
    return 0;
}
