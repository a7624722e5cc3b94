/* Puts hostile managers into a book of version 3: hostile_groups BOOK, whose fields are taken over from any version. Each part is a block of exactly its length, so that
   valgrind sees a byte read or written outside it (the script `valgrind` beside this file). What a caller can tell is held against the header: which managers question 5
   refuses, that versions 1 and 2 have none, the shown records, the level of a user that bears no risk, and answers without a manager, which are those of version 2. */
#include "hostile.h"

enum { USERS = DAYBOOK_HEADER_SIZE_2, RECORD = DAYBOOK_USER_SIZE_3, ROLE = 4, CHARGES = 32, MANAGERS = DAYBOOK_USER_SIZE_1, AREAS = 3 };

enum { LEAST_LEVEL = 10000000, DRAWS = 1500 };

/* ---- the fields of users in an image */

static uint8_t *user_at(uint8_t *image, size_t place)
{
    return image + USERS + RECORD * place;
}

static uint32_t number_at(const uint8_t *bytes)
{
    return bytes[0] | (uint32_t)bytes[1] << 8 | (uint32_t)bytes[2] << 16 | (uint32_t)bytes[3] << 24;
}

static void put_number(uint8_t *bytes, uint32_t number)
{
    for (size_t k = 0; k < 4; k++)
        bytes[k] = (uint8_t)(number >> (8 * k));
}

static uint32_t manager(uint8_t *image, size_t place, size_t area)
{
    return number_at(user_at(image, place) + MANAGERS + 4 * area);
}

/* Is a user's manager in an area one that the header allows? */
static int allowed(uint8_t *image, size_t place, size_t area)
{
    uint32_t id = manager(image, place, area);
    if (id == 0)
        return 1;
    if (user_at(image, place)[ROLE] != 0)
        return 0;
    for (size_t other = 0; other < image[5]; other++)
        if (other != place && number_at(user_at(image, other)) == id)
            return user_at(image, other)[ROLE] == 0 && manager(image, other, area) == 0;
    return 0;
}

static int all_allowed(uint8_t *image)
{
    int allowed_so_far = 1;
    for (size_t place = 0; place < image[5]; place++)
        for (size_t area = 0; area < AREAS; area++)
            allowed_so_far &= allowed(image, place, area);
    return allowed_so_far;
}

static size_t length_of(const uint8_t *image)
{
    size_t trades = image[6] | (size_t)image[7] << 8;
    return DAYBOOK_HEADER_SIZE(image) + DAYBOOK_USER_SIZE(image) * (size_t)image[5] + DAYBOOK_TRADE_SIZE * trades;
}

/* Writes the image as a book of a version, into a block of exactly its length. */
static uint8_t *written(uint8_t *image, uint8_t version, uint32_t *number)
{
    uint8_t before = image[3];
    image[3] = version;
    uint8_t *book = block(length_of(image));
    memset(book, FILLER, length_of(image));
    *number = daybook_raw_write(image, DAYBOOK_IMAGE_SIZE, book, length_of(image));
    calls++;
    image[3] = before;
    return book;
}

/* ---- what is held */

/* A shipper has levels, and of one that is managed in all three areas nothing but the charges enters them. */
static void expect_levels(uint8_t *image, const uint8_t *book, size_t size, size_t place)
{
    const uint8_t *user = user_at(image, place);
    uint64_t level[DAYBOOK_LEVEL_NUMBERS], charges = 0;
    uint32_t numbers[2] = {daybook_raw_morning_level(book, size, DAYBOOK_OPERATOR, DAYBOOK_NO_STORE, number_at(user), level, DAYBOOK_LEVEL_NUMBERS), 0};
    uint64_t morning = level[0];
    numbers[1] = daybook_raw_afternoon_level(book, size, DAYBOOK_OPERATOR, DAYBOOK_NO_STORE, number_at(user), level, DAYBOOK_LEVEL_NUMBERS);
    calls += 2;
    expect(numbers[0] == numbers[1] && (numbers[0] == 9) == (user[ROLE] != 0), "level", "9 is for a clearing house", numbers[0]);
    for (size_t area = 0; area < AREAS; area++)
        if (manager(image, place, area) == 0)
            return;
    for (size_t k = 8; k-- > 0;)
        charges = charges << 8 | user[CHARGES + k];
    uint64_t least = charges >> 63 != 0 || charges < LEAST_LEVEL ? LEAST_LEVEL : charges;
    expect(morning == least && level[0] == least, "level", "a user that is managed everywhere bears a risk", 0);
}

/* An accepted book: read back, shown, asked for levels, and run on a copy, with a store or none. */
static void expect_accepted(uint8_t *image, const uint8_t *book, size_t size)
{
    uint8_t *again = block(DAYBOOK_IMAGE_SIZE), *copy = copy_of(book, size);
    uint32_t number = daybook_raw_read(book, size, DAYBOOK_OPERATOR, again, DAYBOOK_IMAGE_SIZE);
    expect(number == 0 && memcmp(again, image, DAYBOOK_IMAGE_SIZE) == 0, "read", "another image than was written", number);
    for (size_t place = 0; place < image[5]; place++) {
        uint8_t record[DAYBOOK_RECORD_SIZE];
        number = daybook_raw_show(book, size, DAYBOOK_OPERATOR, DAYBOOK_NO_STORE, number_at(user_at(image, place)), record, DAYBOOK_RECORD_SIZE);
        expect(number == 0 && memcmp(record, user_at(image, place), RECORD) == 0, "show", "another record than was written", number);
        expect_levels(image, book, size, place);
    }
    uint64_t run[DAYBOOK_RUN_NUMBERS];
    give_store();
    number = daybook_raw_run(copy, size, DAYBOOK_OPERATOR, GIVEN, DAYBOOK_NO_LOG, run, DAYBOOK_RUN_NUMBERS);
    take_store_back();
    expect(number == 0 || number == 16 || number == 17, "run", "an accepted book is refused", number);
    uint64_t mwh = 0;
    for (size_t at = size - DAYBOOK_TRADE_SIZE * (image[6] | (size_t)image[7] << 8); at < size; at += DAYBOOK_TRADE_SIZE)
        mwh += number_at(book + at + 16) - number_at(copy + at + 16);
    expect(mwh == run[1], "run", "other cuts than are told", (uint32_t)mwh);
    calls += 2 + image[5];
    free(copy);
    free(again);
}

/* The image in each version: question 5 judges the managers in version 3, and versions 1 and 2 are written as without them. */
static void judge(uint8_t *image)
{
    uint32_t number;
    uint8_t *book = written(image, 3, &number);
    expect(number == (all_allowed(image) ? 0 : 5), "write", "question 5 judges managers otherwise", number);
    if (number == 0)
        expect_accepted(image, book, length_of(image));
    else
        expect(all_bytes(book, length_of(image), FILLER), "write", "a refused part is changed", number);
    free(book);
    uint8_t *bare = copy_of(image, DAYBOOK_IMAGE_SIZE);
    for (size_t place = 0; place < image[5]; place++)
        memset(user_at(bare, place) + MANAGERS, 0, 4 * AREAS);
    for (uint8_t version = 1; version <= 2; version++) {
        uint32_t without;
        uint8_t *with_managers = written(image, version, &number), *none = written(bare, version, &without);
        bare[3] = version;
        expect(number == 0 && without == 0, "write", "managers are looked at in versions 1 and 2", number);
        expect(memcmp(with_managers, none, length_of(bare)) == 0, "write", "managers are written in versions 1 and 2", number);
        free(none);
        free(with_managers);
    }
    free(bare);
}

/* ---- the inputs */

/* Each manager of each user as an id of the book, as one next to it, and at the ends of the type. */
static void single_managers(uint8_t *image)
{
    for (size_t place = 0; place < image[5]; place++)
        for (size_t area = 0; area < AREAS; area++) {
            uint8_t *at = user_at(image, place) + MANAGERS + 4 * area;
            const uint32_t before = number_at(at), ends[] = {0, 1, 0x7FFFFFFF, 0x80000000, 0xFFFFFFFF};
            for (size_t k = 0; k < sizeof ends / sizeof ends[0]; k++) {
                put_number(at, ends[k]);
                judge(image);
            }
            for (size_t other = 0; other < image[5]; other++)
                for (uint32_t beside = 0; beside <= 2; beside++) {
                    put_number(at, number_at(user_at(image, other)) + beside - 1);
                    judge(image);
                }
            put_number(at, before);
        }
}

/* Managers of all users drawn together, a clearing house among them now and then. */
static void drawn_managers(uint8_t *image)
{
    for (size_t draw = 0; draw < DRAWS; draw++) {
        uint8_t *own = copy_of(image, DAYBOOK_IMAGE_SIZE);
        for (size_t place = 0; place < own[5]; place++) {
            user_at(own, place)[ROLE] = next() % 16 == 0;
            for (size_t area = 0; area < AREAS; area++)
                put_number(user_at(own, place) + MANAGERS + 4 * area, next() % 2 ? number_at(user_at(own, next() % own[5])) : 0);
        }
        judge(own);
        free(own);
    }
}

/* Without a manager a book of version 3 answers as the same one of version 2, and a run leaves the same fields. */
static void without_managers(uint8_t *image)
{
    uint32_t number[2];
    for (size_t place = 0; place < image[5]; place++)
        memset(user_at(image, place) + MANAGERS, 0, 4 * AREAS);
    image[3] = 2;
    const size_t size = length_of(image);
    uint8_t *two = written(image, 2, number);
    image[3] = 3;
    const size_t longer = length_of(image);
    uint8_t *three = written(image, 3, number + 1);
    uint64_t answer[2][DAYBOOK_RUN_NUMBERS];
    expect(number[0] == 0 && number[1] == 0, "write", "the sample is refused", number[1]);
    for (size_t place = 0; place < image[5]; place++) {
        uint32_t id = number_at(user_at(image, place));
        number[0] = daybook_raw_afternoon_level(two, size, DAYBOOK_OPERATOR, DAYBOOK_NO_STORE, id, answer[0], DAYBOOK_LEVEL_NUMBERS);
        number[1] = daybook_raw_afternoon_level(three, longer, DAYBOOK_OPERATOR, DAYBOOK_NO_STORE, id, answer[1], DAYBOOK_LEVEL_NUMBERS);
        expect(number[0] == number[1] && answer[0][0] == answer[1][0], "afternoon_level", "another level than in version 2", number[1]);
    }
    number[0] = daybook_raw_run(two, size, DAYBOOK_OPERATOR, DAYBOOK_NO_STORE, DAYBOOK_NO_LOG, answer[0], DAYBOOK_RUN_NUMBERS);
    number[1] = daybook_raw_run(three, longer, DAYBOOK_OPERATOR, DAYBOOK_NO_STORE, DAYBOOK_NO_LOG, answer[1], DAYBOOK_RUN_NUMBERS);
    expect(number[0] == number[1] && memcmp(answer[0], answer[1], sizeof answer[0]) == 0, "run", "another run than in version 2", number[1]);
    uint8_t *images[2] = {block(DAYBOOK_IMAGE_SIZE), block(DAYBOOK_IMAGE_SIZE)};
    number[0] = daybook_raw_read(two, size, DAYBOOK_OPERATOR, images[0], DAYBOOK_IMAGE_SIZE);
    number[1] = daybook_raw_read(three, longer, DAYBOOK_OPERATOR, images[1], DAYBOOK_IMAGE_SIZE);
    images[1][3] = 2;
    expect(memcmp(images[0], images[1], DAYBOOK_IMAGE_SIZE) == 0, "run", "other fields than in version 2", number[1]);
    calls += 4 + 2 * image[5];
    free(images[0]);
    free(images[1]);
    free(three);
    free(two);
}

int main(int argc, char **argv)
{
    static uint8_t sample[DAYBOOK_IMAGE_SIZE];
    uint32_t id;
    size_t size = read_sample(argc, argv, sample, &id);
    uint8_t *image = block(DAYBOOK_IMAGE_SIZE);
    uint32_t number = daybook_raw_read(sample, size, DAYBOOK_OPERATOR, image, DAYBOOK_IMAGE_SIZE);
    expect(number == 0, "read", "the sample is refused", number);

    image[3] = 3;
    single_managers(image);
    drawn_managers(image);
    without_managers(image);
    free(image);
    printf("%lu calls with managers, as the header says\n", calls);
    return 0;
}
