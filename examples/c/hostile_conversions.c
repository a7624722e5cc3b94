/* Calls daybook_raw_convert on hostile input: hostile_conversions BOOK. Each part is a block of exactly its length, so that valgrind sees a byte read or written outside it
   (the script `valgrind` beside this file). What a caller can tell is held against the header: the numbers, every byte that is written, and what stays unchanged. */
#include "hostile.h"

/* How many bytes more than its own a book of the given bytes' counts can have as a version. */
#define LONGER(bytes) (DAYBOOK_HEADER_SIZE_2 - DAYBOOK_HEADER_SIZE_1 + (DAYBOOK_USER_SIZE_3 - DAYBOOK_USER_SIZE_1) * (size_t)(bytes)[5])

/* The length of a book of the given bytes' counts as a version. */
static size_t length_as(const uint8_t *bytes, uint32_t version)
{
    return DAYBOOK_LENGTH_AS(version, bytes[5], bytes[6] | (size_t)bytes[7] << 8);
}

/* Copies what two sizes have in common, and 0 behind it; whether nothing but 0 is left out. */
static int fit(const uint8_t *from, size_t size, uint8_t *to, size_t new_size)
{
    size_t common = size < new_size ? size : new_size;
    memcpy(to, from, common);
    memset(to + common, 0, new_size - common);
    return all_bytes(from + common, size - common, 0);
}

/* An accepted book as a version, written record by record: whether nothing is lost. */
static int copy_as(const uint8_t *book, uint32_t version, uint8_t *out)
{
    uint8_t as[4] = {0, 0, 0, (uint8_t)version};
    size_t header = DAYBOOK_HEADER_SIZE(book), user = DAYBOOK_USER_SIZE(book), users = book[5];
    size_t new_header = DAYBOOK_HEADER_SIZE(as), new_user = DAYBOOK_USER_SIZE(as);
    int lossless = fit(book, header, out, new_header);
    out[3] = (uint8_t)version;
    for (size_t i = 0; i < users; i++)
        lossless &= fit(book + header + user * i, user, out + new_header + new_user * i, new_user);
    size_t trades = book[6] | (size_t)book[7] << 8;
    memcpy(out + new_header + new_user * users, book + header + user * users, DAYBOOK_TRADE_SIZE * trades);
    return lossless;
}

/* One call, and what it may do: an accepted one writes the book as the version and keeps the rest, a refused one leaves the output. */
static uint32_t convert(const uint8_t *bytes, size_t size, uint32_t version, uint8_t *copy, size_t room)
{
    const char *call = "convert";
    uint8_t *book = copy_of(bytes, size);
    uint8_t *out = block(room);
    memset(out, FILLER, room);
    uint32_t number = daybook_raw_convert(book, size, DAYBOOK_OPERATOR, version, out, room);
    calls++;
    expect(size == 0 || memcmp(book, bytes, size) == 0, call, "the book is changed", number);
    if (number == 0) {
        expect(version >= 1 && version <= 3, call, "an unknown version is accepted", number);
        size_t length = length_as(bytes, version);
        expect(length <= room, call, "an output too short is accepted", number);
        expect(all_bytes(out + length, room - length, FILLER), call, "the rest of the output is changed", number);
        uint8_t *same = block(length);
        expect(copy_as(bytes, version, same), call, "information is lost", number);
        expect(memcmp(out, same, length) == 0, call, "another book than the header says", number);
        free(same);
        if (copy != NULL)
            memcpy(copy, out, length);
    } else {
        expect(number <= 7 || (number >= 21 && number <= 23), call, "no number of a question", number);
        if (number == 21 || number == 22) {
            uint8_t *same = block(length_as(bytes, version));
            expect(copy_as(bytes, version, same) == (number == 22), call, "21 where nothing is lost, or 22 where something is", number);
            free(same);
        }
        expect(all_bytes(out, room, FILLER), call, "the output is changed by a refusal", number);
    }
    free(out);
    free(book);
    return number;
}

/* Every target near the known ones and far from them, in outputs of every length near those that are asked for. */
static void every_target(const uint8_t *sample, size_t size)
{
    const size_t longer = LONGER(sample);
    const uint32_t targets[] = {0, 1, 2, 3, 4, 255, 256, 257, 258, 0xFFFF, 0x10000, 0x10001, 0x10002, 0xFFFFFFFF};
    for (size_t k = 0; k < sizeof targets / sizeof targets[0]; k++)
        for (size_t room = 0; room <= size + longer; room += room + longer < size ? 12 : 1) {
            uint32_t number = convert(sample, size, targets[k], NULL, room);
            expect((number == 23) == (targets[k] < 1 || targets[k] > 3), "convert", "an unknown version is not 23, or a known one is", number);
            expect(number != 22 || room < length_as(sample, targets[k]), "convert", "an output with room is refused", number);
        }
}

/* The sample as every version, and back: the first bytes, unless information is lost. */
static void there_and_back(const uint8_t *bytes, size_t size)
{
    for (uint32_t version = 1; version <= 3; version++) {
        size_t room = size + (size < 6 ? 0 : LONGER(bytes));
        uint8_t *there = block(room);
        uint8_t *back = block(room);
        if (convert(bytes, size, version, there, room) == 0) {
            expect(convert(there, length_as(bytes, version), bytes[3], back, size) == 0, "convert", "the way back is refused", 0);
            expect(memcmp(back, bytes, size) == 0, "convert", "other bytes after the way back", 0);
        }
        free(back);
        free(there);
    }
}

int main(int argc, char **argv)
{
    static uint8_t sample[DAYBOOK_IMAGE_SIZE];
    uint32_t id;
    size_t size = read_sample(argc, argv, sample, &id);

    expect(convert(sample, size, 3, NULL, size + LONGER(sample)) == 0, "convert", "the sample is not written as version 3", 0);
    expect(convert(sample, size, sample[3], NULL, size) == 0, "convert", "the sample is not copied", 0);
    every_target(sample, size);
    there_and_back(sample, size);
    for (size_t at = 0; at < size; at++)
        for (unsigned bit = 0; bit < 8; bit += 3) {
            uint8_t *bytes = copy_of(sample, size);
            bytes[at] ^= (uint8_t)(1u << bit);
            there_and_back(bytes, size);
            free(bytes);
        }
    for (size_t length = 0; length <= 400; length++) {
        uint8_t *bytes = block(length);
        for (size_t i = 0; i < length; i++)
            bytes[i] = (uint8_t)next();
        convert(bytes, length, 1 + length % 3, NULL, length);
        free(bytes);
    }
    printf("%lu conversions, as the header says\n", calls);
    return 0;
}
