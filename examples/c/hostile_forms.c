/* Calls daybook_raw_form and daybook_raw_restore on hostile input: hostile_forms BOOK. Each part is a block of exactly its length, so that valgrind sees a byte read or written
   outside it (the script `valgrind` beside this file). What a caller can tell is held against the header: the numbers, every byte that is written, and what stays unchanged. */
#include "hostile.h"

typedef uint32_t writing(const uint8_t *given, size_t size, uint8_t *out, size_t room);

static uint32_t to_form(const uint8_t *book, size_t size, uint8_t *out, size_t room)
{
    return daybook_raw_form(book, size, DAYBOOK_OPERATOR, out, room);
}

/* Copies n records of a size column by column, as the header tells the fields by their widths: the bytes behind the last column. */
static uint8_t *columns(const uint8_t *records, size_t n, size_t size, const uint8_t *widths, uint8_t *out)
{
    for (size_t at = 0; at < size; at += *widths++)
        for (size_t i = 0; i < n; i++, out += *widths)
            memcpy(out, records + size * i + at, *widths);
    return out;
}

/* The form of an accepted book, written field by field. */
static void copy_form(const uint8_t *book, uint8_t *form)
{
    static const uint8_t user_widths[] = {4, 1, 3, 4, 4, 4, 4, 4, 4, 8, 8, 8, 4, 4, 4};
    static const uint8_t trade_widths[] = {4, 4, 1, 1, 1, 1, 4, 4};
    size_t header = DAYBOOK_HEADER_SIZE(book), user = DAYBOOK_USER_SIZE(book);
    size_t users = book[5], trades = book[6] | (size_t)book[7] << 8;
    memcpy(form, book, header);
    memcpy(form, "GDF", 3);
    uint8_t *behind = columns(book + header, users, user, user_widths, form + header);
    columns(book + header + user * users, trades, DAYBOOK_TRADE_SIZE, trade_widths, behind);
}

/* One call, and what it may do: an accepted one writes as many bytes as it is given and keeps the rest, a refused one leaves the output. */
static uint32_t write_to(writing *call, const char *name, const uint8_t *bytes, size_t size, uint8_t *copy, size_t room)
{
    uint8_t *lent = copy_of(bytes, size);
    uint8_t *out = block(room);
    memset(out, FILLER, room);
    uint32_t number = call(lent, size, out, room);
    calls++;
    expect(size == 0 || memcmp(lent, bytes, size) == 0, name, "what was given is changed", number);
    if (number == 0) {
        expect(size <= room, name, "an output too short is accepted", number);
        expect(all_bytes(out + size, room - size, FILLER), name, "the rest of the output is changed", number);
        if (copy != NULL)
            memcpy(copy, out, size);
    } else {
        expect(call == to_form ? number <= 7 || number == 30 : number == 29 || number == 30, name, "no number of a question", number);
        expect(number != 30 || room < size, name, "an output with room is refused", number);
        expect(all_bytes(out, room, FILLER), name, "the output is changed by a refusal", number);
    }
    free(out);
    free(lent);
    return number;
}

/* Outputs of every length near the book's, and none. */
static void every_room(const uint8_t *sample, const uint8_t *form, size_t size)
{
    const size_t rooms[] = {0, 1, 3, 31, 32, 40, size - 1, size, size + 1, size + 100};
    for (size_t k = 0; k < sizeof rooms / sizeof rooms[0]; k++) {
        uint32_t number = rooms[k] < size ? 30 : 0;
        expect(write_to(to_form, "form", sample, size, NULL, rooms[k]) == number, "form", "another number by the room", number);
        expect(write_to(daybook_raw_restore, "restore", form, size, NULL, rooms[k]) == number, "restore", "another number by the room", number);
    }
}

/* Random bytes, the sample and its form with one bit turned round, and cut or longer: what is a form comes back as it was. */
static void other_bytes(const uint8_t *bytes, size_t size, size_t room)
{
    uint8_t *book = block(size + 1);
    uint8_t *again = block(size + 1);
    if (write_to(to_form, "form", bytes, size, book, room) == 0) {
        copy_form(bytes, again);
        expect(memcmp(book, again, size) == 0, "form", "another form than the header says", 0);
    }
    if (write_to(daybook_raw_restore, "restore", bytes, size, book, room) == 0) {
        expect(write_to(to_form, "form", book, size, again, size) == 0, "form", "a book of a form is refused", 0);
        expect(memcmp(again, bytes, size) == 0, "form", "another form than the one that was accepted", 0);
    }
    free(again);
    free(book);
}

static void changed(const uint8_t *bytes, size_t size)
{
    for (size_t at = 0; at < size; at++)
        for (unsigned bit = 0; bit < 8; bit += 3) {
            uint8_t *other = copy_of(bytes, size);
            other[at] ^= (uint8_t)(1u << bit);
            other_bytes(other, size, size);
            free(other);
        }
    for (size_t length = 0; length < size; length++)
        other_bytes(bytes, length, size);
}

int main(int argc, char **argv)
{
    static uint8_t sample[DAYBOOK_IMAGE_SIZE], form[DAYBOOK_IMAGE_SIZE], book[DAYBOOK_IMAGE_SIZE];
    uint32_t id;
    size_t size = read_sample(argc, argv, sample, &id);

    expect(write_to(to_form, "form", sample, size, form, size) == 0, "form", "the sample is refused", 0);
    copy_form(sample, book);
    expect(memcmp(form, book, size) == 0, "form", "another form than the header says", 0);
    expect(write_to(daybook_raw_restore, "restore", form, size, book, size) == 0, "restore", "the form of the sample is refused", 0);
    expect(memcmp(book, sample, size) == 0, "restore", "another book than the sample", 0);
    every_room(sample, form, size);
    changed(sample, size);
    changed(form, size);
    for (size_t length = 0; length <= 400; length++) {
        uint8_t *bytes = block(length);
        for (size_t i = 0; i < length; i++)
            bytes[i] = (uint8_t)next();
        other_bytes(bytes, length, length);
        free(bytes);
    }
    printf("%lu forms and books of forms, as the header says\n", calls);
    return 0;
}
