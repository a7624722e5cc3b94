/* Makes every call of daybook.h beside the exported function that it passes on to, on copies of the same book: layer BOOK. Number, answer, book and log have to be the same, for
   the operator, for shippers and for nobody, with a store and a log and without. It compiles as C99 and as C++11. */
#include <inttypes.h>
#include <stdio.h>
#include <stdlib.h>
#include <string.h>

#include "daybook.h"

typedef struct {
    daybook_setting setting;
    uint8_t book[DAYBOOK_IMAGE_SIZE];
    uint8_t log[DAYBOOK_LOG_SIZE];
    size_t length;
} side;

static side by_layer, by_hand;
static uint64_t answers[2][1300];
static unsigned long calls;

/* The setting's store and log as the exported functions take them; nothing is NULL. */
#define STORE(it) (it).setting.store.bytes != NULL, (it).setting.store.bytes != NULL ? (it).setting.store.bytes : (const uint8_t *)"", (it).setting.store.length
#define LOG(it) (it).setting.log.bytes != NULL, (it).log, (it).setting.log.length
#define BOOK(it) (it).book, (it).length, (it).setting.party
#define NUMBERS(count) answers[1], count

static void same(const char *call, uint32_t layer, uint32_t hand, size_t answer_size)
{
    calls++;
    if (layer != hand || memcmp(answers[0], answers[1], answer_size) != 0 || memcmp(by_layer.book, by_hand.book, by_hand.length) != 0 ||
        memcmp(by_layer.log, by_hand.log, sizeof by_hand.log) != 0) {
        fprintf(stderr, "%s: %" PRIu32 " by the layer, %" PRIu32 " by hand, or another answer, book or log\n", call, layer, hand);
        exit(1);
    }
    memset(answers, 0xA5, sizeof answers);
}

/* The calls that leave the book, for one id. */
static void queries(uint32_t id)
{
    const daybook_setting *setting = &by_layer.setting;
    daybook_bytes book = {by_layer.book, by_layer.length}, other = {(const uint8_t *)"GDB", 3};
    daybook_cancelled cancelled;
    void *answer = answers[0], *bytes = answers[1];

    same("show", daybook_show(setting, book, id, (daybook_user_record *)answer), daybook_raw_show(BOOK(by_hand), STORE(by_hand), id, (uint8_t *)bytes, 68), 68);
    same("show_picked", daybook_show_picked(setting, other, book, 1, id, (daybook_user_record *)answer),
         daybook_raw_show_picked(other.bytes, 3, BOOK(by_hand), STORE(by_hand), 1, id, (uint8_t *)bytes, 68), 68);
    same("morning_level", daybook_morning_level(setting, book, id, (daybook_level *)answer), daybook_raw_morning_level(BOOK(by_hand), STORE(by_hand), id, NUMBERS(1)), 8);
    same("afternoon_level", daybook_afternoon_level(setting, book, id, (daybook_level *)answer),
         daybook_raw_afternoon_level(BOOK(by_hand), STORE(by_hand), id, NUMBERS(1)), 8);
    same("warning", daybook_warning(setting, book, id, (daybook_warned *)answer), daybook_raw_warning(BOOK(by_hand), STORE(by_hand), id, NUMBERS(1)), 8);
    same("flag", daybook_flag(setting, book, id, (daybook_flagged *)answer), daybook_raw_flag(BOOK(by_hand), STORE(by_hand), id, NUMBERS(1)), 8);
    same("trade_count", daybook_trade_count(setting, book, id, (daybook_seen *)answer), daybook_raw_trade_count(BOOK(by_hand), STORE(by_hand), id, NUMBERS(1)), 8);
    for (uint32_t ordinal = 0; ordinal < 4; ordinal++)
        same("trade", daybook_trade(setting, book, id, ordinal, (daybook_trade_record *)answer),
             daybook_raw_trade(BOOK(by_hand), STORE(by_hand), id, ordinal, (uint8_t *)bytes + 8, 20, NUMBERS(1)), 28);
    uint32_t number = daybook_cancellation(setting, book, id, 50, &cancelled);
    memcpy(answer, &cancelled, sizeof cancelled);
    same("cancellation", number,
         daybook_raw_cancellation(BOOK(by_hand), STORE(by_hand), id, 50, (uint8_t *)bytes + 8 * DAYBOOK_CANCELLATION_NUMBERS, DAYBOOK_MARKS,
                                  NUMBERS(DAYBOOK_CANCELLATION_NUMBERS)),
         sizeof cancelled);
}

/* Those that take no id. */
static void whole_book(void)
{
    daybook_bytes book = {by_layer.book, by_layer.length}, form;
    void *answer = answers[0], *bytes = answers[1];
    daybook_image image;
    daybook_part out = {(uint8_t *)answer, DAYBOOK_IMAGE_SIZE}, written = {(uint8_t *)answer, by_layer.length};

    uint32_t number = daybook_read(&by_layer.setting, book, &image);
    memcpy(answer, &image, sizeof image);
    same("read", number, daybook_raw_read(BOOK(by_hand), (uint8_t *)bytes, DAYBOOK_IMAGE_SIZE), sizeof image);
    same("write", daybook_write(&image, written), daybook_raw_write(image.bytes, sizeof image.bytes, (uint8_t *)bytes, by_hand.length), by_hand.length);
    same("levels", daybook_levels(&by_layer.setting, book, (daybook_all_levels *)answer), daybook_raw_levels(BOOK(by_hand), STORE(by_hand), NUMBERS(DAYBOOK_ALL_LEVELS_NUMBERS)),
         8 * DAYBOOK_ALL_LEVELS_NUMBERS);
    same("convert", daybook_convert(&by_layer.setting, book, 3, out), daybook_raw_convert(BOOK(by_hand), 3, (uint8_t *)bytes, DAYBOOK_IMAGE_SIZE), DAYBOOK_IMAGE_SIZE);
    same("form", daybook_form(&by_layer.setting, book, out), daybook_raw_form(BOOK(by_hand), (uint8_t *)bytes, DAYBOOK_IMAGE_SIZE), DAYBOOK_IMAGE_SIZE);
    if (daybook_form(&by_layer.setting, book, out) == 0) {
        memcpy(image.bytes, answer, book.length);
        form.bytes = image.bytes;
        form.length = book.length;
        same("restore", daybook_restore(form, out), daybook_raw_restore(image.bytes, book.length, (uint8_t *)bytes, DAYBOOK_IMAGE_SIZE), book.length);
    }
}

/* The calls that may change book and log, one after the other. */
static void changes(uint32_t id)
{
    const daybook_setting *setting = &by_layer.setting;
    daybook_part book = {by_layer.book, by_layer.length};
    void *answer = answers[0];
    uint32_t ids[2] = {id, 7}, areas[2] = {0, 1}, places[2][2] = {{9, 9}, {9, 9}};
    int64_t amounts[2] = {-300, 5};
    daybook_lines lines = {ids, areas, amounts, places[0], 2}, none = {NULL, NULL, NULL, NULL, 0};

    same("start_log", daybook_start_log(by_layer.setting.log, daybook_read_only(book)),
         daybook_raw_start_log(by_hand.log, by_hand.setting.log.length, by_hand.book, by_hand.length), 0);
    same("posting", daybook_posting(setting, book, id, 0, -5), daybook_raw_posting(BOOK(by_hand), STORE(by_hand), LOG(by_hand), id, 0, -5), 0);
    same("list", daybook_list(setting, book, lines), daybook_raw_list(BOOK(by_hand), STORE(by_hand), LOG(by_hand), ids, 2, areas, 2, amounts, 2, places[1], 2), 0);
    same("places", places[0][0], places[1][0], 0);
    same("places", places[0][1], places[1][1], 0);
    same("list", daybook_list(setting, book, none), daybook_raw_list(BOOK(by_hand), STORE(by_hand), LOG(by_hand), ids, 0, areas, 0, amounts, 0, places[1], 0), 0);
    same("morning_call", daybook_morning_call(setting, book, id, (daybook_guarantee *)answer),
         daybook_raw_morning_call(BOOK(by_hand), STORE(by_hand), LOG(by_hand), id, NUMBERS(2)), 16);
    same("afternoon_call", daybook_afternoon_call(setting, book, id, (daybook_guarantee *)answer),
         daybook_raw_afternoon_call(BOOK(by_hand), STORE(by_hand), LOG(by_hand), id, NUMBERS(2)), 16);
    same("reduction", daybook_reduction(setting, book, id, (daybook_reduced *)answer),
         daybook_raw_reduction(BOOK(by_hand), STORE(by_hand), LOG(by_hand), id, NUMBERS(5)), 40);
    same("run", daybook_run(setting, book, (daybook_ran *)answer), daybook_raw_run(BOOK(by_hand), STORE(by_hand), LOG(by_hand), NUMBERS(3)), 24);
    for (int more = 0; more < 3; more++)
        same("withdrawal", daybook_withdrawal(setting, book, (daybook_withdrawn *)answer),
             daybook_raw_withdrawal(BOOK(by_hand), STORE(by_hand), by_hand.log, by_hand.setting.log.length, NUMBERS(2)), 16);
}

/* Balances, none of them, and parts without bytes. */
static void others(void)
{
    const int64_t balances[3] = {-100, 50, -25};
    daybook_bytes nothing = {NULL, 5};
    daybook_part no_part = {NULL, 5};
    daybook_level level;
    void *answer = answers[0];

    same("interface", daybook_interface(), DAYBOOK_INTERFACE, 0);
    same("shrinkage_return", daybook_shrinkage_return(balances, 3, (daybook_returned *)answer), daybook_raw_shrinkage_return(balances, 3, NUMBERS(DAYBOOK_RETURN_NUMBERS)),
         8 * DAYBOOK_RETURN_NUMBERS);
    same("shrinkage_return", daybook_shrinkage_return(NULL, 0, (daybook_returned *)answer), daybook_raw_shrinkage_return(balances, 0, NUMBERS(DAYBOOK_RETURN_NUMBERS)),
         8 * DAYBOOK_RETURN_NUMBERS);
    same("shrinkage_days", daybook_shrinkage_days(31, (daybook_days *)answer), daybook_raw_shrinkage_days(31, NUMBERS(DAYBOOK_SHRINKAGE_DAYS)), 8 * DAYBOOK_SHRINKAGE_DAYS);
    same("a book without bytes", daybook_afternoon_level(&by_layer.setting, nothing, 101, &level), 1, 0);
    same("a log without bytes", daybook_start_log(no_part, nothing), 19, 0);
    same("a form without bytes", daybook_restore(nothing, no_part), 29, 0);
}

int main(int argc, char **argv)
{
    static uint8_t sample[DAYBOOK_IMAGE_SIZE];
    static const uint8_t today[30] = {'G',  'P',  'S', 1, 0, 1, 0xA5, 0x3A, 0x34, 1,    0x30, 0x75, 0, 0, 0x40,
                                      0x42, 0x0F, 0,   0, 0, 0, 0,    0x80, 0x96, 0x98, 0,    0,    0, 0, 0};
    const uint64_t parties[] = {DAYBOOK_OPERATOR, 101, 102, 0, DAYBOOK_OPERATOR + 101};
    FILE *file = argc == 2 ? fopen(argv[1], "rb") : NULL;

    if (file == NULL) {
        fprintf(stderr, "usage: layer BOOK\n");
        return 2;
    }
    size_t length = fread(sample, 1, sizeof sample, file);
    fclose(file);
    for (size_t k = 0; k < 4 * sizeof parties / sizeof parties[0]; k++) {
        side *sides[2] = {&by_layer, &by_hand};
        for (int s = 0; s < 2; s++) {
            daybook_setting setting = {parties[k / 4], {NULL, 0}, {NULL, 0}};
            daybook_bytes store = {today, sizeof today};
            daybook_part log = {sides[s]->log, sizeof sides[s]->log};
            if (k % 2 == 1)
                setting.store = store;
            if (k / 2 % 2 == 1)
                setting.log = log;
            sides[s]->setting = setting;
            sides[s]->length = length;
            memcpy(sides[s]->book, sample, length);
            memset(sides[s]->log, 0, sizeof sides[s]->log);
        }
        for (uint32_t id = 101; id <= 104; id++)
            queries(id);
        whole_book();
        changes(101);
        others();
    }
    printf("%lu calls, as the exported functions have them\n", calls);
    return 0;
}
