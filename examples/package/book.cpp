// Makes the book of document 01's example, checks it and runs its day. With the package installed: c++ book.cpp $(pkg-config --cflags --libs daybook)
#include <cstdio>
#include <vector>
#include <daybook.h>

int main()
{
    daybook_header_fields header = {DAYBOOK_VERSION_1, 2, 1, 20260318, 2000, 2100, 300, 100, 50, 0, 0}; // counts, date, P, Q, L, X, I, S, U
    daybook_user_fields users[] = {{101, DAYBOOK_SHIPPER, {-10000, 0, 0}, {-40000, 0, 0}, 0, 50000000, 10000000, {0, 0, 0}},
                                   {102, DAYBOOK_SHIPPER, {0, 0, 0}, {30000, 0, 0}, 0, 10000000, 10000000, {0, 0, 0}}};
    daybook_trade_fields sale = {101, 102, DAYBOOK_PVB, DAYBOOK_BILATERAL, DAYBOOK_DAY_D, 30000, 30000};
    static daybook_image image;
    daybook_put_image(image.bytes, &header, users, &sale);
    std::vector<uint8_t> bytes(DAYBOOK_LENGTH_AS(header.version, header.users, header.trades));
    daybook_part book = {bytes.data(), bytes.size()};
    daybook_setting desk = {DAYBOOK_OPERATOR, {nullptr, 0}, {nullptr, 0}};
    daybook_ran day = {0, 0, 0};
    uint32_t number = daybook_write(&image, book);
    if (number == 0) number = daybook_read(&desk, daybook_read_only(book), &image);
    if (number == 0) number = daybook_run(&desk, book, &day);
    std::printf("number %d: %d reduction, %d MWh, %d cents\n", int(number), int(day.reductions), int(day.mwh), int(day.worth));
    return number != 0;
}
