/* The functions that the archive of Jozmerod exports, for what stands right above it: bindings of other languages, and daybook.h, which has the same calls without `raw_`
 * for those who write C or C++, and says what each of them does. What is said at the head of daybook.h holds here too.
 *
 * A pointer is never NULL and has as many elements behind it as the length after it says; a part that a function may change overlaps no other part of the same call.
 * These two are the only things that the caller answers for. A part lent for an image, a record, marks or an answer has exactly the length that is said beside its function;
 * with any other the function returns DAYBOOK_WRONG_LENGTH, and nothing is read, asked or changed.
 */
#ifndef DAYBOOK_RAW_H
#define DAYBOOK_RAW_H

#include <stddef.h>
#include <stdint.h>

/* The interface that the headers describe; daybook_raw_interface() tells the archive's, which must be the same. */
#define DAYBOOK_INTERFACE 7

/* The number for a lent part of another length than the function asks for. */
#define DAYBOOK_WRONG_LENGTH 255

/* The acting party of a call on a book: a shipper is its id, the operator a number that no id has. Any other number may do nothing (26), and so may 0. */
#define DAYBOOK_OPERATOR UINT64_C(0x100000000)

/* A store of parameter sets, as three arguments: a flag, the bytes and their length. A flag of 0 is no store, and the call's figures are today's; any other flag is a store,
   one of length 0 too. These stand for all three arguments. */
#define DAYBOOK_NO_STORE 0, (const uint8_t *)"", 0
#define DAYBOOK_STORE(store, store_len) 1, (store), (store_len)

/* A log of reductions, as three arguments in the same way. A flag of 0 is no log, and the part is left as it is; the part for no log is never written. */
#define DAYBOOK_NO_LOG 0, (uint8_t *)"", 0
#define DAYBOOK_LOG(log, log_len) 1, (log), (log_len)

/* The bytes of a log, and the entries that it has room for. */
#define DAYBOOK_LOG_SIZE 271668
#define DAYBOOK_MAX_ENTRIES 256

/* Sizes in bytes: a book is a header, its users and its trades. The header of versions 2 and 3 ends with the selling tariffs S and U, 4 bytes each, which version 1 has
   not. A user of version 3 ends with the ids of its managers in PVB, TVB and AVB, 4 bytes each, 0 for none, which versions 1 and 2 have not. */
#define DAYBOOK_HEADER_SIZE_1 32
#define DAYBOOK_HEADER_SIZE_2 40
#define DAYBOOK_USER_SIZE_1 56
#define DAYBOOK_USER_SIZE_3 68
#define DAYBOOK_TRADE_SIZE 20

/* The size of the header of an accepted book, by its version, and that of each user; the users stand behind the header. */
#define DAYBOOK_HEADER_SIZE(book) ((book)[3] == 1 ? DAYBOOK_HEADER_SIZE_1 : DAYBOOK_HEADER_SIZE_2)
#define DAYBOOK_USER_SIZE(book) ((book)[3] == 3 ? DAYBOOK_USER_SIZE_3 : DAYBOOK_USER_SIZE_1)

/* The length of a book as a version, by the counts of its users and trades. */
#define DAYBOOK_LENGTH_AS(version, users, trades) \
    (((version) == 1 ? DAYBOOK_HEADER_SIZE_1 : DAYBOOK_HEADER_SIZE_2) + \
     ((version) == 3 ? DAYBOOK_USER_SIZE_3 : DAYBOOK_USER_SIZE_1) * (size_t)(users) + DAYBOOK_TRADE_SIZE * (size_t)(trades))

/* A book has 1 to 64 users and at most 256 trades; a list of postings at most 512 lines. */
#define DAYBOOK_MAX_USERS 64
#define DAYBOOK_MAX_TRADES 256
#define DAYBOOK_MAX_LINES 512

/* The part for a shown record: the user's bytes, all 68 of version 3; behind the 56 of versions 1 and 2 it is 0. */
#define DAYBOOK_RECORD_SIZE DAYBOOK_USER_SIZE_3

/* An image: a header of 40 bytes, then always 64 users of 68 bytes and 256 trades, those past the counts 0, and so are S and U of version 1 and the managers of versions
   1 and 2. The largest book has as many bytes. */
#define DAYBOOK_IMAGE_SIZE \
    (DAYBOOK_HEADER_SIZE_2 + DAYBOOK_USER_SIZE_3 * DAYBOOK_MAX_USERS + DAYBOOK_TRADE_SIZE * DAYBOOK_MAX_TRADES)

/* The marks of a cancellation: a byte for each place of a trade. */
#define DAYBOOK_MARKS DAYBOOK_MAX_TRADES

/* How many numbers an answer has. The levels of all users have four for each of 64 users. A return of shrinkage has H, odd kWh and rest, then the shares and the remainders of 64 users; a share has 30 days. */
#define DAYBOOK_LEVEL_NUMBERS 1
#define DAYBOOK_ALL_LEVELS_NUMBERS (4 * DAYBOOK_MAX_USERS)
#define DAYBOOK_CALL_NUMBERS 2
#define DAYBOOK_WARNING_NUMBERS 1
#define DAYBOOK_FLAG_NUMBERS 1
#define DAYBOOK_COUNT_NUMBERS 1
#define DAYBOOK_TRADE_NUMBERS 1
#define DAYBOOK_REDUCTION_NUMBERS 5
#define DAYBOOK_RUN_NUMBERS 3
#define DAYBOOK_CANCELLATION_NUMBERS 3
#define DAYBOOK_WITHDRAWAL_NUMBERS 2
#define DAYBOOK_RETURN_NUMBERS (3 + 2 * DAYBOOK_MAX_USERS)
#define DAYBOOK_SHRINKAGE_DAYS 30

#ifdef __cplusplus
extern "C" {
#endif

uint32_t daybook_raw_interface(void);

/* image: DAYBOOK_IMAGE_SIZE */
uint32_t daybook_raw_read(const uint8_t *book, size_t book_len, uint64_t party, uint8_t *image, size_t image_len);

/* image: DAYBOOK_IMAGE_SIZE; an `out` of another length than the book's is refused with 3 */
uint32_t daybook_raw_write(const uint8_t *image, size_t image_len, uint8_t *out, size_t out_len);

uint32_t daybook_raw_convert(const uint8_t *book, size_t book_len, uint64_t party, uint32_t version, uint8_t *out, size_t out_len);

uint32_t daybook_raw_form(const uint8_t *book, size_t book_len, uint64_t party, uint8_t *out, size_t out_len);

uint32_t daybook_raw_restore(const uint8_t *form, size_t form_len, uint8_t *out, size_t out_len);

/* record: DAYBOOK_RECORD_SIZE */
uint32_t daybook_raw_show(const uint8_t *book, size_t book_len, uint64_t party, uint32_t with_store, const uint8_t *store,
                          size_t store_len, uint32_t id, uint8_t *record, size_t record_len);

/* record: DAYBOOK_RECORD_SIZE; the morning's book where `afternoon_picked` is 0, else the afternoon's */
uint32_t daybook_raw_show_picked(const uint8_t *morning, size_t morning_len, const uint8_t *afternoon, size_t afternoon_len,
                                 uint64_t party, uint32_t with_store, const uint8_t *store, size_t store_len,
                                 uint32_t afternoon_picked, uint32_t id, uint8_t *record, size_t record_len);

uint32_t daybook_raw_posting(uint8_t *book, size_t book_len, uint64_t party, uint32_t with_store, const uint8_t *store,
                             size_t store_len, uint32_t with_log, uint8_t *log, size_t log_len, uint32_t id, uint32_t area,
                             int64_t amount);

/* columns and places of different counts are refused with 15, the places too, never with 255 */
uint32_t daybook_raw_list(uint8_t *book, size_t book_len, uint64_t party, uint32_t with_store, const uint8_t *store,
                          size_t store_len, uint32_t with_log, uint8_t *log, size_t log_len, const uint32_t *ids,
                          size_t ids_len, const uint32_t *areas, size_t areas_len, const int64_t *amounts,
                          size_t amounts_len, uint32_t *places, size_t places_len);

/* answer: DAYBOOK_LEVEL_NUMBERS */
uint32_t daybook_raw_morning_level(const uint8_t *book, size_t book_len, uint64_t party, uint32_t with_store,
                                   const uint8_t *store, size_t store_len, uint32_t id, uint64_t *answer, size_t answer_len);

/* answer: DAYBOOK_LEVEL_NUMBERS */
uint32_t daybook_raw_afternoon_level(const uint8_t *book, size_t book_len, uint64_t party, uint32_t with_store,
                                     const uint8_t *store, size_t store_len, uint32_t id, uint64_t *answer,
                                     size_t answer_len);

/* answer: DAYBOOK_ALL_LEVELS_NUMBERS, for each user its id, its state, its morning and its afternoon level */
uint32_t daybook_raw_levels(const uint8_t *book, size_t book_len, uint64_t party, uint32_t with_store, const uint8_t *store,
                            size_t store_len, uint64_t *answer, size_t answer_len);

/* answer: DAYBOOK_CALL_NUMBERS */
uint32_t daybook_raw_morning_call(uint8_t *book, size_t book_len, uint64_t party, uint32_t with_store, const uint8_t *store,
                                  size_t store_len, uint32_t with_log, uint8_t *log, size_t log_len, uint32_t id,
                                  uint64_t *answer, size_t answer_len);

/* answer: DAYBOOK_CALL_NUMBERS */
uint32_t daybook_raw_afternoon_call(uint8_t *book, size_t book_len, uint64_t party, uint32_t with_store,
                                    const uint8_t *store, size_t store_len, uint32_t with_log, uint8_t *log, size_t log_len,
                                    uint32_t id, uint64_t *answer, size_t answer_len);

/* answer: DAYBOOK_WARNING_NUMBERS, 1 for yes and 0 for no */
uint32_t daybook_raw_warning(const uint8_t *book, size_t book_len, uint64_t party, uint32_t with_store, const uint8_t *store,
                             size_t store_len, uint32_t id, uint64_t *answer, size_t answer_len);

/* answer: DAYBOOK_FLAG_NUMBERS, 1 for yes and 0 for no */
uint32_t daybook_raw_flag(const uint8_t *book, size_t book_len, uint64_t party, uint32_t with_store, const uint8_t *store,
                          size_t store_len, uint32_t id, uint64_t *answer, size_t answer_len);

/* answer: DAYBOOK_COUNT_NUMBERS */
uint32_t daybook_raw_trade_count(const uint8_t *book, size_t book_len, uint64_t party, uint32_t with_store,
                                 const uint8_t *store, size_t store_len, uint32_t id, uint64_t *answer, size_t answer_len);

/* trade: DAYBOOK_TRADE_SIZE; answer: DAYBOOK_TRADE_NUMBERS, how many bytes there are: all 20, or 0 past the last, where the part is 0 */
uint32_t daybook_raw_trade(const uint8_t *book, size_t book_len, uint64_t party, uint32_t with_store, const uint8_t *store,
                           size_t store_len, uint32_t id, uint32_t ordinal, uint8_t *trade, size_t trade_len, uint64_t *answer,
                           size_t answer_len);

/* answer: DAYBOOK_REDUCTION_NUMBERS */
uint32_t daybook_raw_reduction(uint8_t *book, size_t book_len, uint64_t party, uint32_t with_store, const uint8_t *store,
                               size_t store_len, uint32_t with_log, uint8_t *log, size_t log_len, uint32_t id,
                               uint64_t *answer, size_t answer_len);

/* marks: DAYBOOK_MARKS; answer: DAYBOOK_CANCELLATION_NUMBERS */
uint32_t daybook_raw_cancellation(const uint8_t *book, size_t book_len, uint64_t party, uint32_t with_store,
                                  const uint8_t *store, size_t store_len, uint32_t id, uint32_t tries, uint8_t *marks,
                                  size_t marks_len, uint64_t *answer, size_t answer_len);

/* answer: DAYBOOK_RUN_NUMBERS, those of a run that stops with 20 too */
uint32_t daybook_raw_run(uint8_t *book, size_t book_len, uint64_t party, uint32_t with_store, const uint8_t *store,
                         size_t store_len, uint32_t with_log, uint8_t *log, size_t log_len, uint64_t *answer,
                         size_t answer_len);

/* a log of another length than DAYBOOK_LOG_SIZE is refused with 19 */
uint32_t daybook_raw_start_log(uint8_t *log, size_t log_len, const uint8_t *book, size_t book_len);

/* answer: DAYBOOK_WITHDRAWAL_NUMBERS; a log is needed, so there is no flag */
uint32_t daybook_raw_withdrawal(uint8_t *book, size_t book_len, uint64_t party, uint32_t with_store, const uint8_t *store,
                                size_t store_len, uint8_t *log, size_t log_len, uint64_t *answer, size_t answer_len);

/* answer: DAYBOOK_RETURN_NUMBERS */
uint32_t daybook_raw_shrinkage_return(const int64_t *balances, size_t balances_len, uint64_t *answer, size_t answer_len);

/* answer: DAYBOOK_SHRINKAGE_DAYS */
uint32_t daybook_raw_shrinkage_days(uint64_t share, uint64_t *answer, size_t answer_len);

#ifdef __cplusplus
}
#endif

#endif
