/* Jozmerod for C and C++: the public calls on a gas day's book of users and trades, held in bytes, and the return of retained shrinkage.
 *
 * Link with target/staticlib/libexports.a (`tools/staticlib` writes it). The library allocates nothing, keeps nothing between calls and prints nothing; its functions
 * are proved in crates/exports to give, for any bytes and any arguments, what documents 01 and 02 say. This header only passes on to them (daybook_raw.h).
 *
 * A part is a pointer and a length; one whose pointer is NULL has no bytes. A part that a call may change overlaps no other part of the same call, and each has as many bytes
 * as its length says: these two are the only things that the caller answers for. Amounts of money are cents, amounts of gas MWh; those of a return of shrinkage are kWh.
 *
 * Every call returns 0 where it did what is asked, or the number of the first question that is answered by no: daybook_question tells it in words (daybook_questions.h).
 *
 * The calls, with the questions that they ask, in that order; 16 and 17 are asked where a store is given, 19 and 20 where a log is:
 *
 *   read              1 to 7, 26
 *   write             2 to 7
 *   convert           1 to 7, 26, 23, 21, 22
 *   form              1 to 7, 26, 30
 *   restore           29, 30
 *   show              1 to 7, 26, 16, 17, 8
 *   show_picked       1 to 7, 26, 16, 17, 8
 *   posting           1 to 7, 26, 16, 17, 19, 8, 10
 *   list              1 to 7, 26, 15, 16, 17, 19
 *   morning_level     1 to 7, 26, 16, 17, 8, 9
 *   afternoon_level   1 to 7, 26, 16, 17, 8, 9
 *   levels            1 to 7, 26, 16, 17
 *   morning_call      1 to 7, 26, 16, 17, 19, 8, 9, 11, 12
 *   afternoon_call    1 to 7, 26, 16, 17, 19, 8, 9, 11, 12
 *   warning           1 to 7, 26, 16, 17, 8, 9
 *   flag              1 to 7, 26, 16, 17, 8, 9
 *   trade_count       1 to 7, 26, 16, 17, 8, 9
 *   trade             1 to 7, 26, 16, 17, 8, 9
 *   reduction         1 to 7, 26, 16, 17, 19, 8, 9, 11, 13, 14, 20
 *   cancellation      1 to 7, 26, 16, 17, 25, 8, 9, 11, 13, 14, 24
 *   run               1 to 7, 26, 16, 17, 19, 20
 *   start_log         19
 *   withdrawal        1 to 7, 26, 16, 17, 19, 18
 *   shrinkage_return  28, 27
 *   shrinkage_days    none
 *
 * After a number other than 0 the answer is all 0, the places beside a list and an output are as they were, and book and log are byte for byte the same; but a run that stops
 * with 20 keeps its cuts and their entries, and its answer has their totals.
 */
#ifndef DAYBOOK_H
#define DAYBOOK_H

#include "daybook_columns.h"
#include "daybook_fields.h"
#include "daybook_questions.h"
#include "daybook_raw.h"

/* ---- what a call is given */

/* Bytes that are read, and bytes that a call may change. */
typedef struct daybook_bytes {
    const uint8_t *bytes;
    size_t length;
} daybook_bytes;
typedef struct daybook_part {
    uint8_t *bytes;
    size_t length;
} daybook_part;

/* Who acts, and with what. A shipper is its id, and is told of itself alone: its record, its levels, its flag, the trades that it may see; the operator is DAYBOOK_OPERATOR,
   and has every call. So { .party = 101 } is the shipper 101 and { .party = DAYBOOK_OPERATOR } the operator, without store and log; 0, which is no id, may do nothing (26), so
   that a setting that was not filled in has no rights. What a shipper is told depends on the header and on what it may see alone (proved: crates/rights/specs/Claim.antt), and
   is a copy. Without a store of parameter sets the figures are today's; a store of length 0 is malformed (16).
   A log is asked and written by the calls that may change a book; the others leave it aside. It is DAYBOOK_LOG_SIZE bytes that daybook_start_log wrote and the calls since.
   It holds the book as the last call with it left the book, and beside another it is refused with 19: so give it to every call that changes the book, and keep the two
   together; after a change without it, or where it is lost, start another. A reduction adds an entry, a run one for each of its own, a withdrawal drops the last; an accepted
   posting, list or guarantee call empties it. It has room for DAYBOOK_MAX_ENTRIES, and the 32 bits at byte 4, the lowest first, tell how many it has. */
typedef struct daybook_setting {
    uint64_t party;
    daybook_bytes store;
    daybook_part log;
} daybook_setting;

/* The lines of a list of postings, as columns, with a place for each line's number. */
typedef struct daybook_lines {
    const uint32_t *ids;
    const uint32_t *areas;
    const int64_t *amounts;
    uint32_t *places;
    size_t count;
} daybook_lines;

/* ---- answers */

typedef struct daybook_image {
    uint8_t bytes[DAYBOOK_IMAGE_SIZE];
} daybook_image;
typedef struct daybook_user_record {
    uint8_t bytes[DAYBOOK_RECORD_SIZE];
} daybook_user_record;
typedef struct daybook_trade_record {
    uint64_t length; /* DAYBOOK_TRADE_SIZE, or 0 where there is no trade */
    uint8_t bytes[DAYBOOK_TRADE_SIZE];
} daybook_trade_record;
typedef struct daybook_level {
    uint64_t level;
} daybook_level;
enum daybook_state { DAYBOOK_CLEAR = 0, DAYBOOK_SHORT = 1, DAYBOOK_CALL = 2, DAYBOOK_QUIET = 3 };
typedef struct daybook_user_levels {
    uint64_t id;    /* 0 past the last user */
    uint64_t state; /* of enum daybook_state */
    uint64_t morning, afternoon;
} daybook_user_levels;
typedef struct daybook_all_levels {
    daybook_user_levels users[DAYBOOK_MAX_USERS];
} daybook_all_levels;
typedef struct daybook_guarantee {
    uint64_t level, added;
} daybook_guarantee;
typedef struct daybook_warned {
    uint64_t warned;
} daybook_warned;
typedef struct daybook_flagged {
    uint64_t flagged;
} daybook_flagged;
typedef struct daybook_seen {
    uint64_t trades;
} daybook_seen;
typedef struct daybook_reduced {
    uint64_t mwh, worth, target, below, above;
} daybook_reduced;
typedef struct daybook_cancelled {
    uint64_t excess, tries, complete;
    uint8_t marks[DAYBOOK_MARKS];
} daybook_cancelled;
typedef struct daybook_ran {
    uint64_t reductions, mwh, worth;
} daybook_ran;
typedef struct daybook_withdrawn {
    uint64_t mwh, worth;
} daybook_withdrawn;
typedef struct daybook_returned {
    uint64_t half, odd, rest, shares[DAYBOOK_MAX_USERS], remainders[DAYBOOK_MAX_USERS];
} daybook_returned;
typedef struct daybook_days {
    uint64_t kwh[DAYBOOK_SHRINKAGE_DAYS];
} daybook_days;

/* ---- parts as the exported functions take them: a pointer that is never NULL, and a length; before a store or a log whether there is one */

static inline void *daybook_nothing(void)
{
    static uint64_t nothing;
    return &nothing;
}

#define DAYBOOK_RAW_PART(type, pointer, length) ((pointer) != NULL ? (pointer) : (type *)daybook_nothing()), ((pointer) != NULL ? (length) : 0)
#define DAYBOOK_RAW_BYTES(part) DAYBOOK_RAW_PART(const uint8_t, (part).bytes, (part).length)
#define DAYBOOK_RAW_CHANGED(part) DAYBOOK_RAW_PART(uint8_t, (part).bytes, (part).length)
#define DAYBOOK_RAW_STORE(setting) (setting)->store.bytes != NULL, DAYBOOK_RAW_BYTES((setting)->store)
#define DAYBOOK_RAW_LOG(setting) (setting)->log.bytes != NULL, DAYBOOK_RAW_CHANGED((setting)->log)
#define DAYBOOK_RAW_ANSWER(answer) (uint64_t *)(answer), sizeof *(answer) / sizeof(uint64_t)

/* ---- the calls */

/* The interface of the archive, which must be DAYBOOK_INTERFACE. */
static inline uint32_t daybook_interface(void)
{
    return daybook_raw_interface();
}

/* Bytes that may be changed, as bytes that are read. */
static inline daybook_bytes daybook_read_only(daybook_part part)
{
    daybook_bytes bytes = {part.bytes, part.length};
    return bytes;
}

/* Asks the questions 1 to 7 of a book, and copies its fields to the image. No store is looked at. */
static inline uint32_t daybook_read(const daybook_setting *setting, daybook_bytes book, daybook_image *image)
{
    return daybook_raw_read(DAYBOOK_RAW_BYTES(book), setting->party, image->bytes, sizeof image->bytes);
}

/* Writes the book whose fields the image has, up to its counts, to `out`, which must have exactly the book's length. The mark and the zero bytes are written whatever the
   image has there; S and U of version 1 and the managers of versions 1 and 2 are neither written nor looked at. Refused with the first of the questions 2 to 7 that the
   bytes so written would fail, 3 where `out` is of another length; `out` is then unchanged. No book is given, so no party is asked for. */
static inline uint32_t daybook_write(const daybook_image *image, daybook_part out)
{
    return daybook_raw_write(image->bytes, sizeof image->bytes, DAYBOOK_RAW_CHANGED(out));
}

/* Writes a book as a version, 1, 2 or 3, also its own, to the front of an output; a longer output keeps its rest. Fields that the book's version lacks are 0. Where a manager
   other than 0 would be lost, or on the way to 1 a selling tariff other than 0, the call is refused with 21. A refused call leaves the output. How long the book then is
   follows from the counts, which stay: DAYBOOK_LENGTH_AS. Back again it is the first bytes, and no other call without a log answers otherwise on it (proved:
   crates/conversions/specs/Statements.antt). */
static inline uint32_t daybook_convert(const daybook_setting *setting, daybook_bytes book, uint32_t version, daybook_part out)
{
    return daybook_raw_convert(DAYBOOK_RAW_BYTES(book), setting->party, version, DAYBOOK_RAW_CHANGED(out));
}

/* Writes a book field by field to the front of an output: its header with the mark GDF, all ids, all roles, and so on through the user and then the trade fields. The fields
   of a user are id (4 bytes), role (1), zero bytes (3), physical entry in three areas (4 each), position in three areas (4 each), charges, assigned and blocked (8 each), in
   version 3 then the manager in three areas (4 each); those of a trade seller and buyer (4 each), area, kind, day and a zero byte (1 each), notified and standing (4 each).
   Users and trades begin where they begin in the book, and the column of a field then as many bytes on as the widths of the fields before it times the count: daybook_column
   tells it (daybook_columns.h). The form has the book's length; a longer output keeps its rest, and a refused call leaves the output. */
static inline uint32_t daybook_form(const daybook_setting *setting, daybook_bytes book, daybook_part out)
{
    return daybook_raw_form(DAYBOOK_RAW_BYTES(book), setting->party, DAYBOOK_RAW_CHANGED(out));
}

/* Writes the book of such a form, of any version, to the front of an output, in the same way: the bytes that the form was made of. Only the form of a book that passes the
   questions 1 to 7 is accepted; everything else is 29, whatever the output (proved: crates/book_columns/specs/Statements.antt). No party is asked for. */
static inline uint32_t daybook_restore(daybook_bytes form, daybook_part out)
{
    return daybook_raw_restore(DAYBOOK_RAW_BYTES(form), DAYBOOK_RAW_CHANGED(out));
}

/* Copies the record of the user of an id, with 0 behind it where the book's version has the shorter record. A shipper may have its own. */
static inline uint32_t daybook_show(const daybook_setting *setting, daybook_bytes book, uint32_t id, daybook_user_record *record)
{
    return daybook_raw_show(DAYBOOK_RAW_BYTES(book), setting->party, DAYBOOK_RAW_STORE(setting), id, record->bytes, sizeof record->bytes);
}

/* The same of the picked one of two books: the morning's where `afternoon_picked` is 0, else the afternoon's. Only the picked book is questioned. */
static inline uint32_t daybook_show_picked(const daybook_setting *setting, daybook_bytes morning, daybook_bytes afternoon, uint32_t afternoon_picked, uint32_t id,
                                           daybook_user_record *record)
{
    return daybook_raw_show_picked(DAYBOOK_RAW_BYTES(morning), DAYBOOK_RAW_BYTES(afternoon), setting->party, DAYBOOK_RAW_STORE(setting), afternoon_picked, id,
                                   record->bytes, sizeof record->bytes);
}

/* Adds a signed amount of MWh to a user's physical entry and position in an area, one of daybook_area (daybook_fields.h). */
static inline uint32_t daybook_posting(const daybook_setting *setting, daybook_part book, uint32_t id, uint32_t area, int64_t amount)
{
    return daybook_raw_posting(DAYBOOK_RAW_CHANGED(book), setting->party, DAYBOOK_RAW_STORE(setting), DAYBOOK_RAW_LOG(setting), id, area, amount);
}

/* Posts a list of corrections, at most DAYBOOK_MAX_LINES lines. Book and numbers are those of the postings made one after another: 0, 8 or 10 for each line, in the place
   beside it, and the call returns 0 also where every line was refused. The other questions are asked once, before the first line. An empty list is accepted. */
static inline uint32_t daybook_list(const daybook_setting *setting, daybook_part book, daybook_lines lines)
{
    return daybook_raw_list(DAYBOOK_RAW_CHANGED(book), setting->party, DAYBOOK_RAW_STORE(setting), DAYBOOK_RAW_LOG(setting),
                            DAYBOOK_RAW_PART(const uint32_t, lines.ids, lines.count), DAYBOOK_RAW_PART(const uint32_t, lines.areas, lines.count),
                            DAYBOOK_RAW_PART(const int64_t, lines.amounts, lines.count), DAYBOOK_RAW_PART(uint32_t, lines.places, lines.count));
}

/* The morning level of a shipper. A manager bears the risk of its group in an area: what enters its levels, flag and tiers there is the sum over itself and its members, and a
   member counts 0; charges and guarantees are each one's own. */
static inline uint32_t daybook_morning_level(const daybook_setting *setting, daybook_bytes book, uint32_t id, daybook_level *answer)
{
    return daybook_raw_morning_level(DAYBOOK_RAW_BYTES(book), setting->party, DAYBOOK_RAW_STORE(setting), id, DAYBOOK_RAW_ANSWER(answer));
}

/* The afternoon level of a shipper. In versions 2 and 3 it is lowered by a credit, each long position at its selling tariff (S for PVB, U for TVB and AVB), but not below the
   least level. The credit is in the target of a reduction and in whatever else asks for the afternoon level; not in the morning level, not in the warning. */
static inline uint32_t daybook_afternoon_level(const daybook_setting *setting, daybook_bytes book, uint32_t id, daybook_level *answer)
{
    return daybook_raw_afternoon_level(DAYBOOK_RAW_BYTES(book), setting->party, DAYBOOK_RAW_STORE(setting), id, DAYBOOK_RAW_ANSWER(answer));
}

/* The levels and the state of every user, in the order of the book, after one asking of its questions: each as the calls for its id tell (proved:
   crates/user_levels/specs/Claims.antt). A clearing house has the state DAYBOOK_CLEAR and levels of 0, where the calls for its id are refused with 9. A shipper is
   DAYBOOK_SHORT of cover; or DAYBOOK_CALL, called in with an assigned guarantee that suffices, so that an afternoon call is accepted; or else DAYBOOK_QUIET. Past the last user
   all is 0. The place of a user among all tells of others, so it is the operator's. */
static inline uint32_t daybook_levels(const daybook_setting *setting, daybook_bytes book, daybook_all_levels *answer)
{
    return daybook_raw_levels(DAYBOOK_RAW_BYTES(book), setting->party, DAYBOOK_RAW_STORE(setting), DAYBOOK_RAW_ANSWER(answer));
}

/* Raises a shipper's blocked guarantee to the morning level: the level, what was added. */
static inline uint32_t daybook_morning_call(const daybook_setting *setting, daybook_part book, uint32_t id, daybook_guarantee *answer)
{
    return daybook_raw_morning_call(DAYBOOK_RAW_CHANGED(book), setting->party, DAYBOOK_RAW_STORE(setting), DAYBOOK_RAW_LOG(setting), id, DAYBOOK_RAW_ANSWER(answer));
}

/* Raises a shipper's blocked guarantee to the afternoon level: the level, what was added. */
static inline uint32_t daybook_afternoon_call(const daybook_setting *setting, daybook_part book, uint32_t id, daybook_guarantee *answer)
{
    return daybook_raw_afternoon_call(DAYBOOK_RAW_CHANGED(book), setting->party, DAYBOOK_RAW_STORE(setting), DAYBOOK_RAW_LOG(setting), id, DAYBOOK_RAW_ANSWER(answer));
}

/* Whether a shipper is warned at midday: 1 for yes, 0 for no. A seller that is managed in the trade's area has its manager's flag. It shows another's flag, so it is the
   operator's. */
static inline uint32_t daybook_warning(const daybook_setting *setting, daybook_bytes book, uint32_t id, daybook_warned *answer)
{
    return daybook_raw_warning(DAYBOOK_RAW_BYTES(book), setting->party, DAYBOOK_RAW_STORE(setting), id, DAYBOOK_RAW_ANSWER(answer));
}

/* Whether a shipper is flagged: 1 for yes, 0 for no. A shipper may have its own. */
static inline uint32_t daybook_flag(const daybook_setting *setting, daybook_bytes book, uint32_t id, daybook_flagged *answer)
{
    return daybook_raw_flag(DAYBOOK_RAW_BYTES(book), setting->party, DAYBOOK_RAW_STORE(setting), id, DAYBOOK_RAW_ANSWER(answer));
}

/* How many trades a shipper may see: its own, bought or sold, and, in an area where it manages others, theirs. */
static inline uint32_t daybook_trade_count(const daybook_setting *setting, daybook_bytes book, uint32_t id, daybook_seen *answer)
{
    return daybook_raw_trade_count(DAYBOOK_RAW_BYTES(book), setting->party, DAYBOOK_RAW_STORE(setting), id, DAYBOOK_RAW_ANSWER(answer));
}

/* Copies the trade of this ordinal, from 0, among those that a shipper may see, in the order of the book. Past the last it returns 0, and the record has the length 0. */
static inline uint32_t daybook_trade(const daybook_setting *setting, daybook_bytes book, uint32_t id, uint32_t ordinal, daybook_trade_record *record)
{
    return daybook_raw_trade(DAYBOOK_RAW_BYTES(book), setting->party, DAYBOOK_RAW_STORE(setting), id, ordinal, record->bytes, sizeof record->bytes, &record->length,
                             DAYBOOK_TRADE_NUMBERS);
}

/* Cuts a shipper's bilateral sales for what its afternoon level exceeds its assigned guarantee by, and settles the positions: the MWh cut, their worth, the target, and what
   the worth stays below the target or is above it by. In an area with a group the sales that its members made to others are the manager's, and not their own; a sale between
   two of one group is cut for nobody. */
static inline uint32_t daybook_reduction(const daybook_setting *setting, daybook_part book, uint32_t id, daybook_reduced *answer)
{
    return daybook_raw_reduction(DAYBOOK_RAW_CHANGED(book), setting->party, DAYBOOK_RAW_STORE(setting), DAYBOOK_RAW_LOG(setting), id, DAYBOOK_RAW_ANSWER(answer));
}

/* Finds whole trades of a shipper to cancel, among its eligible ones, whose worth at tariff reaches what its afternoon level exceeds its assigned guarantee by; the book is
   not changed. A set of trades is read as a binary number, the earliest trade its highest bit, and sets are tried counting down from all trades to the empty set, until the
   tries are spent, an excess of 0 is met or none is left. The marks, by trade place, have 1 for each trade of the first tried set with the smallest excess over the target,
   else 0; beside them that excess, the tries made, and 1 where the search is complete, which is where the excess is 0 or every set was tried, so that no other set that
   reaches the target has a smaller one. More tries never give a larger excess (proved: crates/requests/specs/Cancellation.antt). */
static inline uint32_t daybook_cancellation(const daybook_setting *setting, daybook_bytes book, uint32_t id, uint32_t tries, daybook_cancelled *answer)
{
    return daybook_raw_cancellation(DAYBOOK_RAW_BYTES(book), setting->party, DAYBOOK_RAW_STORE(setting), id, tries, answer->marks, sizeof answer->marks,
                                    &answer->excess, DAYBOOK_CANCELLATION_NUMBERS);
}

/* Reduces the shipper of the lowest id that is short of cover and has an eligible trade, until there is none, or until one is due and the log is full (20): the reductions,
   the MWh cut, their worth, after 20 too. It reports at most as many reductions as MWh stand, before the run, in trades of kind 0 and day 0, and leaves the book byte for byte
   where it reports none (proved: crates/sequence/specs/RunLength.antt). So the most that a book can take is told from its bytes, before the run: add up the 32 bits at byte 16
   of each trade whose bytes 9 and 10 are 0. That is 25,600,000 at most, and legal books take as many. */
static inline uint32_t daybook_run(const daybook_setting *setting, daybook_part book, daybook_ran *answer)
{
    return daybook_raw_run(DAYBOOK_RAW_CHANGED(book), setting->party, DAYBOOK_RAW_STORE(setting), DAYBOOK_RAW_LOG(setting), DAYBOOK_RAW_ANSWER(answer));
}

/* Starts a log, of DAYBOOK_LOG_SIZE bytes, that holds a book and has no entry, whatever the bytes were; nothing but the lengths is asked (19). */
static inline uint32_t daybook_start_log(daybook_part log, daybook_bytes book)
{
    return daybook_raw_start_log(DAYBOOK_RAW_CHANGED(log), DAYBOOK_RAW_BYTES(book));
}

/* Withdraws the last reduction that the setting's log has noted: its cuts are given back, the positions settled, and the entry dropped; its MWh and their worth. Without a log
   it is refused with 19. Withdrawing every entry of a log that daybook_start_log and the calls since wrote gives back the book before the first reduction noted, byte for byte
   (proved: crates/sequence/specs/Logs.antt). Any log that 19 lets pass is taken: its entries raise no trade above what was notified. */
static inline uint32_t daybook_withdrawal(const daybook_setting *setting, daybook_part book, daybook_withdrawn *answer)
{
    return daybook_raw_withdrawal(DAYBOOK_RAW_CHANGED(book), setting->party, DAYBOOK_RAW_STORE(setting), DAYBOOK_RAW_CHANGED(setting->log), DAYBOOK_RAW_ANSWER(answer));
}

/* The return of retained shrinkage for the users' balances in kWh, which have a sign; no book is involved. H, which is half of a negative total rounded down, the odd kWh,
   what the shares leave of H for the system account; then each user's share, the whole part of H * own / sum, where own and sum are over negative balances; then the remainder
   of each such division. All are 0 for a total of 0 or above, and in the places past the users. For a negative total shares, odd kWh, rest and H add up to its absolute value,
   and no share exceeds the user's own balance (proved: crates/shrinkage/specs/Statements.antt). */
static inline uint32_t daybook_shrinkage_return(const int64_t *balances, size_t users, daybook_returned *answer)
{
    return daybook_raw_shrinkage_return(DAYBOOK_RAW_PART(const int64_t, balances, users), DAYBOOK_RAW_ANSWER(answer));
}

/* A share over 30 days: the whole part per day, the remainder spread one kWh a day from the first. No share is refused. */
static inline uint32_t daybook_shrinkage_days(uint64_t share, daybook_days *answer)
{
    return daybook_raw_shrinkage_days(share, DAYBOOK_RAW_ANSWER(answer));
}

#endif
