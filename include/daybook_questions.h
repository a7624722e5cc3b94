/* The questions for C and C++: the numbers that a call returns, and each question in words. No archive is needed for it.
 *
 * A call returns 0 where it did what is asked, or the number of the first question that is answered by no. docs/QUESTIONS.md says more of some.
 */
#ifndef DAYBOOK_QUESTIONS_H
#define DAYBOOK_QUESTIONS_H

#include <stdint.h>

/* The numbers. */
typedef enum daybook_refusal {
    DAYBOOK_ACCEPTED = 0,
    DAYBOOK_REFUSED_MARK = 1,
    DAYBOOK_REFUSED_VERSION = 2,
    DAYBOOK_REFUSED_COUNTS_AND_LENGTH = 3,
    DAYBOOK_REFUSED_DATE_AND_PRICES = 4,
    DAYBOOK_REFUSED_USERS = 5,
    DAYBOOK_REFUSED_TRADES = 6,
    DAYBOOK_REFUSED_POSITIONS = 7,
    DAYBOOK_REFUSED_ID = 8,
    DAYBOOK_REFUSED_SHIPPER = 9,
    DAYBOOK_REFUSED_ENTRY = 10,
    DAYBOOK_REFUSED_CALLED_IN = 11,
    DAYBOOK_REFUSED_ASSIGNED_COVERS_LEVEL = 12,
    DAYBOOK_REFUSED_ASSIGNED_BELOW_LEVEL = 13,
    DAYBOOK_REFUSED_ELIGIBLE_TRADE = 14,
    DAYBOOK_REFUSED_LINES = 15,
    DAYBOOK_REFUSED_STORE_FORM = 16,
    DAYBOOK_REFUSED_SET_IN_FORCE = 17,
    DAYBOOK_REFUSED_LOG_EMPTY = 18,
    DAYBOOK_REFUSED_LOG_FORM = 19,
    DAYBOOK_REFUSED_LOG_FULL = 20,
    DAYBOOK_REFUSED_INFORMATION_LOST = 21,
    DAYBOOK_REFUSED_CONVERSION_ROOM = 22,
    DAYBOOK_REFUSED_TARGET_VERSION = 23,
    DAYBOOK_REFUSED_WORTH_OF_TRADES = 24,
    DAYBOOK_REFUSED_TRIES = 25,
    DAYBOOK_REFUSED_PARTY = 26,
    DAYBOOK_REFUSED_SHRINKAGE_BALANCE = 27,
    DAYBOOK_REFUSED_SHRINKAGE_USERS = 28,
    DAYBOOK_REFUSED_FORM = 29,
    DAYBOOK_REFUSED_FORM_ROOM = 30
} daybook_refusal;
#define DAYBOOK_QUESTIONS 30

/* The question of a number in words, in UTF-8; "" for 0 and for a number of no question. */
static inline const char *daybook_question(uint32_t number)
{
    static const char *const questions[DAYBOOK_QUESTIONS + 1] = {
        "",
        "at least 32 bytes, starting with the mark?",
        "version 1, 2 or 3?",
        "counts in range and length exactly 32 (versions 2 and 3: 40) + 56 (version 3: 68) × users + 20 × trades?",
        "date, prices, tolls and selling tariffs in range?",
        "every user field valid, managers too, positions apart?",
        "every trade valid?",
        "every position as defined?",
        "id in the book?",
        "a shipper?",
        "area 0 to 2, and the new physical entry within ±1,000,000?",
        "level − blocked > 1,000,000 (with a store, its figure), and, but for the morning call, user called in?",
        "assigned ≥ level?",
        "assigned < level?",
        "has the user an eligible trade?",
        "at most 512 lines, columns and places of one count?",
        "is the store well formed?",
        "has the store a set in force on the book's date?",
        "has the log an entry?",
        "is the log one for the book?",
        "has the log room for one more entry?",
        "is no information lost?",
        "is the output long enough?",
        "is the target version known?",
        "are all eligible trades together worth the target?",
        "1 to 65,535 tries?",
        "may the party make this call?",
        "every balance within ±500,000,000 kWh?",
        "at most 64 users?",
        "does the form yield an accepted book?",
        "is the output long enough?",
    };
    return number <= DAYBOOK_QUESTIONS ? questions[number] : "";
}

#endif
