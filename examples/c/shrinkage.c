/* Prints a return of retained shrinkage as a table, in kWh: shrinkage BALANCE.. */
#include <errno.h>
#include <inttypes.h>
#include <stdio.h>
#include <stdlib.h>

#include "daybook.h"

enum { MOST_BALANCES = 100 };

/* What a user gets: the balance, the share and its remainder, and the share on its first and its last day. */
static void print_user(size_t user, int64_t balance, const daybook_returned *answer)
{
    uint64_t share = answer->shares[user];
    daybook_days days;
    daybook_shrinkage_days(share, &days);
    printf("%4zu %12" PRId64 " %10" PRIu64 " %12" PRIu64 " %10" PRIu64 " %10" PRIu64 "\n", user + 1, balance, share,
           answer->remainders[user], days.kwh[0], days.kwh[DAYBOOK_SHRINKAGE_DAYS - 1]);
}

int main(int argc, char **argv)
{
    int64_t balances[MOST_BALANCES] = {0};
    daybook_returned answer;
    size_t users = (size_t)(argc > 0 ? argc - 1 : 0);

    if (users > MOST_BALANCES) {
        fprintf(stderr, "shrinkage: at most %d balances\n", MOST_BALANCES);
        return 2;
    }
    for (size_t i = 0; i < users; i++) {
        char *end;
        errno = 0;
        balances[i] = strtoll(argv[i + 1], &end, 10);
        if (errno != 0 || *end != '\0' || end == argv[i + 1]) {
            fprintf(stderr, "shrinkage: %s is no balance\n", argv[i + 1]);
            return 2;
        }
    }
    uint32_t number = daybook_shrinkage_return(balances, users, &answer);
    if (number != 0) {
        printf("refused, question %" PRIu32 "\n", number);
        return 1;
    }
    printf("%4s %12s %10s %12s %10s %10s\n", "user", "balance", "share", "remainder", "first day", "last day");
    for (size_t i = 0; i < users; i++)
        print_user(i, balances[i], &answer);
    printf("half %" PRIu64 ", odd kWh %" PRIu64 ", rest in the system account %" PRIu64 "\n", answer.half, answer.odd, answer.rest);
    return 0;
}
