/*
 * Tells with which SIP status a call ends for each Q.850 cause value given, and which row of the cause table says so; where none is given,
 * for a few that are told in different ways.
 */
#include <errno.h>
#include <inttypes.h>
#include <stdio.h>
#include <stdlib.h>

#include "mishkolar.h"

static void tell(uint64_t cause)
{
    uint64_t row, refusal;
    uint64_t status = mishkolar_status_of_cause(cause, &row, &refusal);

    if (refusal != 0)
        printf("cause %" PRIu64 ": refused, %" PRIu64 "\n", cause, refusal);
    else if (row == cause)
        printf("cause %" PRIu64 ": status %" PRIu64 ", by a row of its own\n", cause, status);
    else
        printf("cause %" PRIu64 ": status %" PRIu64 ", by the row of %" PRIu64 "\n", cause, status, row);
}

/* Reads a number of decimal digits that 64 bits can hold. Says whether it is one. */
static int read_cause(const char *word, uint64_t *cause)
{
    char *end;

    if (*word < '0' || *word > '9')
        return 0;
    errno = 0;
    *cause = strtoull(word, &end, 10);
    return errno == 0 && *end == '\0';
}

int main(int argc, char **argv)
{
    /* Two that are listed, two that take the row of their class end, one that is over 127. */
    static const uint64_t telling[] = { 17, 34, 26, 96, 128 };
    uint64_t cause;
    size_t i;
    int place;

    for (i = 0; argc == 1 && i < sizeof telling / sizeof telling[0]; i++)
        tell(telling[i]);
    for (place = 1; place < argc; place++) {
        if (!read_cause(argv[place], &cause)) {
            fprintf(stderr, "usage: %s [CAUSE...]\n", argv[0]);
            return 2;
        }
        tell(cause);
    }
    return 0;
}
