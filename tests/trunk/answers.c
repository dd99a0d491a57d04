/*
 * Answers each line of standard input by the library, with a line on standard output.
 *   parameter CODE HOME INVITE    REASON REPLY DETAIL MISSING PARAMETER
 *   caller CODE PARAMETER         REFUSAL ID NUMBER
 * INVITE and PARAMETER are in hex. A lone `-` stands for no bytes.
 */
#include <inttypes.h>
#include <stdio.h>
#include <stdlib.h>
#include <string.h>

#include "mishkolar_isup.h"

#define PAINT 0xEE

static char line[65536];
static uint8_t bytes[sizeof line / 2];

static void fail(const char *what)
{
    fprintf(stderr, "%s: %s\n", what, line);
    exit(2);
}

/* The next word of the line. */
static char *word(char *from)
{
    char *found = strtok(from, " \n");

    if (found == NULL)
        fail("a word is missing");
    return found;
}

static size_t unhex(const char *hex)
{
    size_t len = strcmp(hex, "-") == 0 ? 0 : strlen(hex) / 2, i;

    for (i = 0; i < len; i++) {
        unsigned byte;
        if (sscanf(hex + 2 * i, "%2x", &byte) != 1)
            fail("no hex");
        bytes[i] = (uint8_t)byte;
    }
    return len;
}

/* What the library did not say that it wrote must be as it was. */
static void untouched(const uint8_t *lent, size_t from, size_t size)
{
    if (from > size)
        fail("a length over that of the lent bytes");
    for (; from < size; from++)
        if (lent[from] != PAINT)
            fail("a byte past the length is another");
}

static void answer_parameter(void)
{
    const char *code = word(NULL);
    uint64_t home = strtoull(word(NULL), NULL, 10), numbers[4] = { 99, 99, 99, 99 };
    size_t len = unhex(word(NULL)), size, i;
    uint8_t parameter[MISHKOLAR_ISUP_PARAMETER];

    memset(parameter, PAINT, sizeof parameter);
    size = mishkolar_isup_parameter(bytes, len, (const uint8_t *)code, strlen(code), home, parameter, numbers, numbers + 1, numbers + 2, numbers + 3);
    untouched(parameter, size, sizeof parameter);
    for (i = 0; i < 4; i++)
        printf("%" PRIu64 " ", numbers[i]);
    for (i = 0; i < size; i++)
        printf("%02x", parameter[i]);
    printf(size == 0 ? "-\n" : "\n");
}

static void answer_caller(void)
{
    const char *code = word(NULL);
    size_t len = unhex(word(NULL)), size;
    uint64_t id = 99, refusal = 99;
    uint8_t number[MISHKOLAR_ISUP_NUMBER];

    memset(number, PAINT, sizeof number);
    size = mishkolar_isup_caller(bytes, len, (const uint8_t *)code, strlen(code), number, &id, &refusal);
    untouched(number, size, sizeof number);
    printf("%" PRIu64 " %" PRIu64 " %.*s\n", refusal, id, size == 0 ? 1 : (int)size, size == 0 ? "-" : (const char *)number);
}

int main(void)
{
    while (fgets(line, sizeof line, stdin) != NULL) {
        const char *asked = word(line);
        if (strcmp(asked, "parameter") == 0)
            answer_parameter();
        else if (strcmp(asked, "caller") == 0)
            answer_caller();
        else
            fail("not asked so");
    }
    return 0;
}
