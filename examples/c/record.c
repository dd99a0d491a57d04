/*
 * Records messages as a gateway does for the regulator's quarter, and counts them as they come. Each file holds one message that goes to a
 * peer on the side. Its record goes to standard output, and at the end the report of all of them to standard error; `replay` prints the
 * same report from the records, later and elsewhere.
 */
#include <stdio.h>
#include <stdlib.h>
#include <string.h>

#include "mishkolar.h"

/* The longest message whose length the two bytes can tell. */
#define MOST 65535

/*
 * What is counted so far. A gateway keeps these four for the whole quarter; one that starts again takes its recorded messages once more, from
 * the first on. After 1,000,000 records the next makes end 33 and is not counted: before it begin a new file, and all four at 0. The
 * calls are those of the records, as a replay finds them: the table that the gateway screens with is another one.
 */
static uint32_t counts[60];
static uint64_t taken, end;
static uint8_t calls[MISHKOLAR_CALLS];

/* Writes one record: mark, side, length with the high byte first, message. Says whether all of it was written. */
static int put_record(FILE *records, uint8_t side, const uint8_t *message, size_t len)
{
    uint8_t head[5] = { 0x53, 0x4E, side, (uint8_t)(len >> 8), (uint8_t)(len & 0xFF) };

    return fwrite(head, 1, sizeof head, records) == sizeof head && fwrite(message, 1, len, records) == len && fflush(records) == 0;
}

/* Records a message and counts it, in that order: what is not recorded is not counted either, so that both reports stay the same. */
static int take(const char *name, uint8_t side, const uint8_t *message, size_t len)
{
    if (len > MOST) {
        fprintf(stderr, "%s: not recorded, it has over %d bytes\n", name, MOST);
        return 0;
    }
    if (!put_record(stdout, side, message, len)) {
        /* Half a record may stand there, and whatever came after it would not be read. */
        perror("standard output");
        exit(1);
    }
    mishkolar_take_record(counts, &taken, &end, calls, side, message, len);
    return 1;
}

static int take_file(const char *name, uint8_t side)
{
    /* One byte more than can be recorded, so that a longer message is seen to be longer. */
    static uint8_t message[MOST + 1];
    FILE *file = fopen(name, "rb");
    size_t len;

    if (file == NULL) {
        perror(name);
        return 0;
    }
    len = fread(message, 1, sizeof message, file);
    if (ferror(file)) {
        perror(name);
        fclose(file);
        return 0;
    }
    fclose(file);
    return take(name, side, message, len);
}

int main(int argc, char **argv)
{
    static uint8_t report[4096];
    int place, all = 1;

    if (argc < 3 || (strcmp(argv[1], "0") != 0 && strcmp(argv[1], "1") != 0)) {
        fprintf(stderr, "usage: %s 0|1 MESSAGE... > RECORDS\n", argv[0]);
        return 2;
    }
    for (place = 2; place < argc; place++)
        all &= take_file(argv[place], argv[1][0] == '1');
    fwrite(report, 1, mishkolar_report(counts, taken, end, report, sizeof report), stderr);
    return all ? 0 : 1;
}
