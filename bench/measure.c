/*
 * One screening, or one parsing and writing, of each message by each of four implementations, and the library's other functions:
 *   mishkolar   the proved library: judge, and write the outgoing message into a buffer
 *   second      the second implementation, the same
 *   osip        libosip2: parse into its structures, write as text, free
 *   sofia       sofia-sip: the same
 *   calling     the proved library's calling number
 *   count       its count of Via
 *   reading     its reading of the first Via
 *   record      its counting of the message as one record, with none held before
 *   home        the second library's parameter of the message with the code 33, the next node at home
 *   home-back   its caller of that parameter
 *   abroad      its parameter where the next node is not at home
 *   abroad-back its caller of that parameter
 *   status      its status of the cause 17
 * A message goes to side 1 with none held. Then come rows of hidden calls (messages.py), each with its own side and table, or with a call to end:
 *   mishkolar   the proved library: a screening, or the end of a call
 *   second      the second implementation, the same
 * Buffers are not cleared between the calls, but each starts from the same table of calls: that is put there before, and neither its
 * instructions nor its time count. Every call is done once before it is measured. The answers of both implementations to a row, and the
 * second library's for the messages named `call` and `invite`, must be right before anything of them is measured.
 *
 * use: measure count MESSAGE... -- ROW...    one call of a measured_ function for each printed line, with a dump by callgrind that has its number
 *      measure time MESSAGE... -- ROW...     prints the median nanoseconds of one call
 * A line is: file, name as above, 1 where the message was taken or 0, nanoseconds or the number of the dump.
 */
#define _POSIX_C_SOURCE 200809L
#include <stdarg.h>
#include <stdint.h>
#include <stdio.h>
#include <stdlib.h>
#include <string.h>
#include <time.h>

#include <osipparser2/osip_parser.h>
#include <sofia-sip/msg.h>
#include <sofia-sip/sip.h>
#include <sofia-sip/sip_header.h>
#include <sofia-sip/su_alloc.h>
#include <valgrind/callgrind.h>

#include "mishkolar.h"
#include "mishkolar_isup.h"

#define SIDE 1
#define VIA_NUMBER 1
#define CAUSE 17
#define BATCHES 201
#define BATCH_NANOSECONDS 50000

size_t second_screen(const uint8_t *message, size_t len, uint64_t side, uint8_t *calls, uint8_t *out, size_t room, uint64_t *reason);
uint64_t second_end_call(uint8_t *calls, const uint8_t *call_id, size_t id_len, const uint8_t *tag, size_t tag_len);

static uint8_t message[8193];
static size_t len;
static uint64_t side;
static uint8_t out[9216];
/* The table of calls that is lent, and what it is before each call. */
static uint8_t calls[MISHKOLAR_CALLS], before[MISHKOLAR_CALLS];
static uint64_t reason;
static volatile size_t sink;

__attribute__((noinline)) static void restore(void)
{
    memcpy(calls, before, sizeof calls);
}

/* Each returns a length or a count, 0 where the message is not taken. */
__attribute__((noinline)) size_t measured_mishkolar(void)
{
    uint64_t reply, detail, missing;
    return mishkolar_screen(message, len, side, calls, out, sizeof out, &reason, &reply, &detail, &missing);
}

__attribute__((noinline)) size_t measured_second(void)
{
    return second_screen(message, len, side, calls, out, sizeof out, &reason);
}

/* The call to end: the message is its Call-ID, of so many bytes, and its tag. */
static size_t id_len;

__attribute__((noinline)) size_t measured_end(void)
{
    return reason = mishkolar_end_call(calls, message, id_len, message + id_len, len - id_len);
}

__attribute__((noinline)) size_t measured_second_end(void)
{
    return reason = second_end_call(calls, message, id_len, message + id_len, len - id_len);
}

__attribute__((noinline)) size_t measured_osip(void)
{
    osip_message_t *sip = NULL;
    char *text = NULL;
    size_t text_len = 0;

    if (osip_message_init(&sip) != 0)
        return 0;
    if (osip_message_parse(sip, (const char *)message, len) != 0 || osip_message_to_str(sip, &text, &text_len) != 0)
        text_len = 0;
    osip_free(text);
    osip_message_free(sip);
    return text_len;
}

__attribute__((noinline)) size_t measured_sofia(void)
{
    msg_t *msg = msg_make(sip_default_mclass(), 0, message, (ssize_t)len);
    sip_t *sip = msg == NULL ? NULL : sip_object(msg);
    msg_common_t *h = NULL;
    size_t text_len = 0;

    if (sip != NULL && sip->sip_error == NULL && sip->sip_request != NULL)
        h = sip->sip_request->rq_common;
    else if (sip != NULL && sip->sip_error == NULL && sip->sip_status != NULL)
        h = sip->sip_status->st_common;
    if (h != NULL) {
        /* The fields are written from what was parsed, and not copied from the text that was read. */
        for (; h != NULL; h = h->h_succ == NULL ? NULL : h->h_succ->sh_common)
            msg_fragment_clear(h);
        if (msg_as_string(msg_home(msg), msg, NULL, 0, &text_len) == NULL)
            text_len = 0;
    }
    if (msg != NULL)
        msg_destroy(msg);
    return text_len;
}

__attribute__((noinline)) size_t measured_calling(void)
{
    static const uint8_t trunk[] = "+33999999999";
    size_t start;
    uint64_t from_trunk;
    return mishkolar_calling_number(message, len, trunk, sizeof trunk - 1, &start, &from_trunk);
}

__attribute__((noinline)) size_t measured_count(void)
{
    return mishkolar_count(message, len, VIA_NUMBER);
}

__attribute__((noinline)) size_t measured_reading(void)
{
    size_t start;
    return mishkolar_reading(message, len, VIA_NUMBER, 1, &start);
}

__attribute__((noinline)) size_t measured_record(void)
{
    static uint32_t counts[60];
    /* From 0 at each call, since nothing is counted after a million. */
    uint64_t read = 0, end = 0;
    mishkolar_take_record(counts, &read, &end, calls, side, message, len);
    return (size_t)read;
}

static const uint8_t code[] = { '3', '3' };
/* The last parameter, which the next caller is read from. */
static uint8_t parameter[MISHKOLAR_ISUP_PARAMETER];
static size_t parameter_len;
static uint8_t caller[MISHKOLAR_ISUP_NUMBER];
static uint64_t id;

__attribute__((noinline)) size_t measured_home(void)
{
    uint64_t reply, detail, missing;
    return parameter_len = mishkolar_isup_parameter(message, len, code, sizeof code, 1, parameter, &reason, &reply, &detail, &missing);
}

__attribute__((noinline)) size_t measured_abroad(void)
{
    uint64_t reply, detail, missing;
    return parameter_len = mishkolar_isup_parameter(message, len, code, sizeof code, 0, parameter, &reason, &reply, &detail, &missing);
}

__attribute__((noinline)) size_t measured_back(void)
{
    uint64_t refusal;
    return mishkolar_isup_caller(parameter, parameter_len, code, sizeof code, caller, &id, &refusal);
}

__attribute__((noinline)) size_t measured_status(void)
{
    uint64_t refusal;
    return (size_t)mishkolar_isup_status(CAUSE, &refusal);
}

/* Whether the parameter is the wanted one, and gives the caller of the message back, withheld. */
static int is_given(size_t (*call)(void), const char *wanted)
{
    static const char number[] = "+33187654321";

    memset(parameter, 0, sizeof parameter);
    memset(caller, 0, sizeof caller);
    return call() == strlen(wanted) && memcmp(parameter, wanted, strlen(wanted)) == 0
        && measured_back() == strlen(number) && memcmp(caller, number, strlen(number)) == 0 && id == 1;
}

static int is_right(void)
{
    return is_given(measured_home, "\x83\x17\x81\x67\x45\x23\x01")
        && is_given(measured_abroad, "\x84\x17\x33\x81\x67\x45\x23\x01") && measured_status() == 486;
}

/* What is measured, and whether it is lent a table of calls. */
struct task {
    const char *name;
    size_t (*call)(void);
    int lent;
};

static const struct task tasks[] = {
    { "mishkolar", measured_mishkolar, 1 },
    { "second", measured_second, 1 },
    { "osip", measured_osip, 0 },
    { "sofia", measured_sofia, 0 },
    { "calling", measured_calling, 0 },
    { "count", measured_count, 0 },
    { "reading", measured_reading, 0 },
    { "record", measured_record, 1 },
    { "home", measured_home, 0 },
    { "home-back", measured_back, 0 },
    { "abroad", measured_abroad, 0 },
    { "abroad-back", measured_back, 0 },
    { "status", measured_status, 0 },
};
#define TASKS (sizeof tasks / sizeof tasks[0])

static const struct task ends[] = {
    { "mishkolar", measured_end, 1 },
    { "second", measured_second_end, 1 },
};

static double nanoseconds(void)
{
    struct timespec now;
    clock_gettime(CLOCK_MONOTONIC, &now);
    return (double)now.tv_sec * 1e9 + (double)now.tv_nsec;
}

static int by_value(const void *a, const void *b)
{
    double x = *(const double *)a, y = *(const double *)b;
    return (x > y) - (x < y);
}

static double batch(const struct task *task, size_t calls_made)
{
    double begin = nanoseconds();
    size_t i;

    for (i = 0; i < calls_made; i++) {
        if (task->lent)
            restore();
        sink = task->call();
    }
    return nanoseconds() - begin;
}

/* The median over batches of the time of one call, and of putting the table there. */
static double median(const struct task *task)
{
    static double times[BATCHES];
    size_t calls_made = 1;
    int i;

    while (batch(task, calls_made) < BATCH_NANOSECONDS && calls_made <= 1000000)
        calls_made *= 2;
    for (i = 0; i < BATCHES; i++)
        times[i] = batch(task, calls_made) / (double)calls_made;
    qsort(times, BATCHES, sizeof times[0], by_value);
    return times[BATCHES / 2];
}

__attribute__((noinline)) static size_t nothing(void)
{
    return calls[0];
}

static double median_alone(const struct task *task)
{
    static const struct task putting = { "", nothing, 1 };
    double both = median(task), alone = task->lent ? median(&putting) : 0;

    return both > alone ? both - alone : 0;
}

static void measure(const char *path, const struct task *task, int timed)
{
    static int dumps;
    size_t taken;
    double number;

    restore();
    /* The first call warms up. */
    taken = task->call();
    restore();
    if (timed) {
        number = median_alone(task);
    } else {
        CALLGRIND_ZERO_STATS;
        sink = task->call();
        CALLGRIND_DUMP_STATS;
        number = ++dumps;
    }
    printf("%s %s %d %.0f\n", path, task->name, taken != 0, number);
    fflush(stdout);
}

static void fail(const char *path, const char *what)
{
    fprintf(stderr, "%s: %s\n", path, what);
    exit(1);
}

static void measure_message(const char *path, FILE *file, int timed)
{
    const char *slash = strrchr(path, '/'), *base = slash == NULL ? path : slash + 1;
    size_t i;

    len = fread(message, 1, sizeof message, file);
    side = SIDE;
    memset(before, 0, sizeof before);
    if ((strcmp(base, "call") == 0 || strcmp(base, "invite") == 0) && !is_right())
        fail(path, "the second library's answers are not right");
    for (i = 0; i < TASKS; i++)
        measure(path, &tasks[i], timed);
}

/* A row: side, or 2 for an end; wanted reason; whether the table changes; length of the Call-ID of an end; the table; the message or the pair. */
static void measure_row(const char *path, FILE *file, int timed)
{
    uint8_t head[4];
    const struct task *task;
    int i;

    if (fread(head, 1, sizeof head, file) != sizeof head || fread(before, 1, sizeof before, file) != sizeof before)
        fail(path, "cut short");
    len = fread(message, 1, sizeof message, file);
    side = head[0];
    id_len = head[3];
    task = side == 2 ? ends : tasks;
    for (i = 0; i < 2; i++) {
        restore();
        task[i].call();
        if (reason != head[1] || (memcmp(calls, before, sizeof calls) != 0) != head[2])
            fail(path, "the answer or the table is not right");
        measure(path, &task[i], timed);
    }
}

static void say_nothing(const char *file, int line, osip_trace_level_t level, const char *format, va_list words)
{
    (void)file, (void)line, (void)level, (void)format, (void)words;
}

int main(int argc, char **argv)
{
    int timed = argc > 2 && strcmp(argv[1], "time") == 0, rows = 0, place;

    if (argc < 3 || (!timed && strcmp(argv[1], "count") != 0)) {
        fprintf(stderr, "use: %s count|time MESSAGE... -- ROW...\n", argv[0]);
        return 2;
    }
    parser_init();
    /* libosip2 would write a line to standard output for each message that it refuses. */
    osip_trace_initialize_func(TRACE_LEVEL0, say_nothing);
    for (place = 2; place < argc; place++) {
        FILE *file;
        if (strcmp(argv[place], "--") == 0) {
            rows = 1;
            continue;
        }
        file = fopen(argv[place], "rb");
        if (file == NULL) {
            perror(argv[place]);
            return 1;
        }
        (rows ? measure_row : measure_message)(argv[place], file, timed);
        fclose(file);
    }
    return 0;
}
