/*
 * Calls every function of include/mishkolar.h and include/mishkolar_isup.h on a stack of as many bytes as its header says, against a page that
 * must not be touched. See `run` beside it.
 */
#include <stdio.h>
#include <stdlib.h>
#include <string.h>
#include <sys/mman.h>
#include <sys/resource.h>
#include <sys/wait.h>
#include <unistd.h>

#include "messages.h"
#include "mishkolar.h"
#include "mishkolar_isup.h"
#include "tables.h"

/* The size for each library; for a trial another for both. */
#ifdef SIZE
#define SCREEN_SIZE SIZE
#define ISUP_SIZE SIZE
#else
#define SCREEN_SIZE MISHKOLAR_STACK
#define ISUP_SIZE MISHKOLAR_ISUP_STACK
#endif
/* On this one the use is measured. */
#define PLENTY 32768
#define FORBIDDEN 262144
#define PAGE 4096
#define ROOM 16384
#define MOST_TOLD 5

_Static_assert(SCREEN_SIZE % 16 == 0 && SCREEN_SIZE > 0 && SCREEN_SIZE <= PLENTY, "a stack pointer is a multiple of 16 at a call");
_Static_assert(ISUP_SIZE % 16 == 0 && ISUP_SIZE > 0 && ISUP_SIZE <= PLENTY, "a stack pointer is a multiple of 16 at a call");

/*
 * Calls the function with the stack pointer at top. The seventh and later arguments already stand there; what the call itself pushes and
 * all below is the function's use.
 */
uint64_t call_at(uint8_t *top, const void *function, const uint64_t *arguments);
__asm__(".text\n"
        ".type call_at, @function\n"
        "call_at:\n"
        "    push %rbp\n"
        "    mov %rsp, %rbp\n"
        "    mov %rdi, %rsp\n"
        "    mov %rsi, %rax\n"
        "    mov %rdx, %r10\n"
        "    mov (%r10), %rdi\n"
        "    mov 8(%r10), %rsi\n"
        "    mov 16(%r10), %rdx\n"
        "    mov 24(%r10), %rcx\n"
        "    mov 32(%r10), %r8\n"
        "    mov 40(%r10), %r9\n"
        "    call *%rax\n"
        "    mov %rbp, %rsp\n"
        "    pop %rbp\n"
        "    ret\n"
        ".size call_at, . - call_at\n");

struct stack {
    uint8_t *low, *top;
};

static struct stack tight, plenty;

static struct stack new_stack(size_t size)
{
    size_t open = (size + 64 + PAGE - 1) / PAGE * PAGE;
    uint8_t *all = mmap(NULL, FORBIDDEN + open, PROT_NONE, MAP_PRIVATE | MAP_ANONYMOUS, -1, 0);

    if (all == MAP_FAILED || mprotect(all + FORBIDDEN, open, PROT_READ | PROT_WRITE) != 0) {
        perror("a stack");
        exit(2);
    }
    return (struct stack){ all + FORBIDDEN, all + FORBIDDEN + size };
}

/*
 * What a child tells: the message and call under way, the largest use so far and at which call, the reasons and refusals met (a bit for each),
 * and that all was tried.
 */
struct note {
    char doing[200], most_at[200];
    size_t place, most;
    unsigned reason;
    uint64_t met;
    int on_tight, ended;
};

static struct note *note;

/* One call: a function with its arguments. */
struct call {
    const void *function;
    uint64_t arguments[10];
};

/* The table of hidden calls that is lent, and the one that it is before each call. */
static uint8_t calls[MISHKOLAR_CALLS];
static const struct table *before = tables;

static uint64_t done_on(const struct stack *stack, const struct call *call)
{
    memcpy(calls, before->bytes, sizeof calls);
    memcpy(stack->top, call->arguments + 6, 4 * sizeof call->arguments[0]);
    return call_at(stack->top, call->function, call->arguments);
}

/* How many bytes below the stack pointer are written, with this paint under them; what the function returns. */
static size_t written(const struct call *call, uint8_t paint, uint64_t *returned)
{
    static uint8_t painted[256];
    uint8_t *at = plenty.low;

    memset(painted, paint, sizeof painted);
    memset(plenty.low, paint, PLENTY);
    *returned = done_on(&plenty, call);
    while (plenty.top - at >= (ptrdiff_t)sizeof painted && memcmp(at, painted, sizeof painted) == 0)
        at += sizeof painted;
    while (at < plenty.top && *at == paint)
        at++;
    return (size_t)(plenty.top - at);
}

/* The call, on the tight stack or measured with two paints: a byte that is written with the one differs from the other. */
static uint64_t try(const struct call *call)
{
    uint64_t returned;
    size_t a, b;

    if (note->on_tight)
        return done_on(&tight, call);
    a = written(call, 0x5a, &returned);
    b = written(call, 0xc3, &returned);
    if (a < b)
        a = b;
    if (a > note->most) {
        note->most = a;
        memcpy(note->most_at, note->doing, sizeof note->doing);
    }
    return returned;
}

#define NUMBER(x) ((uint64_t)(uintptr_t)(x))
#define DOING(...) snprintf(note->doing, sizeof note->doing, __VA_ARGS__)
#define MET(number) (1ull << (number))

static uint8_t out[ROOM];
static uint64_t answers[4];

static void try_room(const struct message *m, uint64_t side, size_t room)
{
    struct call call = { mishkolar_screen, { NUMBER(m->bytes), m->len, side, NUMBER(calls), NUMBER(out), room,
        NUMBER(answers), NUMBER(answers + 1), NUMBER(answers + 2), NUMBER(answers + 3) } };

    DOING("%s, side %d, room %zu, %s", m->name, (int)side, room, before->name);
    try(&call);
    note->met |= MET(answers[0]);
}

/* With every table; with none held also with room enough as it is told, exact and one byte short, and to the other sides. */
static void try_screen(const struct message *m)
{
    static const uint64_t sides[] = { 1, 0, 2 };
    size_t i;

    for (before = tables + 1; before < tables + TABLES; before++) {
        try_room(m, 1, ROOM);
        try_room(m, 1, 0);
    }
    before = tables;
    for (i = 0; i < 3; i++) {
        size_t need;
        memcpy(calls, before->bytes, sizeof calls);
        need = mishkolar_screen(m->bytes, m->len, sides[i], calls, out, ROOM, answers, answers + 1, answers + 2, answers + 3);
        if (i == 0)
            note->reason = (unsigned)answers[0];
        try_room(m, sides[i], ROOM);
        try_room(m, sides[i], 9216);
        try_room(m, sides[i], need);
        try_room(m, sides[i], need == 0 ? 0 : need - 1);
        try_room(m, sides[i], 0);
    }
}

static void try_pair(const char *id, size_t id_len, const char *tag, size_t tag_len)
{
    struct call call = { mishkolar_end_call, { NUMBER(calls), NUMBER(id), id_len, NUMBER(tag), tag_len } };

    for (before = tables; before < tables + TABLES; before++) {
        DOING("a Call-ID of %zu bytes, a tag of %zu, %s", id_len, tag_len, before->name);
        note->met |= MET(try(&call));
    }
}

/* Pairs that are held, pairs that are not, and texts that are no pair. */
static void try_end_call(const struct message *m)
{
    static const char held[] = ALIKE_TAG "A", other[] = ALIKE_TAG "z", longer[65536] = { 0 };

    (void)m;
    try_pair(OWN_ID, strlen(OWN_ID), OWN_TAG, strlen(OWN_TAG));
    try_pair(ALIKE_ID, strlen(ALIKE_ID), held, strlen(held));
    try_pair(ALIKE_ID, strlen(ALIKE_ID), other, strlen(other));
    try_pair(ALIKE_ID "i", strlen(ALIKE_ID) + 1, held, strlen(held));
    try_pair(ALIKE_ID, strlen(ALIKE_ID), ALIKE_TAG "AA", strlen(held) + 1);
    try_pair(OWN_ID, strlen(OWN_ID), NULL, 0);
    try_pair(NULL, 0, OWN_TAG, strlen(OWN_TAG));
    try_pair(NULL, 0, NULL, 0);
    try_pair(longer, sizeof longer, longer, sizeof longer);
}

/* Not listed, the first, one that may be withheld, one that repeats, the last, not listed. */
static const uint64_t fields[] = { 0, 1, 3, 13, 18, 19 };

static void try_count(const struct message *m)
{
    size_t i;

    for (i = 0; i < sizeof fields / sizeof fields[0]; i++) {
        struct call call = { mishkolar_count, { NUMBER(m->bytes), m->len, fields[i] } };
        DOING("%s, field %d", m->name, (int)fields[i]);
        try(&call);
    }
}

static void try_reading(const struct message *m)
{
    static const uint64_t places[] = { 0, 1, 80 };
    size_t i, j;

    for (i = 0; i < sizeof fields / sizeof fields[0]; i++)
        for (j = 0; j < sizeof places / sizeof places[0]; j++) {
            struct call call = { mishkolar_reading, { NUMBER(m->bytes), m->len, fields[i], places[j], NUMBER(answers) } };
            DOING("%s, field %d, place %d", m->name, (int)fields[i], (int)places[j]);
            try(&call);
        }
}

static void try_calling_number(const struct message *m)
{
    static const char *const trunks[] = { "+33999999999", "+123456789012345", "+123456", "x", "" };
    size_t i;

    for (i = 0; i < sizeof trunks / sizeof trunks[0]; i++) {
        struct call call = { mishkolar_calling_number, { NUMBER(m->bytes), m->len, NUMBER(trunks[i]), strlen(trunks[i]), NUMBER(answers), NUMBER(answers + 1) } };
        DOING("%s, trunk number \"%s\"", m->name, trunks[i]);
        try(&call);
    }
}

/* What was counted so far. */
static uint32_t counts[60];
static uint64_t taken, ended;

/* The reasons that were counted. */
static void note_counts(void)
{
    size_t i;

    for (i = 0; i < sizeof counts / sizeof counts[0]; i++)
        if (counts[i] != 0)
            note->met |= MET(i % 20);
}

static void try_taking(const struct message *m, uint64_t side, uint64_t records)
{
    struct call call = { mishkolar_take_record, { NUMBER(counts), NUMBER(&taken), NUMBER(&ended), NUMBER(calls), side, NUMBER(m->bytes), m->len } };

    DOING("%s, side %d, after %d records, %s", m->name, (int)side, (int)records, before->name);
    taken = records;
    ended = 0;
    try(&call);
    note_counts();
}

static void try_take_record(const struct message *m)
{
    for (before = tables; before < tables + TABLES; before++)
        try_taking(m, 1, 0);
    before = tables;
    try_taking(m, 0, 0);
    try_taking(m, 2, 0);
    try_taking(m, 1, 1000000);
}

#define LONGEST 65535

static uint8_t text[2 * (5 + LONGEST)];

/* Puts the message as a record at a place of the text, as much of it as a record can have; past it. */
static size_t put_record(size_t at, uint8_t side, const struct message *m)
{
    size_t len = m->len < LONGEST ? m->len : LONGEST;
    const uint8_t head[] = { 0x53, 0x4e, side, (uint8_t)(len >> 8), (uint8_t)len };

    memcpy(text + at, head, sizeof head);
    memcpy(text + at + sizeof head, m->bytes, len);
    return at + sizeof head + len;
}

static void try_text(const struct message *m, const char *name, const uint8_t *bytes, size_t len)
{
    struct call call = { mishkolar_replay, { NUMBER(bytes), len, NUMBER(counts), NUMBER(&taken), NUMBER(&ended) } };

    DOING("%s, %s", m->name, name);
    try(&call);
    note_counts();
}

/* Behind 33 hidden calls. */
static void try_behind_calls(const struct message *m)
{
    size_t at = 0, place;

    for (place = calls_begin; place <= calls_begin + PAIRS; place++)
        at = put_record(at, 1, &messages[place]);
    try_text(m, "behind 33 hidden calls", text, put_record(at, 1, m));
}

static void try_replay(const struct message *m)
{
    size_t two = put_record(put_record(0, 1, m), 0, m);

    try_text(m, "two records", text, two);
    try_text(m, "the second cut short", text, two - 1);
    try_text(m, "a bad mark", text + 1, two - 1);
    try_text(m, "no record", m->bytes, m->len);
    if (m >= messages + calls_begin && m < messages + calls_end)
        try_behind_calls(m);
}

static void try_report(const struct message *m)
{
    static const uint32_t each[] = { 0, 1, 65536, UINT32_MAX };
    size_t i, j;

    (void)m;
    for (i = 0; i < sizeof each / sizeof each[0]; i++) {
        for (j = 0; j < sizeof counts / sizeof counts[0]; j++)
            counts[j] = each[i];
        size_t need = mishkolar_report(counts, UINT64_MAX, 33, out, ROOM);
        size_t rooms[] = { ROOM, 4096, need, need == 0 ? 0 : need - 1, 0 };
        for (j = 0; j < sizeof rooms / sizeof rooms[0]; j++) {
            struct call call = { mishkolar_report, { NUMBER(counts), UINT64_MAX, 33, NUMBER(out), rooms[j] } };
            DOING("each count %llu, room %zu", (unsigned long long)each[i], rooms[j]);
            try(&call);
        }
    }
}

/* A function that takes a number, and so many pointers to where its answers go; it is handed no more of them than it has. */
static void try_causes(const void *function, size_t pointers)
{
    uint64_t number;

    for (number = 0; number < 1000; number++) {
        struct call call = { function, { number < 990 ? number : UINT64_MAX - number, NUMBER(answers), pointers == 2 ? NUMBER(answers + 1) : 0 } };
        DOING("%lld", (long long)call.arguments[0]);
        try(&call);
        note->met |= MET(answers[pointers - 1]);
    }
}

static void try_status_of_cause(const struct message *m)
{
    (void)m;
    try_causes(mishkolar_status_of_cause, 2);
}

static void try_cause_of_status(const struct message *m)
{
    (void)m;
    try_causes(mishkolar_cause_of_status, 1);
}

/* Country codes: those of numbers here and others, and bad ones. */
static const char *const codes[] = { "33", "331", "1", "0", "3333", "" };
#define CODES (sizeof codes / sizeof codes[0])

static void try_isup_parameter(const struct message *m)
{
    size_t i, home;

    for (i = 0; i < CODES; i++)
        for (home = 0; home < 2; home++) {
            struct call call = { mishkolar_isup_parameter, { NUMBER(m->bytes), m->len, NUMBER(codes[i]), strlen(codes[i]), home,
                NUMBER(out), NUMBER(answers), NUMBER(answers + 1), NUMBER(answers + 2), NUMBER(answers + 3) } };
            DOING("%s, code \"%s\", home %zu", m->name, codes[i], home);
            try(&call);
            note->met |= MET(answers[0]);
        }
}

/* The first bytes of the text as a parameter field. */
static void try_field(size_t len)
{
    size_t i;

    for (i = 0; i < CODES; i++) {
        struct call call = { mishkolar_isup_caller, { NUMBER(text), len, NUMBER(codes[i]), strlen(codes[i]),
            NUMBER(out), NUMBER(answers), NUMBER(answers + 1) } };
        DOING("%zu bytes %02x %02x %02x .. %02x, code \"%s\"", len, text[0], text[1], text[2], text[len == 0 ? 0 : len - 1], codes[i]);
        try(&call);
        note->met |= MET(answers[1]);
    }
}

/* Fields cut short; good and bad indicators with none, few and many address signals, digits and others, the last half a filler of 0 or not. */
static void try_isup_caller(const struct message *m)
{
    static const uint8_t heads[][2] = { { 0x03, 0x13 }, { 0x04, 0x17 }, { 0x83, 0x17 }, { 0x84, 0x13 }, { 0x05, 0x13 }, { 0x04, 0x93 },
        { 0x84, 0x23 }, { 0x03, 0x1b }, { 0x83, 0x12 } };
    static const uint8_t pieces[] = { 0x21, 0x10, 0x00, 0x99, 0x0a, 0xa1 };
    static const size_t lengths[] = { 0, 1, 2, 3, 4, 5, 6, 7, 8, 9, 10, 11, 19, 100, 8192, 65535 };
    size_t i, j, k;

    (void)m;
    for (i = 0; i < sizeof heads / sizeof heads[0]; i++)
        for (j = 0; j < sizeof pieces; j++)
            for (k = 0; k < sizeof lengths / sizeof lengths[0]; k++) {
                memset(text, pieces[j], sizeof text);
                memcpy(text, heads[i], sizeof heads[i]);
                try_field(lengths[k]);
                if (lengths[k] > 2) {
                    text[lengths[k] - 1] &= 0x0f;
                    try_field(lengths[k]);
                }
            }
}

static void try_isup_status(const struct message *m)
{
    (void)m;
    try_causes(mishkolar_isup_status, 1);
}

/*
 * The screen's reasons; those of records, which have room enough, and of texts, which have good sides here; what comes out of a parameter,
 * which has none of 1, 16 and 18; and out of a parameter field.
 */
#define REASONS (MET(19) - 1)
#define COUNTED (REASONS & ~MET(16))
#define REPLAYED (COUNTED & ~MET(1))
#define WRITTEN ((REPLAYED & ~MET(18)) | MET(41) | MET(42))
#define READ (MET(0) | MET(41) | MET(43) | MET(44) | MET(45) | MET(46) | MET(47))

/*
 * Every function of both headers; a pair, the report, a field and causes are no messages. What each must have met, where it tells or counts a
 * reason or a refusal.
 */
static const struct {
    const char *name;
    void (*try)(const struct message *m);
    int of_messages;
    size_t size;
    uint64_t met;
} functions[] = {
    { "mishkolar_screen", try_screen, 1, SCREEN_SIZE, REASONS },
    { "mishkolar_end_call", try_end_call, 0, SCREEN_SIZE, MET(0) | MET(19) },
    { "mishkolar_count", try_count, 1, SCREEN_SIZE, 0 },
    { "mishkolar_reading", try_reading, 1, SCREEN_SIZE, 0 },
    { "mishkolar_calling_number", try_calling_number, 1, SCREEN_SIZE, 0 },
    { "mishkolar_take_record", try_take_record, 1, SCREEN_SIZE, COUNTED },
    { "mishkolar_replay", try_replay, 1, SCREEN_SIZE, REPLAYED },
    { "mishkolar_report", try_report, 0, SCREEN_SIZE, 0 },
    { "mishkolar_status_of_cause", try_status_of_cause, 0, SCREEN_SIZE, MET(0) | MET(21) },
    { "mishkolar_cause_of_status", try_cause_of_status, 0, SCREEN_SIZE, MET(0) | MET(22) },
    { "mishkolar_isup_parameter", try_isup_parameter, 1, ISUP_SIZE, WRITTEN },
    { "mishkolar_isup_caller", try_isup_caller, 0, ISUP_SIZE, READ },
    { "mishkolar_isup_status", try_isup_status, 0, ISUP_SIZE, MET(0) | MET(21) },
};
#define FUNCTIONS (sizeof functions / sizeof functions[0])

/* All calls of one function on the messages from this one on, each first measured, then on the tight stack. */
static void try_from(size_t function, size_t place, size_t count)
{
    for (; place < count; place++) {
        note->place = place;
        alarm(60);
        for (note->on_tight = 0; note->on_tight < 2; note->on_tight++)
            functions[function].try(&messages[place]);
        if (functions[function].try == try_screen && messages[place].reason != ANY_REASON && messages[place].reason != note->reason) {
            printf("%s has the reason %u and not %u\n", messages[place].name, note->reason, messages[place].reason);
            exit(1);
        }
    }
    note->ended = 1;
    _exit(0);
}

/* The same in a process of its own: the signal that ended it, or 0. */
static int in_child(size_t function, size_t place, size_t count)
{
    static const struct rlimit none = { 0, 0 };
    int status = 0;
    pid_t child;

    fflush(stdout);
    child = fork();
    if (child == 0) {
        setrlimit(RLIMIT_CORE, &none);
        try_from(function, place, count);
    }
    if (child < 0 || waitpid(child, &status, 0) != child) {
        perror("a process");
        exit(2);
    }
    return WIFSIGNALED(status) ? WTERMSIG(status) : 0;
}

/* On how many inputs the function failed. After a failure the next message is tried in a new process. */
static size_t failures_of(size_t function)
{
    size_t count = functions[function].of_messages ? message_count : 1, failed = 0, place = 0;

    tight = new_stack(functions[function].size);
    note->most = 0;
    note->met = 0;
    note->ended = 0;
    while (place < count) {
        int number = in_child(function, place, count);
        if (note->ended)
            break;
        if (failed++ < MOST_TOLD && number != 0)
            printf("%s FAILED (signal %d) on a stack of %zu bytes: %s\n", functions[function].name, number,
                   note->on_tight == 1 ? functions[function].size : PLENTY, note->doing);
        place = note->place + 1;
    }
    printf("%-26s %6zu bytes at most, at: %s\n", functions[function].name, note->most, note->most_at);
    if (failed != 0)
        printf("%-26s FAILED on %zu of %zu inputs\n", functions[function].name, failed, count);
    if (note->met != functions[function].met) {
        printf("%-26s FAILED: of its reasons and refusals it met the bits %#llx, not %#llx\n", functions[function].name,
               (unsigned long long)note->met, (unsigned long long)functions[function].met);
        failed++;
    }
    return failed;
}

int main(int argc, char **argv)
{
    size_t function, failures = 0;
    int i;

    make_tables();
    make_messages();
    for (i = 1; i < argc; i++)
        read_recorded(argv[i]);
    plenty = new_stack(PLENTY);
    note = mmap(NULL, sizeof *note, PROT_READ | PROT_WRITE, MAP_SHARED | MAP_ANONYMOUS, -1, 0);
    if (note == MAP_FAILED) {
        perror("mmap");
        return 2;
    }
    printf("a stack of %d bytes, of the box %d, %zu messages\n", SCREEN_SIZE, ISUP_SIZE, message_count);
    for (function = 0; function < FUNCTIONS; function++)
        failures += failures_of(function);
    printf(failures == 0 ? "no function took more\n" : "FAILED\n");
    return failures != 0;
}
