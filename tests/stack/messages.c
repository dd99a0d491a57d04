#include "messages.h"
#include "tables.h"

#include <stdio.h>
#include <stdlib.h>
#include <string.h>

#define URI "sip:+33123456789@b.example"
#define CALLER "<sip:+33187654321@a.example>"
#define TEL "<tel:+33187654321>"

struct message *messages;
size_t message_count, calls_begin, calls_end;

/* The message that is being written. */
static char text[80000];
static size_t length;

static void put(const char *bytes)
{
    size_t count = strlen(bytes);
    memcpy(text + length, bytes, count);
    length += count;
}

static void put_times(const char *piece, size_t times)
{
    while (times-- > 0)
        put(piece);
}

static void put_line(const char *name, const char *value)
{
    put(name);
    put(": ");
    put(value);
    put("\r\n");
}

static void keep(const char *name, unsigned reason)
{
    struct message *kept;

    if (message_count % 1024 == 0)
        messages = realloc(messages, (message_count + 1024) * sizeof *messages);
    kept = &messages[message_count++];
    snprintf(kept->name, sizeof kept->name, "%s, %zu bytes", name, length);
    kept->reason = reason;
    kept->len = length;
    kept->bytes = malloc(length + 1);
    memcpy(kept->bytes, text, length);
    length = 0;
}

/* An accepted INVITE. */
static const char *const plain[][2] = {
    { "Via", "SIP/2.0/UDP a.example;branch=z9hG4bK7" }, { "Max-Forwards", "70" }, { "From", CALLER ";tag=" OWN_TAG }, { "To", "<" URI ">" },
    { "Call-ID", OWN_ID }, { "CSeq", "1 INVITE" }, { "Contact", "<sip:a.example>" }, { "Allow", "INVITE, ACK, BYE" },
    { "P-Asserted-Identity", CALLER }, { "Content-Length", "0" },
};
#define PLAIN (sizeof plain / sizeof plain[0])

/* An accepted response to it. */
static const char *const answer[][2] = {
    { "Via", "SIP/2.0/UDP a.example;branch=z9hG4bK7" }, { "From", CALLER ";tag=1" }, { "To", "<" URI ">;tag=2" }, { "Call-ID", "x@a.example" },
    { "CSeq", "1 INVITE" }, { "Contact", "<sip:b.example>" }, { "Content-Length", "0" },
};
#define ANSWER (sizeof answer / sizeof answer[0])

#define START "INVITE " URI " SIP/2.0\r\n"
#define STATUS "SIP/2.0 200 OK\r\n"

/* A start line and fields: what the other messages of its kind are made from. */
struct whole {
    const char *start;
    const char *const (*fields)[2];
    size_t count;
};

static const struct whole request = { START, plain, PLAIN }, response = { STATUS, answer, ANSWER };

static void put_whole(const struct whole *whole)
{
    size_t row;

    put(whole->start);
    for (row = 0; row < whole->count; row++)
        put_line(whole->fields[row][0], whole->fields[row][1]);
}

/* A value: a piece many times between two ends. Its reason in a request and in a response. */
struct value {
    const char *name, *front, *piece, *back;
    unsigned in_request, in_response;
};

static void put_value(const struct value *value, size_t times)
{
    put(value->name);
    put(": ");
    put(value->front);
    put_times(value->piece, times);
    put(value->back);
    put("\r\n");
}

/* The message with this value instead of its own, or behind its own, and Privacy where it is given. */
static void put_with(const struct whole *whole, const struct value *value, size_t times, const char *privacy)
{
    size_t row;
    int there = 0;

    put(whole->start);
    for (row = 0; row < whole->count; row++) {
        if (strcmp(whole->fields[row][0], value->name) == 0) {
            there = 1;
            put_value(value, times);
        } else {
            put_line(whole->fields[row][0], whole->fields[row][1]);
        }
    }
    if (!there)
        put_value(value, times);
    if (privacy != NULL && strcmp(value->name, "Privacy") != 0)
        put_line("Privacy", privacy);
    put("\r\n");
}

/* Values that are read, and that are copied, as long as a message can hold them. */
static const struct value values[] = {
    { "From", "\"", "\\\"", "\" " CALLER ";tag=1", 0, 0 },
    { "From", "\"", "a\r\n ", "\" " CALLER ";tag=1", 0, 0 },
    { "From", "", "a ", CALLER ";tag=1", 0, 0 },
    { "From", "", "a\r\n\t", CALLER ";tag=1", 0, 0 },
    { "From", CALLER, "\r\n ", ";tag=1", 0, 0 },
    { "From", CALLER ";tag=1", ";a", "", 0, 0 },
    { "From", CALLER, ";a=b", ";tag=1", 0, 0 },
    { "From", CALLER, "\r\n ;a", "\r\n ; tag = 1", 0, 0 },
    { "From", CALLER, "\r\n ;\r\n a\r\n =\r\n \"b\"", "\r\n ;\r\n tag\r\n =\r\n 1", 0, 0 },
    { "From", CALLER ";tag=1;a=\"", "\\\\\r\n ", "\"", 0, 0 },
    { "From", "sip:+33187654321@a.example", "\r\n ;a", ";tag=1", 0, 0 },
    { "From", "<sip:+33187654321@a.example;", "%41", ">;tag=1", 0, 0 },
    { "From", "\r\n " CALLER ";tag=1", "\r\n ;tag=1", "", 10, 10 },
    { "From", CALLER, "\r\n ;a", "", 10, 10 },
    { "From", "\"", "a\r\n ", "", 10, 10 },
    { "To", "\"", "a\r\n ", "\" <" URI ">", 0, 0 },
    { "To", "", "a\r\n ", "<" URI ">;tag=2", 0, 0 },
    { "To", "<" URI ">", "\r\n ;a", "", 0, 0 },
    { "To", "<" URI ">", ";a=\"b\"", ";tag=2", 0, 0 },
    { "To", "<" URI ">", "\r\n ;a=b", ";tag", 10, 10 },
    { "P-Asserted-Identity", "\"", "a\r\n ", "\" " CALLER, 0, 0 },
    { "P-Asserted-Identity", "\"", "\\\"", "\" " CALLER, 0, 0 },
    { "P-Asserted-Identity", "", "a\r\n ", TEL, 0, 0 },
    { "P-Asserted-Identity", "", "\r\n ", CALLER, 0, 0 },
    { "P-Asserted-Identity", "sip:+33187654321@a.example", "\r\n ", "", 0, 0 },
    { "P-Asserted-Identity", CALLER, "\r\n ;a", "", 10, 0 },
    { "P-Asserted-Identity", TEL, "\r\n ", "," CALLER, 0, 0 },
    { "P-Asserted-Identity", TEL ",", "\r\n ", "sip:+33187654321@a.example", 0, 0 },
    { "P-Asserted-Identity", TEL ",\"", "a,\r\n ", "\" " CALLER, 0, 0 },
    { "P-Asserted-Identity", "\"", "\\\"", "\" " CALLER " ,\ttel:+33187654321", 0, 0 },
    { "P-Asserted-Identity", CALLER "," TEL, "," TEL, "", 10, 0 },
    { "Privacy", "none", "\r\n ;x", ";id", 0, 0 },
    { "Privacy", "none", "\r\n ;headers", ";Header", 0, 0 },
    { "Privacy", "none", ";x", "\r\n ;\r\n HEADER", 0, 0 },
    { "Privacy", "user", ";x", "", 0, 0 },
    { "Privacy", "id", "\r\n ;\r\n user", "", 0, 0 },
    { "Privacy", "identity", "\r\n ;username", ";heade", 0, 0 },
    { "Privacy", "user", "\r\n ;x", ";", 10, 0 },
    { "Require", "timer", "\r\n ,100rel", "", 0, 0 },
    { "Require", "timer", ",timer", "", 0, 0 },
    { "Require", "timer", "\r\n ,100rel", ",lacking", 14, 0 },
    { "Require", "timer", "\r\n ,100rel", ",,", 10, 10 },
    { "CSeq", "1", "\r\n ", "INVITE", 0, 0 },
    { "CSeq", "1", "\r\n ", "ACK", 10, 6 },
    { "CSeq", "1 X", "INVITE", "", 10, 6 },
    { "CSeq", "1", "1", " INVITE", ANY_REASON, ANY_REASON },
    { "Call-ID", "", "\r\n ", "x@a.example", 0, 0 },
    { "Max-Forwards", "", "\r\n ", "70", 0, 0 },
    { "Content-Length", "", "\r\n ", "00000", 0, 0 },
    { "Via", "x", "\r\n x", "", 0, 0 },
    { "Contact", "<sip:a.example>", "\r\n ;a", "", 0, 0 },
    { "Supported", "x", ",\r\n x", "", 0, 0 },
    { "Supported", "", "\r\n ", "", 0, 0 },
    { "Allow", "", "x ", "", 0, 0 },
    { "Reason", "x", "\r\n ;a", "", 0, 0 },
    { "Record-Route", "<sip:r>", ",\r\n <sip:r>", "", 0, 0 },
    { "X-Relay-Mode", "x", "\r\n x", "", 0, 0 },
};

/* The message with the value, of about so many bytes; over 8,192 there is at least one too many. */
static void make_value(const struct whole *whole, const struct value *value, size_t most, const char *privacy, const char *behind)
{
    char name[96], piece[48] = "";
    size_t times = 1, byte, at = 0;
    unsigned reason = whole == &request ? value->in_request : value->in_response;

    put_with(whole, value, 0, privacy);
    if (most > length)
        times = (most - length + (most > 8192 ? strlen(value->piece) - 1 : 0)) / strlen(value->piece);
    length = 0;
    put_with(whole, value, times, privacy);
    for (byte = 0; value->piece[byte] != 0; byte++)
        at += (size_t)sprintf(piece + at, value->piece[byte] < 32 ? "\\x%02x" : "%c", value->piece[byte]);
    snprintf(name, sizeof name, "%s%s of \"%s\" many times%s", whole == &request ? "" : "response, ", value->name, piece, behind);
    keep(name, most > 8192 ? 2 : reason);
}

static void make_values(const struct whole *whole)
{
    static const size_t lengths[] = { 0, 600, 800, 1500, 2600, 5000, 8192, 8193 };
    static const char *const privacies[] = { NULL, "user", "none;\r\n Header" };
    static const char *const behind[] = { "", ", Privacy user", ", Privacy folded" };
    size_t i, j, k;

    for (i = 0; i < sizeof values / sizeof values[0]; i++)
        for (j = 0; j < sizeof lengths / sizeof lengths[0]; j++)
            for (k = 0; k < sizeof privacies / sizeof privacies[0]; k++)
                make_value(whole, &values[i], lengths[j], privacies[k], behind[k]);
}

/* Phrases up to the longest that a message can hold. */
static void make_phrases(void)
{
    static const char *const pieces[] = { "p", " ", "\t", "\xff" };
    static const size_t times[] = { 0, 1, 15, 16, 17, 255, 256, 2000, 7900, 8192 };
    size_t i, j, row;

    for (i = 0; i < sizeof pieces / sizeof pieces[0]; i++)
        for (j = 0; j < sizeof times / sizeof times[0]; j++) {
            put("sip/2.0 200 ");
            put_times(pieces[i], times[j]);
            put("\r\n");
            for (row = 0; row < ANSWER; row++)
                put_line(answer[row][0], answer[row][1]);
            put("\r\n");
            keep("response, phrase", times[j] == 8192 ? 2 : 0);
        }
}

/* The message and so many more lines of one kind, 96 fields or one more. */
static void make_fields(const struct whole *whole)
{
    static const char *const lines[] = { "k:\r\n", "k: x\r\n", "k:\r\n x\r\n y\r\n", "Via: x\r\n\ty\r\n", "Require: timer\r\n , 100rel\r\n", "X: y\r\n", "Require: x\r\n" };
    size_t i, more;

    for (i = 0; i < sizeof lines / sizeof lines[0]; i++)
        for (more = 0; more < 2; more++) {
            char name[96];
            put_whole(whole);
            put_line("Privacy", "id");
            put_times(lines[i], 96 - whole->count - 1 + more);
            put("\r\n");
            snprintf(name, sizeof name, "%s%zu fields of kind %zu", whole == &request ? "" : "response, ", 96 + more, i);
            keep(name, more == 1 ? 5 : whole == &request && strcmp(lines[i], "Require: x\r\n") == 0 ? 14 : 0);
        }
}

/* The message with one line in place of another: with another start line, or with a field changed, added or left out. */
static void change(const struct whole *whole, const char *name, const char *start, const char *field, const char *line, unsigned reason)
{
    size_t row;
    int there = field == NULL;

    put(start);
    for (row = 0; row < whole->count; row++)
        if (field != NULL && strcmp(whole->fields[row][0], field) == 0) {
            there = 1;
            put(line);
        } else {
            put_line(whole->fields[row][0], whole->fields[row][1]);
        }
    if (!there)
        put(line);
    put("\r\n");
    keep(name, reason);
}

static void make_changed(const char *name, const char *start, const char *field, const char *line, unsigned reason)
{
    change(&request, name, start, field, line, reason);
}

static void make_answered(const char *name, const char *start, const char *field, const char *line, unsigned reason)
{
    char told[96];

    snprintf(told, sizeof told, "response, %s", name);
    change(&response, told, start, field, line, reason);
}

static void make_identities(void)
{
    static const char field[] = "P-Asserted-Identity";

    make_changed("two identities", START, field, "P-Asserted-Identity: " TEL "\r\nP-Asserted-Identity:\r\n " CALLER "\r\n", 0);
    make_changed("two identities of one scheme", START, field, "P-Asserted-Identity: " CALLER "\r\nP-Asserted-Identity: " CALLER "\r\n", 10);
}

/* A request of one of the alike pairs; an INVITE is withheld. */
static void make_call(const char *method, unsigned number)
{
    char name[96];
    size_t row;

    put(method);
    put(" " URI " SIP/2.0\r\nFrom: " CALLER ";tag=" ALIKE_TAG);
    text[length++] = alike(number);
    put("\r\nCall-ID: " ALIKE_ID "\r\nCSeq: 1 ");
    put(method);
    put("\r\n");
    for (row = 0; row < PLAIN; row++)
        if (strcmp(plain[row][0], "From") != 0 && strcmp(plain[row][0], "Call-ID") != 0 && strcmp(plain[row][0], "CSeq") != 0)
            put_line(plain[row][0], plain[row][1]);
    if (strcmp(method, "INVITE") == 0)
        put_line("Privacy", "user");
    put("\r\n");
    snprintf(name, sizeof name, "%s of the alike pair %u", method, number);
    keep(name, 0);
}

static void make_calls(void)
{
    static const char *const methods[] = { "ACK", "BYE", "CANCEL", "OPTIONS" };
    unsigned number;
    size_t i;

    calls_begin = message_count;
    for (number = 0; number <= PAIRS; number++)
        make_call("INVITE", number);
    for (i = 0; i < sizeof methods / sizeof methods[0]; i++)
        for (number = 0; number <= PAIRS; number += PAIRS / 2)
            make_call(methods[i], number);
    calls_end = message_count;
}

static void make_refusals(void)
{
    static const char *const methods[] = { "ACK", "BYE", "CANCEL", "OPTIONS" };
    char start[512], line[128];
    size_t i;

    keep("nothing", 3);
    make_changed("version", "INVITE " URI " SIP/2.1\r\n", NULL, "", 3);
    make_changed("method of 33 bytes", "INVITEINVITEINVITEINVITEINVITEINV " URI " SIP/2.0\r\n", NULL, "", 3);
    snprintf(start, sizeof start, "INVITE sip:%0253d SIP/2.0\r\n", 0);
    make_changed("Request-URI of 257 bytes", start, NULL, "", 3);
    make_changed("no colon", START, "CSeq", "CSeq 1 INVITE\r\n", 4);
    make_changed("a lone LF", START, "CSeq", "CSeq: 1\n INVITE\r\n", 4);
    make_changed("method INFO", "INFO " URI " SIP/2.0\r\n", NULL, "", 6);
    make_changed("scheme http", "INVITE http://b.example SIP/2.0\r\n", NULL, "", 7);
    make_changed("Request-URI", "INVITE sip:b.example:0 SIP/2.0\r\n", NULL, "", 8);
    make_changed("From again", START, "From", "f: sip:h;tag=1\r\nFrom: sip:h;tag=1\r\n", 9);
    for (i = 0; i < PLAIN; i++) {
        snprintf(line, sizeof line, "%s:\r\n %s\r\n", plain[i][0], i == 4 ? "x y" : "");
        snprintf(start, sizeof start, "%s malformed", plain[i][0]);
        make_changed(start, START, plain[i][0], line, i == 7 ? 0 : 10);
        snprintf(start, sizeof start, "without %s", plain[i][0]);
        make_changed(start, START, plain[i][0], "", i == 9 ? 0 : 12);
    }
    make_changed("Content-Length of 1", START, "Content-Length", "l: 1\r\n", 11);
    put(START "\r\n");
    keep("no fields", 12);
    put(START);
    keep("no empty line", 4);
    make_changed("Max-Forwards of 0", START, "Max-Forwards", "Max-Forwards: 0\r\n", 13);
    make_changed("a required tag that we lack", START, "Require", "Require: timer, x\r\n", 14);
    make_changed("called number", "INVITE sip:+331234@b.example SIP/2.0\r\n", NULL, "", 15);
    snprintf(start, sizeof start, "INVITE tel:123;%0241d SIP/2.0\r\n", 0);
    make_changed("Request-URI of 256 bytes", start, NULL, "", 0);
    for (i = 0; i < sizeof methods / sizeof methods[0]; i++) {
        snprintf(start, sizeof start, "%s " URI " SIP/2.0\r\n", methods[i]);
        snprintf(line, sizeof line, "CSeq: 1 %s\r\n", methods[i]);
        make_changed(methods[i], start, "CSeq", line, 0);
        make_changed(methods[i], start, "CSeq", "", 12);
    }
    put_times("x", 70000);
    keep("bytes without a line", 2);
    put_times("\r\n ", 2730);
    keep("line breaks alone", 3);
    put(START " ");
    put_times("\r\n ", 2700);
    keep("line breaks behind the start line", 4);
}

static void make_statuses(void)
{
    static const char *const refused[] = { "SIP/2.0 099 x\r\n", "SIP/2.0 700 x\r\n", "SIP/2.0 000 \r\n", "SIP/2.0 999 \r\n" };
    static const char *const unread[] = { "SIP/2.0 200\r\n", "SIP/2.0 20 OK\r\n", "SIP/2.0 2000 OK\r\n", "SIP/2.1 200 OK\r\n", "SIP/2.0 200 O\rK\r\n", "SIP/2.0 SIP/2.0 SIP/2.0\r\n" };
    static const char *const good[] = { "SIP/2.0 100 Trying\r\n", "SIP/2.0 199 \r\n", "SIP/2.0 300 x\r\n", "sip/2.0 699  x \r\n" };
    static const char *const sequences[] = { "CSeq: 1 ACK\r\n", "CSeq: 1\r\n", "CSeq: 2147483648 INVITE\r\n", "CSeq:\r\n x\r\nCSeq: 1 INVITE\r\n", "" };
    size_t i;

    for (i = 0; i < sizeof refused / sizeof refused[0]; i++) {
        make_answered("status", refused[i], NULL, "", 17);
        make_answered("status, no CSeq", refused[i], "CSeq", "", 17);
    }
    for (i = 0; i < sizeof unread / sizeof unread[0]; i++)
        make_answered("status line", unread[i], NULL, "", 3);
    for (i = 0; i < sizeof good / sizeof good[0]; i++)
        make_answered("no Contact is due", good[i], "Contact", "", 0);
    for (i = 0; i < sizeof sequences / sizeof sequences[0]; i++)
        make_answered("CSeq", STATUS, "CSeq", sequences[i], 6);
}

static void make_responses(void)
{
    static const char *const methods[] = { "BYE", "CANCEL", "OPTIONS" };
    char name[64], line[128];
    size_t i;

    make_statuses();
    make_answered("no colon", STATUS, "CSeq", "CSeq 1 INVITE\r\n", 4);
    make_answered("From again", STATUS, "From", "f: sip:h;tag=1\r\nFrom: sip:h;tag=1\r\n", 9);
    make_answered("a second CSeq", STATUS, "X", "CSeq: \r\n x\r\n", 9);
    make_answered("Require malformed", STATUS, "Require", "Require: ;\r\n", 10);
    make_answered("a required tag that we lack", STATUS, "Require", "Require: timer, x\r\n", 0);
    make_answered("what a request is refused for", STATUS, "X", "Max-Forwards: 0\r\nPrivacy: ;\r\nP-Asserted-Identity:\r\n", 0);
    make_answered("Content-Length of 1", STATUS, "Content-Length", "l: 1\r\n", 11);
    for (i = 0; i < ANSWER; i++) {
        snprintf(name, sizeof name, "%s malformed", answer[i][0]);
        snprintf(line, sizeof line, "%s:\r\n %s\r\n", answer[i][0], i == 3 ? "x y" : "");
        make_answered(name, STATUS, answer[i][0], line, i == 4 ? 6 : 10);
        snprintf(name, sizeof name, "without %s", answer[i][0]);
        make_answered(name, STATUS, answer[i][0], "", i == 4 ? 6 : i == 6 ? 0 : 12);
    }
    for (i = 0; i < sizeof methods / sizeof methods[0]; i++) {
        snprintf(line, sizeof line, "CSeq: 1 %s\r\n", methods[i]);
        make_answered(methods[i], STATUS, "CSeq", line, 0);
    }
    put(STATUS "\r\n");
    keep("response, no fields", 6);
    put(STATUS "CSeq: 1 INVITE\r\n\r\nbody");
    keep("response, CSeq alone", 12);
    put(STATUS);
    keep("response, no empty line", 4);
    put(STATUS " ");
    put_times("\r\n ", 2700);
    keep("response, line breaks behind the status line", 4);
}

void make_messages(void)
{
    put("INVITE sip:+33123456789@gw.example SIP/2.0\r\nv: SIP/2.0/UDP relay.example;branch=z9hG4bK7\r\nMax-Forwards: 70\r\n"
        "f: <sip:+33187654321@relay.example>;tag=a1\r\nt: <sip:+33123456789@gw.example>\r\ni: 9x@relay.example\r\nCSeq: 1 INVITE\r\n"
        "m: <sip:relay.example>\r\nAllow: INVITE, ACK, BYE\r\nX-Relay-Mode: text\r\n"
        "P-Asserted-Identity: <sip:+33187654321@relay.example>\r\nPrivacy: id\r\nl: 0\r\n\r\n");
    keep("the call", 0);
    make_values(&request);
    make_fields(&request);
    make_identities();
    make_calls();
    make_refusals();
    put_whole(&response);
    put("\r\n");
    keep("the answer to it", 0);
    make_values(&response);
    make_phrases();
    make_fields(&response);
    make_responses();
}

void read_recorded(const char *path)
{
    FILE *file = fopen(path, "rb");
    uint8_t head[6];
    unsigned place = 0;

    if (file == NULL) {
        perror(path);
        exit(2);
    }
    while (fread(head, 1, sizeof head, file) == sizeof head) {
        char name[96];
        length = fread(text, 1, (size_t)head[4] << 8 | head[5], file);
        snprintf(name, sizeof name, "recorded case %u", ++place);
        if (head[0] < 2)
            keep(name, ANY_REASON);
    }
    fclose(file);
}
