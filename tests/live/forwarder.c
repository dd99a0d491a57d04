/*
 * A small UDP forwarder on loopback, for the live test: screens each message with libmishkolar.a and sends the outgoing one on, requests
 * and responses alike. What comes from the trusted peer goes to the untrusted one (side 1), what comes from there to the trusted one
 * (side 0). A refused message is answered with the reply status, or dropped where that is 0, as it is for every response.
 *
 * It keeps one table of hidden calls for both directions, since they are one stream of calls, and ends by hand what no BYE to side 1 ends:
 *   - a hidden call whose first INVITE the far end refused (with a 487 where it was cancelled), after its ACK has gone out. A later INVITE that
 *     is refused ends no call;
 *   - a hidden call that the far end ends, after the answer to its BYE has gone out.
 * It has no clock, so it gives no call up; and it takes nothing for sent again, since the sipps send nothing twice.
 *
 * Each message that is screened is recorded in a file, with its side, and counted live. The records have a table of their own.
 *
 * Says `ready` once, then for each message its reason, reply, detail and missing count in one line, after all that it does for it: its table
 * then stands in the file CALLS. Once its standard input is closed it prints the report of the live counts, and ends.
 *
 * use: forwarder OWN_PORT TRUSTED_PORT UNTRUSTED_PORT RECORDS CALLS
 */
#include <arpa/inet.h>
#include <errno.h>
#include <fcntl.h>
#include <inttypes.h>
#include <netinet/in.h>
#include <poll.h>
#include <stdio.h>
#include <stdlib.h>
#include <string.h>
#include <sys/socket.h>
#include <unistd.h>

#include "mishkolar.h"

#define MOST 65536
#define ROOM 9216

static uint8_t message[MOST];
static uint8_t out[ROOM];
static uint8_t answer[MOST];
static FILE *records;
static uint32_t counts[60];
static uint64_t taken, end;
static uint8_t calls_of_records[MISHKOLAR_CALLS];

#define PLACES 32
#define PLACE (MISHKOLAR_CALLS / PLACES)
#define TAG_AT 129

static int calls_file;
static uint8_t calls[MISHKOLAR_CALLS];
/* What the far end says to the first INVITE of the call in each place. */
static enum { NOTHING, ANSWERED, REFUSED } said[PLACES];

/* Adds bytes to the answer; what does not fit is left out. */
static size_t put(size_t at, const void *bytes, size_t len)
{
    if (len > sizeof answer - at)
        len = sizeof answer - at;
    memcpy(answer + at, bytes, len);
    return at + len;
}

static size_t put_text(size_t at, const char *text)
{
    return put(at, text, strlen(text));
}

/* Copies every field of that number from the request into the answer. */
static size_t put_fields(size_t at, size_t len, uint64_t field, const char *name)
{
    uint64_t place;
    uint64_t count = mishkolar_count(message, len, field);

    for (place = 1; place <= count; place++) {
        size_t start;
        size_t part = mishkolar_reading(message, len, field, place, &start);
        at = put_text(at, name);
        at = put_text(at, ": ");
        at = put(at, message + start, part);
        at = put_text(at, "\r\n");
    }
    return at;
}

static const char *phrase(uint64_t status)
{
    switch (status) {
    case 400: return "Bad Request";
    case 405: return "Method Not Allowed";
    case 416: return "Unsupported URI Scheme";
    case 420: return "Bad Extension";
    case 483: return "Too Many Hops";
    case 484: return "Address Incomplete";
    case 503: return "Service Unavailable";
    default: return "Server Internal Error";
    }
}

/* The response to a refused request; its length. */
static size_t refuse(size_t len, uint64_t status)
{
    char line[64];
    size_t at;

    snprintf(line, sizeof line, "SIP/2.0 %" PRIu64 " %s\r\n", status, phrase(status));
    at = put_text(0, line);
    at = put_fields(at, len, 1, "Via");
    at = put_fields(at, len, 3, "From");
    at = put_fields(at, len, 4, "To");
    at = put_fields(at, len, 5, "Call-ID");
    at = put_fields(at, len, 6, "CSeq");
    return put_text(at, "Content-Length: 0\r\n\r\n");
}

static void on_loopback(struct sockaddr_in *address, const char *port)
{
    memset(address, 0, sizeof *address);
    address->sin_family = AF_INET;
    address->sin_addr.s_addr = htonl(INADDR_LOOPBACK);
    address->sin_port = htons((uint16_t)atoi(port));
}

/* Records the message and counts it. A datagram has fewer than 65,536 bytes, so each can be recorded. */
static void take(size_t len, uint64_t side)
{
    uint8_t head[5] = { 0x53, 0x4E, (uint8_t)side, (uint8_t)(len >> 8), (uint8_t)(len & 0xFF) };

    fwrite(head, 1, sizeof head, records);
    fwrite(message, 1, len, records);
    mishkolar_take_record(counts, &taken, &end, calls_of_records, side, message, len);
}

static void print_report(void)
{
    fwrite(out, 1, mishkolar_report(counts, taken, end, out, sizeof out), stdout);
}

struct text {
    const uint8_t *bytes;
    size_t len;
};

/* The first field of that number in the outgoing message. */
static struct text field(size_t sent, uint64_t number)
{
    size_t start, len = mishkolar_reading(out, sent, number, 1, &start);

    return (struct text){ out + start, len };
}

static int starts_with(struct text text, const char *front)
{
    return text.len >= strlen(front) && memcmp(text.bytes, front, strlen(front)) == 0;
}

static int ends_with(struct text text, const char *back)
{
    return text.len >= strlen(back) && memcmp(text.bytes + text.len - strlen(back), back, strlen(back)) == 0;
}

/* The tag of a masked address; empty where the address is another one. */
static struct text masked_tag(struct text address)
{
    static const char front[] = "\"Anonymous\" <sip:anonymous@anonymous.invalid>;tag=";
    size_t before = starts_with(address, front) ? sizeof front - 1 : address.len;

    return (struct text){ address.bytes + before, address.len - before };
}

/* Whether a text of the table, behind its length, is this one. */
static int same(const uint8_t *at, struct text text)
{
    return at[0] == text.len && memcmp(at + 1, text.bytes, text.len) == 0;
}

/* The place that holds the pair; PLACES where none does. A table that began with zeros has each pair once, and no other bytes. */
static size_t place_of(struct text id, struct text tag)
{
    size_t place = 0;

    if (tag.len == 0)
        return PLACES;
    while (place < PLACES && !(same(calls + place * PLACE, id) && same(calls + place * PLACE + TAG_AT, tag)))
        place++;
    return place;
}

static int has_tag(struct text address)
{
    size_t i;

    for (i = 0; i < address.len; i++)
        if (starts_with((struct text){ address.bytes + i, address.len - i }, ";tag="))
            return 1;
    return 0;
}

static void end_call(struct text id, struct text tag)
{
    mishkolar_end_call(calls, id.bytes, id.len, tag.bytes, tag.len);
}

/* The first digit of a final response to that method; else 0. */
static int final_class(size_t sent, const char *method)
{
    struct text all = { out, sent };

    return starts_with(all, "SIP/2.0 ") && ends_with(field(sent, 6), method) && out[8] != '1' ? out[8] : 0;
}

/* What an outgoing request to side 1 says of a hidden call in this place. */
static void follow_request(size_t sent, size_t place, struct text id, struct text tag)
{
    struct text all = { out, sent };

    if (starts_with(all, "INVITE "))
        said[place] = has_tag(field(sent, 4)) ? ANSWERED : NOTHING;
    else if (starts_with(all, "ACK ") && said[place] == REFUSED)
        end_call(id, tag);
}

/* Follows the hidden call of an outgoing message, and ends it where it is over. */
static void follow_call(size_t sent, uint64_t side)
{
    struct text id = field(sent, 5), tag = masked_tag(field(sent, 3));
    size_t place = place_of(id, tag);

    if (side == 1 && final_class(sent, " BYE"))
        end_call(id, masked_tag(field(sent, 4)));
    else if (side == 1 && place < PLACES)
        follow_request(sent, place, id, tag);
    else if (side == 0 && place < PLACES && said[place] == NOTHING && final_class(sent, " INVITE"))
        said[place] = final_class(sent, " INVITE") == '2' ? ANSWERED : REFUSED;
}

/* Waits for a datagram; 0 where there is none and standard input is closed. */
static int one_comes(int s)
{
    struct pollfd from[2] = { { s, POLLIN, 0 }, { STDIN_FILENO, POLLIN, 0 } };

    while (poll(from, 2, -1) < 0) {
        if (errno != EINTR) {
            perror("poll");
            exit(1);
        }
    }
    return from[0].revents != 0;
}

/* Screens one message and sends on what comes of it. */
static void forward(int s, const struct sockaddr_in peers[2])
{
    struct sockaddr_in from;
    socklen_t from_len = sizeof from;
    uint64_t side, reason, reply, detail, missing;
    size_t sent;
    ssize_t n = recvfrom(s, message, sizeof message, 0, (struct sockaddr *)&from, &from_len);

    if (n < 0 || (from.sin_port != peers[0].sin_port && from.sin_port != peers[1].sin_port))
        return;
    side = from.sin_port == peers[0].sin_port;
    take((size_t)n, side);
    sent = mishkolar_screen(message, (size_t)n, side, calls, out, sizeof out, &reason, &reply, &detail, &missing);
    if (reason == 0) {
        sendto(s, out, sent, 0, (const struct sockaddr *)&peers[side], sizeof peers[side]);
        follow_call(sent, side);
    } else if (reply != 0) {
        sendto(s, answer, refuse((size_t)n, reply), 0, (struct sockaddr *)&from, sizeof from);
    }
    if (pwrite(calls_file, calls, sizeof calls, 0) != sizeof calls)
        perror("the table of calls");
    printf("%" PRIu64 " %" PRIu64 " %" PRIu64 " %" PRIu64 "\n", reason, reply, detail, missing);
    fflush(stdout);
}

int main(int argc, char **argv)
{
    struct sockaddr_in own;
    struct sockaddr_in peers[2]; /* by side */
    int s;

    if (argc != 6) {
        fprintf(stderr, "use: %s OWN_PORT TRUSTED_PORT UNTRUSTED_PORT RECORDS CALLS\n", argv[0]);
        return 2;
    }
    on_loopback(&own, argv[1]);
    on_loopback(&peers[0], argv[2]);
    on_loopback(&peers[1], argv[3]);
    records = fopen(argv[4], "wb");
    calls_file = open(argv[5], O_WRONLY | O_CREAT, 0666);
    s = socket(AF_INET, SOCK_DGRAM, 0);
    if (records == NULL || calls_file < 0 || s < 0 || bind(s, (struct sockaddr *)&own, sizeof own) != 0) {
        perror("forwarder");
        return 1;
    }
    puts("ready");
    fflush(stdout);
    while (one_comes(s))
        forward(s, peers);
    print_report();
    return fclose(records) == 0 ? 0 : 1;
}
