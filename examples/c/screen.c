/*
 * Screens the request in a file as it goes to an untrusted peer, and the response in a second file as it goes back to the trusted side.
 * Without a file it screens a hidden call of its own: its INVITE has Privacy, its BYE has none, and both go out without the caller. Then
 * comes an INVITE that fails, whose call is ended by hand.
 * Prints what is sent on or why it is refused.
 */
#include <inttypes.h>
#include <stdio.h>
#include <string.h>

#include "mishkolar.h"

#define CALL_ID "9x@relay.example"
#define TAG "a1"

static const char invite[] =
    "INVITE sip:+33123456789@gw.example SIP/2.0\r\n"
    "Via: SIP/2.0/UDP relay.example;branch=z9hG4bK7\r\n"
    "Max-Forwards: 70\r\n"
    "From: <sip:+33187654321@relay.example>;tag=" TAG "\r\n"
    "To: <sip:+33123456789@gw.example>\r\n"
    "Call-ID: " CALL_ID "\r\n"
    "CSeq: 1 INVITE\r\n"
    "Contact: <sip:relay.example>\r\n"
    "Allow: INVITE, ACK, BYE\r\n"
    "P-Asserted-Identity: <sip:+33187654321@relay.example>\r\n"
    "Privacy: id\r\n"
    "Content-Length: 0\r\n"
    "\r\n";

static const char bye[] =
    "BYE sip:+33123456789@gw.example SIP/2.0\r\n"
    "Via: SIP/2.0/UDP relay.example;branch=z9hG4bK8\r\n"
    "Max-Forwards: 70\r\n"
    "From: <sip:+33187654321@relay.example>;tag=" TAG "\r\n"
    "To: <sip:+33123456789@gw.example>;tag=b2\r\n"
    "Call-ID: " CALL_ID "\r\n"
    "CSeq: 2 BYE\r\n"
    "Content-Length: 0\r\n"
    "\r\n";

/* The calls that stay hidden; zeros at the start. A gateway keeps it as long as it runs, and locks it where it has threads. */
static uint8_t calls[MISHKOLAR_CALLS];

static int screen(const void *message, size_t len, uint64_t side)
{
    static uint8_t out[9216];
    uint64_t reason, reply, detail, missing;
    size_t sent = mishkolar_screen(message, len, side, calls, out, sizeof out, &reason, &reply, &detail, &missing);

    if (reason != 0) {
        printf("refused: reason %" PRIu64 ", reply %" PRIu64 ", detail %" PRIu64 ", missing %" PRIu64 "\n", reason, reply, detail, missing);
        return 1;
    }
    fwrite(out, 1, sent, stdout);
    return 0;
}

static int screen_file(const char *name, uint64_t side)
{
    /* One byte more than a message may have, so that a longer one is seen to be longer. */
    static uint8_t message[8193];
    FILE *file = fopen(name, "rb");
    size_t len;

    if (file == NULL) {
        perror(name);
        return 2;
    }
    len = fread(message, 1, sizeof message, file);
    fclose(file);
    return screen(message, len, side);
}

static void end_call(const char *call_id, const char *tag)
{
    uint64_t refusal = mishkolar_end_call(calls, (const uint8_t *)call_id, strlen(call_id), (const uint8_t *)tag, strlen(tag));

    if (refusal != 0)
        printf("the call %s with the tag %s is not held: refusal %" PRIu64 "\n", call_id, tag, refusal);
    else
        printf("the call %s with the tag %s is ended by hand\n", call_id, tag);
}

static int screen_own(void)
{
    int status = screen(invite, sizeof invite - 1, 1);

    /* Masked, since the call is held; it removes it. */
    status |= screen(bye, sizeof bye - 1, 1);
    end_call(CALL_ID, TAG);
    /* The peer refuses this one. No BYE comes: the gateway ends it after the ACK to that has gone out. */
    status |= screen(invite, sizeof invite - 1, 1);
    end_call(CALL_ID, TAG);
    return status;
}

int main(int argc, char **argv)
{
    int status;

    if (argc > 3) {
        fprintf(stderr, "usage: %s [REQUEST [RESPONSE]]\n", argv[0]);
        return 2;
    }
    if (argc == 1)
        return screen_own();
    status = screen_file(argv[1], 1);
    return status != 0 || argc == 2 ? status : screen_file(argv[2], 0);
}
