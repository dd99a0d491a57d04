/*
 * Stands between SIP and an ISUP trunk: writes the caller of an INVITE as a gateway puts it into the optional part of an IAM, reads the
 * parameter back into header lines of an INVITE, and tells with which SIP status calls end whose release has some cause. The INVITE is that
 * of a file, or else one of the program's own.
 */
#include <inttypes.h>
#include <stdio.h>

#include "mishkolar_isup.h"

/* The name of the calling party number parameter in Q.763. */
#define CALLING_PARTY_NUMBER 0x0A

/* The setting of a gateway: our country, and that the exchange at the other end of the trunk is in it. */
static const uint8_t country[] = { '3', '3' };
static const uint64_t home = 1;

static const char own[] =
    "INVITE sip:+33123456789@gw.example SIP/2.0\r\n"
    "Via: SIP/2.0/UDP relay.example;branch=z9hG4bK7\r\n"
    "Max-Forwards: 70\r\n"
    "From: <sip:+33187654321@relay.example>;tag=a1\r\n"
    "To: <sip:+33123456789@gw.example>\r\n"
    "Call-ID: 9x@relay.example\r\n"
    "CSeq: 1 INVITE\r\n"
    "Contact: <sip:relay.example>\r\n"
    "Allow: INVITE, ACK, BYE\r\n"
    "P-Asserted-Identity: <sip:+33187654321@relay.example>\r\n"
    "Privacy: id\r\n"
    "Content-Length: 0\r\n"
    "\r\n";

/* A bad setting is no call's fault, so it is found before the first: without a parameter a good code has the refusal 43. */
static int code_is_good(void)
{
    uint8_t number[MISHKOLAR_ISUP_NUMBER];
    uint64_t id, refusal;

    mishkolar_isup_caller(NULL, 0, country, sizeof country, number, &id, &refusal);
    return refusal != 41;
}

/* Puts name, length and field of the calling party number to the front of part. Its size; 0 where the INVITE is refused. */
static size_t put_caller(uint8_t part[2 + MISHKOLAR_ISUP_PARAMETER], const uint8_t *message, size_t len)
{
    uint64_t reason, reply, detail, missing;
    size_t size = mishkolar_isup_parameter(message, len, country, sizeof country, home, part + 2, &reason, &reply, &detail, &missing);

    if (reason != 0) {
        printf("refused: reason %" PRIu64 ", reply %" PRIu64 ", detail %" PRIu64 ", missing %" PRIu64 "\n", reason, reply, detail, missing);
        return 0;
    }
    part[0] = CALLING_PARTY_NUMBER;
    part[1] = (uint8_t)size;
    return 2 + size;
}

/* Writes the header lines for the caller of such a part, as it comes in an IAM from the trunk. The length in it is the other side's word. */
static void tell_caller(const uint8_t *part, size_t part_size)
{
    uint8_t number[MISHKOLAR_ISUP_NUMBER];
    uint64_t id, refusal;
    size_t size;

    if (part_size < 2 || part[1] > part_size - 2) {
        printf("the parameter is cut short\n");
        return;
    }
    size = mishkolar_isup_caller(part + 2, part[1], country, sizeof country, number, &id, &refusal);
    if (refusal != 0) {
        printf("no number: refusal %" PRIu64 "\n", refusal);
        return;
    }
    printf("P-Asserted-Identity: <sip:%.*s@gw.example>\r\n", (int)size, (const char *)number);
    if (id != 0)
        printf("Privacy: id\r\n");
}

static void tell_status(uint64_t cause)
{
    uint64_t refusal, status = mishkolar_isup_status(cause, &refusal);

    if (refusal != 0)
        printf("cause %" PRIu64 ": refused, %" PRIu64 "\n", cause, refusal);
    else
        printf("cause %" PRIu64 ": status %" PRIu64 "\n", cause, status);
}

static int place_call(const uint8_t *message, size_t len)
{
    uint8_t part[2 + MISHKOLAR_ISUP_PARAMETER];
    size_t size = put_caller(part, message, len), i;

    if (size == 0)
        return 1;
    printf("in the IAM:");
    for (i = 0; i < size; i++)
        printf(" %02X", part[i]);
    printf("\n");
    tell_caller(part, size);
    return 0;
}

static int place_call_of(const char *name)
{
    /* One byte more than a message may have, so that a longer one is seen to be longer. */
    static uint8_t message[8193];
    FILE *file = fopen(name, "rb");
    size_t len;

    if (file == NULL) {
        perror(name);
        return 2;
    }
    len = fread(message, 1, sizeof message, file);
    fclose(file);
    return place_call(message, len);
}

int main(int argc, char **argv)
{
    /* Number changed, user busy, and an octet whose extension bit was not taken away. */
    static const uint64_t causes[] = { 22, 17, 0x80 | 17 };
    size_t i;
    int status;

    if (argc > 2) {
        fprintf(stderr, "usage: %s [INVITE]\n", argv[0]);
        return 2;
    }
    if (!code_is_good()) {
        fprintf(stderr, "the country code is not 1 to 3 digits, the first not 0\n");
        return 2;
    }
    status = argc == 2 ? place_call_of(argv[1]) : place_call((const uint8_t *)own, sizeof own - 1);
    for (i = 0; i < sizeof causes / sizeof causes[0]; i++)
        tell_status(causes[i]);
    return status;
}
