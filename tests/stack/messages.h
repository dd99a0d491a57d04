/* The messages of the stack test: each has a name for the report, and the reason that it must get on side 1 with room enough and none held. */
#ifndef MESSAGES_H
#define MESSAGES_H

#include <stddef.h>
#include <stdint.h>

#define ANY_REASON 99

struct message {
    char name[96];
    unsigned reason;
    size_t len;
    uint8_t *bytes;
};

extern struct message *messages;
extern size_t message_count;

/* The build description's call and an answer to it, long and folded values, many fields, and every reason of both but 1, 16 and 18. */
void make_messages(void);

/* Where requests of the alike pairs of tables.h stand among them, first a withheld INVITE of each, 0 to 32. */
extern size_t calls_begin, calls_end;

/* The recorded messages of a file: kind (0 or 1 is a message), side, room and length (1, 1, 2 and 2 bytes, the highest first), then the bytes. */
void read_recorded(const char *path);

#endif
