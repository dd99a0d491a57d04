#include "tables.h"

#include <string.h>

_Static_assert(sizeof ALIKE_ID - 1 == 128 && sizeof ALIKE_TAG - 1 == 63, "the longest Call-ID and tag");

#define PLACE (MISHKOLAR_CALLS / PAIRS)
#define TAG_AT 129

struct table tables[TABLES] = {
    { .name = "none held" },
    { .name = "31 alike and its own" },
    { .name = "32 alike" },
    { .name = "its own 32 times" },
    { .name = "no pair in any place" },
};

char alike(unsigned number)
{
    return "ABCDEFGHIJKLMNOPQRSTUVWXYZ0123456789"[number];
}

static void put(struct table *table, unsigned place, const char *id, const char *tag)
{
    uint8_t *at = table->bytes + place * PLACE;

    at[0] = (uint8_t)strlen(id);
    memcpy(at + 1, id, at[0]);
    at[TAG_AT] = (uint8_t)strlen(tag);
    memcpy(at + TAG_AT + 1, tag, at[TAG_AT]);
}

void make_tables(void)
{
    char tag[] = ALIKE_TAG "?";
    unsigned place;

    for (place = 0; place < PAIRS; place++) {
        tag[sizeof tag - 2] = alike(place);
        put(&tables[1], place, ALIKE_ID, tag);
        put(&tables[2], place, ALIKE_ID, tag);
        put(&tables[3], place, OWN_ID, OWN_TAG);
    }
    put(&tables[1], PAIRS - 1, OWN_ID, OWN_TAG);
    memset(tables[4].bytes, 0xff, sizeof tables[4].bytes);
}
