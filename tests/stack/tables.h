/* The tables of hidden calls that the functions of the stack test meet. */
#ifndef TABLES_H
#define TABLES_H

#include <stddef.h>
#include <stdint.h>

#include "mishkolar.h"

/* The pair of most messages. */
#define OWN_ID "x@a.example"
#define OWN_TAG "1"

/* The longest pairs, alike but for the last byte of the tag, which is its number. Those of 0 to 31 stand in tables. */
#define ALIKE_ID "i.j@k-l!m~n'o_pqi.j@k-l!m~n'o_pqi.j@k-l!m~n'o_pqi.j@k-l!m~n'o_pqi.j@k-l!m~n'o_pqi.j@k-l!m~n'o_pqi.j@k-l!m~n'o_pqi.j@k-l!m~n'o_pq"
#define ALIKE_TAG "t.u-v!w~t.u-v!w~t.u-v!w~t.u-v!w~t.u-v!w~t.u-v!w~t.u-v!w~t.u-v!w"
#define PAIRS 32
char alike(unsigned number);

struct table {
    const char *name;
    uint8_t bytes[MISHKOLAR_CALLS];
};

/* The first has none held. */
#define TABLES 5
extern struct table tables[TABLES];
void make_tables(void);

#endif
