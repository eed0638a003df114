/* Transfers of a file and its journal, as the session tells them (crates/msgq_c): which one is next is decided there. */
#ifndef MSGQ_ORDERS_H
#define MSGQ_ORDERS_H

#include "pair.h"

/* Who tells transfers, one after another, and is told how each went. */
struct teller {
    enum { RECOVERY, SAVE, NOTE } of;
    struct pair *pair;
    struct handle *session; /* whose calls are made again, or that is saved, or whose calls are noted */
    size_t count;           /* as many bytes of these, which stand in the room of the pair */
};

/* Makes what is told, until it is over. Gives 0 or the number of an error. */
int make_all(const struct teller *teller);

#endif
