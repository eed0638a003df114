/* Queues in a store that has records by their keys, in no order: GDBM and TDB. A queue is one record, with a row for each type that stands: its
 * first and last serial. A message is one, with the next serial of its type. So the first of a type is found in the row that is bisected for, the lowest
 * type in the first row, and the first of all messages by a look at each row. */
#ifndef MSGQ_RECORDS_H
#define MSGQ_RECORDS_H

#include "head.h"
#include "store.h"

/* A queue, and both halves of a serial: 0 for the queue itself. Of the last id that was given: all of them 0. */
struct key {
    uint32_t queue, low, high;
};

struct row {
    int64_t type;
    uint64_t first, last;
};

/* So many rows of it are kept, by ascending types. */
struct queue {
    struct head head;
    uint64_t count;
    struct row rows[MOST_MESSAGES];
};

/* So many bytes of its body are kept. */
struct message {
    uint64_t next;
    uint32_t sender, zero;
    char body[MOST_BODY];
};

/* A store, and what its records are read into. */
struct records {
    void *at;
    /* How many bytes the record of a key has, of which no more than there is room for are copied; 0 where there is none. */
    size_t (*fetch)(void *at, const struct key *key, void *room, size_t size);
    void (*put)(void *at, const struct key *key, const void *bytes, size_t count);
    void (*drop)(void *at, const struct key *key);
    struct caller caller;
    struct queue queue;
    struct message message;
};

/* The functions of a store, whose `it` is its records. */
uint32_t records_get(void *it);
int records_send(void *it, uint32_t id, int64_t type, const void *body, size_t length, uint64_t *serial);
int records_receive(void *it, uint32_t id, int64_t type, void *room, size_t size, struct answer *answer);

#endif
