/* Message queues with choice by type, on which msgsnd and msgrcv make calls that do not wait: kept by libmsgq, and by its peers. Each of
 * these has a file of its own. It makes all of a call: it tests the mode and the room, keeps numbers, processes and moments, and finds the first message
 * of a type, and of the lowest type, without a walk over messages. A store that fails ends the bench. */
#ifndef MSGQ_STORE_H
#define MSGQ_STORE_H

#include <stdbool.h>
#include <stddef.h>
#include <stdint.h>

enum { MOST_BODY = 1024, MOST_MESSAGES = 1024, QBYTES = 16384 };

/* A message that was received. A store that does not tell serials has 0. */
struct answer {
    int64_t type;
    uint64_t serial;
    size_t length;
};

/* A send and a receive tell 0, or EINVAL, EACCES, EAGAIN, ENOMSG or E2BIG, which change nothing. */
struct store {
    const char *name;
    /* In a new file of this name, of so many pages where it has to be said, or in memory. NULL where this machine has none. */
    void *(*open)(const char *path, uint32_t pages);
    /* A new queue of QBYTES, without a key, and its id. */
    uint32_t (*get)(void *it);
    int (*send)(void *it, uint32_t id, int64_t type, const void *body, size_t length, uint64_t *serial);
    int (*receive)(void *it, uint32_t id, int64_t type, void *room, size_t size, struct answer *answer);
    /* Without a save. */
    void (*close)(void *it);
};

extern const struct store STORE_MSGQ, STORE_SYSTEM, STORE_SQLITE, STORE_GDBM, STORE_TDB, STORE_LMDB;

/* Says what does not hold, and ends the bench. */
void must(bool holds, const char *what);

#endif
