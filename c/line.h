/* Requests to a server of queues, and their answers (docs/PROTOCOL.md). This part, with wire.c, stands alone: it is the client of
 * libmsgq and of the library that unchanged programs are run with.
 *
 * Each thread has a connection of its own, which is dialled at its first request and again where it is no longer this process's, this
 * user's or this socket's: behind fork, setuid, and where the program has closed it. A handler of a signal may ask while its thread
 * does: it has a connection for that request alone.
 *
 * What is asked gives one of these numbers: 0 where it is done; the code of a refusal or a fault, 1 to 99; or below 0 that of an
 * error of the system:
 *   -EINTR, -ETIMEDOUT   a wait ended by a signal or its end, and nothing was done
 *   -ECONNRESET          the server was lost, and it is not known whether it was done
 *   -ENOTCONN            nobody serves, and nothing was done
 *   -EPROTO              an answer that is none
 *   any other            as -EFAULT, -EMFILE, -ENOMEM: what the system said */
#ifndef MSGQ_LINE_H
#define MSGQ_LINE_H

#include "wire.h"

#include <time.h>

enum operation {
    GET = 1, SEND, RECEIVE, STAT, SET, REMOVE, NEXT, NTH, SAVE, INFO, CANCEL, RESERVE, ACKNOWLEDGE, RELEASE
};

enum {
    NO_WAIT = 1, NO_ERROR = 2, CREATES = 4, IS_EXCLUSIVE = 8, HAS_KEY = 16, HAS_USER = 32, HAS_GROUP = 64, HAS_MODE = 128
};

/* The most parts of fields. */
enum { MOST_PARTS = 3 };

/* How a request waits. */
struct waiting {
    bool waits;                 /* a signal or the end cancels it; else it is done soon */
    bool asks_again;            /* also where it is not known whether it was done: a message may be lost, or sent twice */
    const struct timespec *end; /* by CLOCK_MONOTONIC; NULL for none */
};

struct request {
    uint8_t operation, flags;
    uint16_t mode;
    uint32_t id;
    const struct iovec *fields; /* so many parts, which may be the program's own memory */
    size_t parts;
    struct waiting how;
};

/* What an answer tells. */
struct answer {
    uint32_t value;
    size_t length;            /* as many bytes its fields have */
    const struct iovec *room; /* where they go: so many parts */
    size_t parts;
    size_t least;             /* as many bytes they have where it is done */
};

/* A server that a process asks. */
struct server;

/* A server by the path of its socket, which is looked for at the first request: then for `patience` milliseconds where nobody serves,
 * and so again where one server ends and the next is awaited. */
int server_begin(const char *socket, int patience, struct server **made);

/* Hangs up all connections. No other thread asks any more. */
void server_end(struct server *server);

/* What the server has said of itself on this thread's connection, which is dialled without patience where there is none: -ENOENT or
 * -ECONNREFUSED where nobody serves. */
int server_greeting(struct server *server, struct greeting *told);

/* How many requests of other threads are under way. */
unsigned server_under_way(struct server *server);

/* Says that a longjmp is about to leave what this thread does, the requests among it: they are hung up, so that no message is taken
 * for them. Where they are not left after all they give -ECONNRESET. */
void server_leave(struct server *server);

/* Makes a request, and waits for its answer. */
int server_ask(struct server *server, const struct request *asked, struct answer *told);

/* At most so many requests are made at once. */
enum { MOST_AT_ONCE = 32 };

/* Makes requests that do not wait on one connection, one behind the other, and only then hears their answers, each of which has `least`
 * bytes of fields where it is done, in one part of room. 0, and `done` tells of each what server_ask gives, or -ENOTCONN for one that was
 * not made since its server ends; else the number of an error, and none was made. */
int server_ask_all(struct server *server, const struct request *asked, struct answer *told, int *done, size_t count);

/* ---- numbers in fields: little-endian */

static inline void put_number(void *at, uint64_t number, int bytes) {
    for (int i = 0; i < bytes; i++)
        ((uint8_t *)at)[i] = (uint8_t)(number >> (8 * i));
}

static inline uint64_t number_at(const void *at, int bytes) {
    uint64_t number = 0;
    for (int i = bytes; i-- > 0;)
        number = number << 8 | ((const uint8_t *)at)[i];
    return number;
}

#endif
