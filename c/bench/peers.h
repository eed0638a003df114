/* How a message is sent and taken through a server, by its own protocol: each over plain sockets, so that no client library's time is told. */
#ifndef MSGQ_PEERS_H
#define MSGQ_PEERS_H

#include <stddef.h>
#include <stdint.h>

enum { MOST_BODY = 1024, ROOM = 4096 };

/* A connection, with the bytes that came and were not read yet. */
struct line {
    int file;
    size_t begin, end;
    char room[ROOM];
    uint32_t queue;  /* of msgq */
    char name[16];   /* of the others' queue */
};

struct peer {
    const char *name;
    /* Has a queue of its own behind it. */
    void (*begin)(struct line *it, int place);
    void (*send)(struct line *it, const char *body, size_t count);
    /* Takes a message for good. */
    void (*take)(struct line *it);
    void (*end)(struct line *it);
};

/* msgq, redis and beanstalkd, with a NULL behind them. */
extern const struct peer PEERS[];

/* Says what failed, and ends the process. */
void fail(const char *what);

/* Connects to a path, or to a port of this machine. */
void dial(struct line *it, const char *address);

/* Asks msgq, and tells the value of its answer. */
uint32_t ask(struct line *it, uint8_t operation, uint32_t id, const void *fields, size_t count);

#endif
