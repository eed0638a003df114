/* The command line of `msgq serve`. */
#ifndef MSGQ_OPTIONS_H
#define MSGQ_OPTIONS_H

#include <stdbool.h>
#include <stdint.h>
#include <sys/types.h>

/* What an answer is as durable as, by the numbers of docs/PROTOCOL.md. */
enum durability { DURABLE = 0, EVERY = 1, IN_MEMORY = 2 };

/* As many clients may be connected at once, of all users and of one, and as many calls of one may wait. */
struct bounds {
    uint32_t clients, user_clients, user_waits;
};

struct options {
    const char *file;
    const char *socket; /* NULL for FILE.socket */
    bool has_mode, has_group;
    mode_t mode; /* of the socket */
    gid_t group;
    enum durability durability;
    uint32_t every;    /* milliseconds between two saves, of EVERY */
    bool creates;      /* the file, where there is none */
    uint32_t pages;    /* of a file that is made */
    uint32_t waits;    /* calls that wait at most, of all clients */
    struct bounds most;
};

/* Reads the words behind the verb. DONE or MISUSE, which was said; below 0 where help was asked for and given. */
int read_options(struct options *it, int count, char **words);

#endif
