/* What `msgq do` is asked for. */
#ifndef MSGQ_REQUEST_H
#define MSGQ_REQUEST_H

#include "words.h"

#include "../msgq.h"

#include <time.h>

struct request {
    const char *file;
    struct name queue;
    int64_t type;
    bool waits, has_end, recovers;
    struct timespec end; /* of CLOCK_MONOTONIC */
    char **command;
};

/* Reads the words behind the verb. DONE, MISUSE or FAULT, which was said; below 0 where help was asked for and given.
 * */
int read_request(struct request *it, int count, char **at);

/* Runs a command on a message of a file that is served, and hangs up. */
int do_served(const struct request *it, msgq *queues);

#endif
