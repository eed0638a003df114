/* Which workers live: the lock file FILE.held, of which the worker that has a job in hand locks the byte at the id of
 * its private queue. The system lets go of the lock when the process ends, however it ends. Each function gives 0 or
 * the number of an error. */
#ifndef MSGQ_HELD_H
#define MSGQ_HELD_H

#include "../transfers.h"

#include <stdbool.h>
#include <stdint.h>

struct held {
    struct opened file;
};

/* Opens it, and makes it where there is none, with the owner, group and mode of the file beside which it stands. */
int held_open(struct held *it, const char *path);

/* Closes it, which lets go of all that this process has locked. */
void held_close(struct held *it);

/* Locks the byte of a queue; EAGAIN where another process has it. */
int held_lock(const struct held *it, uint32_t queue);

void held_unlock(const struct held *it, uint32_t queue);

/* Whether another process has it locked. */
bool held_is_locked(const struct held *it, uint32_t queue);

#endif
