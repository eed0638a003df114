/* A file that this process has opened. */
#ifndef MSGQ_OPENED_H
#define MSGQ_OPENED_H

#include "lock.h"
#include "pair.h"
#include "queues.h"

struct opened_file {
    msgq handle;
    struct lock lock;
    struct handle session;
    struct pair pair;
    unsigned forks;            /* as many had led to the process that opened it */
    bool is_half_saved;
    struct opened_file *next;  /* of those that this process has open */
};

static inline struct opened_file *opened_of(msgq *queues) {
    return (struct opened_file *)queues;
}

/* The calls of this kind. */
extern const struct calls OPENED_CALLS;

int opened_save(msgq *queues);
int opened_note(msgq *queues);
int opened_stop(msgq *queues);
int opened_close(msgq *queues);
int opened_abandon(msgq *queues);

/* ---- processes */

/* Before the first file of a process is opened. */
int begin_process(void);

/* A file of this process from here on, or no longer. */
void note_open(struct opened_file *file);
void note_closed(struct opened_file *file);

/* Whether a file was opened by this process, and not by one that it was forked from. */
bool is_own(const struct opened_file *file);

/* ---- the lock */

/* Takes the lock, unless the file was opened by the parent of this process: then that is said. Whose end there is goes first once it
 * is over. */
int enter(struct opened_file *file, const struct timespec *end);

/* Gives the lock back, and the number of an error on. */
static inline int leave(struct opened_file *file, int wrong) {
    lock_give(&file->lock, false);
    return wrong;
}

/* The same behind a call that has changed something where it went well: then who waits looks again. */
static inline int leave_changed(struct opened_file *file, int wrong) {
    lock_give(&file->lock, wrong == 0);
    return wrong;
}

#endif
