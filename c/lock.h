/* The lock of a file, under which its calls are made one at a time, and the sleep of those that wait for a change. A call whose
 * time is over gets it next, so that others which keep the file busy do not hold it up. */
#ifndef MSGQ_LOCK_H
#define MSGQ_LOCK_H

#include <pthread.h>
#include <stdatomic.h>
#include <stdbool.h>
#include <stdint.h>
#include <time.h>

/* The bits of a lock's state. Who has the guard makes it crowded, and it stays so while somebody sleeps or the last that took it was
 * late: then only who has the guard changes it. Else it is taken and given back by one exchange, without the guard. */
enum { TAKEN = 1, CROWDED = 2 };

struct lock {
    atomic_uint state;
    pthread_mutex_t guard;            /* of what stands here: never held for long */
    pthread_cond_t freed, late_freed; /* for those that want the lock, and whose time is over */
    pthread_cond_t changed;
    bool was_late;                    /* the last that took it was one whose time was over */
    unsigned wanting, late;           /* as many want it; the time of the latter is over */
    unsigned waiting; /* as many sleep until something changes, or are about to look */
    uint64_t changes; /* as many were told while it was crowded */
};

/* 0 or the number of an error. */
int lock_begin(struct lock *lock);
void lock_end(struct lock *lock);

/* Changes the state from one to another, where it is that one. */
static inline bool lock_turns(struct lock *lock, unsigned from, unsigned to) {
    return atomic_compare_exchange_strong(&lock->state, &from, to);
}

/* The next two, where the state is another than theirs. */
void lock_take_in_turn(struct lock *lock, const struct timespec *end);
void lock_give_in_turn(struct lock *lock, bool has_changed);

/* Takes it. One that has an end goes next once that is over; of several such, every other. */
static inline void lock_take(struct lock *lock, const struct timespec *end) {
    if (!lock_turns(lock, 0, TAKEN))
        lock_take_in_turn(lock, end);
}

/* Gives it back, and tells those that wait whether something has changed. */
static inline void lock_give(struct lock *lock, bool has_changed) {
    if (!lock_turns(lock, TAKEN, 0))
        lock_give_in_turn(lock, has_changed);
}

/* Gives it back until something has changed or the end, where there is one, is over, and takes it again. */
void lock_wait(struct lock *lock, const struct timespec *end);

#endif
