/* A lock that hurries those whose time is over. */
#include "lock.h"

#include <errno.h>

static int begin_conditions(struct lock *lock, const pthread_condattr_t *with) {
    pthread_cond_t *all[] = {&lock->freed, &lock->late_freed, &lock->changed};
    for (int n = 0; n < 3; n++) {
        int wrong = pthread_cond_init(all[n], with);
        if (wrong == 0)
            continue;
        while (n-- > 0)
            (void)pthread_cond_destroy(all[n]);
        return wrong;
    }
    return 0;
}

int lock_begin(struct lock *lock) {
    pthread_condattr_t monotonic;
    int wrong = pthread_condattr_init(&monotonic);
    if (wrong != 0)
        return wrong;
    wrong = pthread_condattr_setclock(&monotonic, CLOCK_MONOTONIC);
    *lock = (struct lock){.was_late = false};
    if (wrong == 0)
        wrong = pthread_mutex_init(&lock->guard, NULL);
    if (wrong == 0 && (wrong = begin_conditions(lock, &monotonic)) != 0)
        (void)pthread_mutex_destroy(&lock->guard);
    (void)pthread_condattr_destroy(&monotonic);
    return wrong;
}

/* Of what lock_begin has made these fail of nothing: POSIX has errors of misuse alone. */

static void hold(struct lock *lock) {
    (void)pthread_mutex_lock(&lock->guard);
    (void)atomic_fetch_or(&lock->state, CROWDED);
}

static bool is_taken(const struct lock *lock) {
    return (atomic_load(&lock->state) & TAKEN) != 0;
}

static bool is_crowded(const struct lock *lock) {
    return lock->wanting > 0 || lock->late > 0 || lock->waiting > 0 || lock->was_late;
}

static void let_go(struct lock *lock) {
    if (!is_crowded(lock))
        atomic_store(&lock->state, is_taken(lock) ? TAKEN : 0);
    (void)pthread_mutex_unlock(&lock->guard);
}

void lock_end(struct lock *lock) {
    /* Who gave it back before may have the guard for a moment more. */
    hold(lock);
    let_go(lock);
    (void)pthread_cond_destroy(&lock->changed);
    (void)pthread_cond_destroy(&lock->late_freed);
    (void)pthread_cond_destroy(&lock->freed);
    (void)pthread_mutex_destroy(&lock->guard);
}

/* Sleeps until a condition is told, or for nothing; tells whether the end, where there is one, is over. */
static bool sleep_for(struct lock *lock, pthread_cond_t *condition, const struct timespec *end) {
    if (end != NULL)
        return pthread_cond_timedwait(condition, &lock->guard, end) == ETIMEDOUT;
    (void)pthread_cond_wait(condition, &lock->guard);
    return false;
}

/* Whether it is the turn of those whose time is over. They don't shut the others out: behind each of them one of these goes. */
static bool is_turn_of_late(const struct lock *lock) {
    return lock->late > 0 && !(lock->was_late && lock->wanting > 0);
}

/* Wakes whose turn it is, where the lock is free and somebody sleeps. */
static void tell_next(struct lock *lock) {
    if (is_taken(lock))
        return;
    if (is_turn_of_late(lock))
        (void)pthread_cond_signal(&lock->late_freed);
    else if (lock->wanting > 0)
        (void)pthread_cond_signal(&lock->freed);
}

static void free_it(struct lock *lock) {
    atomic_store(&lock->state, CROWDED);
    tell_next(lock);
}

/* Sleeps until it is the turn of one that wants the lock; tells whether its time was over before. */
static bool await_turn(struct lock *lock, const struct timespec *end) {
    bool is_late = false;
    lock->wanting++;
    while (!is_late && (is_taken(lock) || is_turn_of_late(lock)))
        is_late = sleep_for(lock, &lock->freed, end);
    lock->wanting--;
    if (is_late) {
        lock->late++;
        /* It may have been woken as its time ended. */
        tell_next(lock);
        while (is_taken(lock) || !is_turn_of_late(lock))
            (void)sleep_for(lock, &lock->late_freed, NULL);
        lock->late--;
    }
    return is_late;
}

static inline void take(struct lock *lock, const struct timespec *end) {
    lock->was_late = (is_taken(lock) || is_turn_of_late(lock)) && await_turn(lock, end);
    atomic_store(&lock->state, CROWDED | TAKEN);
}

void lock_take_in_turn(struct lock *lock, const struct timespec *end) {
    hold(lock);
    take(lock, end);
    let_go(lock);
}

void lock_give_in_turn(struct lock *lock, bool has_changed) {
    hold(lock);
    free_it(lock);
    if (has_changed) {
        lock->changes++;
        if (lock->waiting > 0)
            (void)pthread_cond_broadcast(&lock->changed);
    }
    let_go(lock);
}

void lock_wait(struct lock *lock, const struct timespec *end) {
    bool is_over = false;
    hold(lock);
    uint64_t seen = lock->changes;
    lock->waiting++;
    free_it(lock);
    while (!is_over && lock->changes == seen)
        is_over = sleep_for(lock, &lock->changed, end);
    take(lock, end);
    lock->waiting--;
    let_go(lock);
}
