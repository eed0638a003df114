/* A wait of 50 ms ends in time while 12 threads keep the file busy. Run with the path of a new file. */
#include "../msgq.h"

#include <errno.h>
#include <pthread.h>
#include <stdatomic.h>
#include <stdio.h>
#include <time.h>

/* A machine that has much else to do holds up whoever waits: so of three rounds the quickest counts, by the mean of its waits.
 * Without a look at the clock, or where it gets the lock by chance, a wait is late by 50 ms and more in the mean. */
enum { THREADS = 12, ROUNDS = 3, WAITS = 20, LIMIT = 50, MOST_LATE = 30 };

static msgq *queues;
static uint32_t idle, busy;
static atomic_int ended, failed;

static void must(int wrong, int expected, const char *what) {
    if (wrong != expected) {
        fprintf(stderr, "%s: %d, not %d\n", what, wrong, expected);
        failed = 1;
    }
}

static void *keeps_busy(void *with) {
    char byte = 0;
    (void)with;
    while (!ended) {
        int sent = msgq_send(queues, busy, 1, &byte, 1, MSGQ_NOWAIT, NULL);
        int received = msgq_receive(queues, busy, 0, &byte, 1, MSGQ_NOWAIT, NULL, NULL);
        must(sent == EAGAIN ? 0 : sent, 0, "send");
        must(received == ENOMSG ? 0 : received, 0, "receive");
    }
    return NULL;
}

static double milliseconds(void) {
    struct timespec now;
    clock_gettime(CLOCK_MONOTONIC, &now);
    return (double)now.tv_sec * 1e3 + (double)now.tv_nsec / 1e6;
}

/* By how much waits are late, in the mean. */
static double lateness(void) {
    double late = 0;
    for (int n = 0; n < WAITS; n++) {
        double before = milliseconds();
        must(msgq_receive(queues, idle, 0, NULL, 0, 0, msgq_within(LIMIT), NULL), ETIMEDOUT, "a wait");
        double took = milliseconds() - before;
        must(took < LIMIT, 0, "a wait that ends before its limit");
        late += took - LIMIT;
    }
    return late / WAITS;
}

int main(int argc, char **argv) {
    pthread_t threads[THREADS];
    double least = 1e9;
    if (argc != 2)
        return 2;
    must(msgq_create(argv[1], 300), 0, "create");
    must(msgq_open(argv[1], &queues), 0, "open");
    if (failed)
        return 1;
    must(msgq_get(queues, 1, MSGQ_CREATE | 0600, &idle), 0, "get");
    must(msgq_get(queues, 2, MSGQ_CREATE | 0600, &busy), 0, "get");
    for (int n = 0; n < THREADS; n++)
        if (pthread_create(&threads[n], NULL, keeps_busy, NULL) != 0)
            return 2;
    for (int n = 0; n < ROUNDS && least > MOST_LATE; n++) {
        double late = lateness();
        least = late < least ? late : least;
    }
    ended = 1;
    for (int n = 0; n < THREADS; n++)
        pthread_join(threads[n], NULL);
    must(msgq_abandon(queues), 0, "abandon");
    printf("late by %.1f ms\n", least);
    return failed || least > MOST_LATE;
}
