/* The same message queues, with a choice by type, in libmsgq and in its peers: nanoseconds of the processor that a call takes, where a call is half
 * a send and half a receive. In each run each store makes the same calls in a new file, one store after the other, so that what else
 * the machine does meets all of them. Each answer is compared with what it has to be. Before that each makes a mixture of calls, of which many are refused.
 *     queues NEW_FILE [ROUNDS [RUNS [CASE [STORE]]]]
 * A case by its number, and a store by its name; without them all. What is told is the median of the runs, with the least and the most, and how many
 * times as long libmsgq takes. */
#include "plan.h"

#include <stdio.h>
#include <stdlib.h>
#include <string.h>
#include <unistd.h>

/* What stands in each queue before, and what then comes and goes, a round at a time on the next queue. */
struct timed {
    const char *name;
    uint32_t pages;
    unsigned queues, standing, types; /* messages of each queue, of types 1, 2, .. in turn */
    size_t bytes;
    int64_t sent, received;           /* types */
    bool is_new;                      /* instead a new type each time, above all others */
};

static const struct timed CASES[] = {
    {"64 bytes by turns", 352, 1, 0, 1, 64, 1, 0, false},
    {"24 bytes, type -8 behind 512 messages of 16 types", 352, 1, 512, 16, 24, 1, -8, false},
    {"64 bytes, a new type each time", 352, 1, 0, 1, 64, 0, 0, true},
    {"64 bytes, a new type each time above 200 others", 352, 1, 200, 200, 64, 0, 0, true},
    {"1,024 bytes by turns", 352, 1, 0, 1, 1024, 1, 0, false},
    {"64 bytes, 64 queues by turns with 200 messages each, 4,096 pages", 4096, 64, 200, 4, 64, 1, 0, false},
};

/* A call of libmsgq is to take so many times a store's at most. */
struct peer {
    const struct store *store;
    double most;
};

static const struct peer PEERS[] = {
    {&STORE_MSGQ, 1},
    {&STORE_SYSTEM, 4},
#ifdef HAS_SQLITE3
    {&STORE_SQLITE, 0.4},
#endif
#ifdef HAS_LMDB
    {&STORE_LMDB, 1},
#endif
#ifdef HAS_GDBM
    {&STORE_GDBM, 0.8},
#endif
#ifdef HAS_TDB
    {&STORE_TDB, 2},
#endif
};

enum { COUNT_CASES = sizeof CASES / sizeof *CASES, COUNT_PEERS = sizeof PEERS / sizeof *PEERS, MOST_RUNS = 25, MIXED = 8000 };

void must(bool holds, const char *what) {
    if (!holds) {
        fprintf(stderr, "queues: %s\n", what);
        exit(1);
    }
}

/* ---- plans */

/* Tells where what is timed begins. */
static size_t plan_case(struct plan *plan, const struct timed *it, size_t rounds) {
    for (unsigned queue = 0; queue < it->queues; queue++)
        for (unsigned at = 0; at < it->standing; at++)
            plan_send(plan, queue, 1 + at % it->types, it->bytes);
    size_t begin = plan->count;
    for (size_t round = 0; round < rounds; round++) {
        int64_t type = (int64_t)(1000 + round);
        plan_send(plan, (unsigned)(round % it->queues), it->is_new ? type : it->sent, it->bytes);
        plan_receive(plan, (unsigned)(round % it->queues), it->is_new ? type : it->received, it->bytes);
    }
    return begin;
}

static uint32_t any(uint32_t *seed, uint32_t below) {
    *seed = *seed * 1664525 + 1013904223;
    return (*seed >> 8) % below;
}

/* Three queues: full now and then, empty now and then, with room for a message or not. */
static void plan_mixture(struct plan *plan) {
    uint32_t seed = 7;
    for (int at = 0; at < MIXED; at++) {
        unsigned queue = any(&seed, 3);
        size_t size = any(&seed, 4) == 0 ? MOST_BODY : 12 + any(&seed, 100);
        if (any(&seed, 10) < (at % 2000 < 1000 ? 7 : 3))
            plan_send(plan, queue, 1 + any(&seed, 12), size);
        else
            plan_receive(plan, queue, any(&seed, 50) == 0 ? INT64_MIN : (int64_t)any(&seed, 27) - 13, any(&seed, 3) == 0 ? size : MOST_BODY);
    }
}

/* ---- runs */

/* Makes the calls of a plan in a new file. Nanoseconds of those from one on; below 0 where the store is not there. */
static double run(const struct store *store, const char *path, uint32_t pages, unsigned queues, const struct plan *plan, size_t begin) {
    uint32_t ids[MOST_QUEUES];
    (void)unlink(path);
    void *it = store->open(path, pages);
    if (it == NULL)
        return -1;
    for (unsigned at = 0; at < queues; at++)
        ids[at] = store->get(it);
    follow(plan, 0, begin, store, it, ids);
    double took = follow_timed(plan, begin, store, it, ids);
    store->close(it);
    (void)unlink(path);
    return took;
}

static int compare(const void *one, const void *other) {
    double a = *(const double *)one, b = *(const double *)other;
    return (a > b) - (a < b);
}

static bool is_asked(const struct store *store, const char *only) {
    return only == NULL || strcmp(only, store->name) == 0;
}

static void tell_peer(const struct peer *peer, const double *times, int runs, double mine) {
    double middle = times[runs / 2];
    printf("    %-8s %7.0f ns (%.0f to %.0f)", peer->store->name, middle, times[0], times[runs - 1]);
    if (mine > 0 && peer->store != &STORE_MSGQ)
        printf(", libmsgq %.2f of it, %.2f at most%s", mine / middle, peer->most, mine > peer->most * middle ? ": MORE" : "");
    putchar('\n');
}

static void tell_case(const struct timed *it, const char *path, size_t rounds, int runs, const char *only) {
    static double times[COUNT_PEERS][MOST_RUNS];
    struct plan plan = new_plan();
    size_t begin = plan_case(&plan, it, rounds);
    for (int at = 0; at < runs; at++)
        for (size_t which = 0; which < COUNT_PEERS; which++) {
            const struct store *store = PEERS[which].store;
            times[which][at] = is_asked(store, only) ? run(store, path, it->pages, it->queues, &plan, begin) / (2 * (double)rounds) : -1;
        }
    free_plan(&plan);
    printf("%s\n", it->name);
    for (size_t which = 0; which < COUNT_PEERS; which++) {
        qsort(times[which], (size_t)runs, sizeof *times[which], compare);
        if (times[which][0] >= 0)
            tell_peer(&PEERS[which], times[which], runs, times[0][runs / 2]);
    }
    (void)fflush(stdout);
}

/* Has a store make the mixture in a file of its own. */
static void try_stores(const char *path, const char *only) {
    struct plan mixture = new_plan();
    plan_mixture(&mixture);
    for (size_t which = 0; which < COUNT_PEERS; which++)
        if (is_asked(PEERS[which].store, only) && run(PEERS[which].store, path, 352, 3, &mixture, mixture.count) < 0)
            printf("there is no %s\n", PEERS[which].store->name);
    free_plan(&mixture);
}

int main(int argc, char **argv) {
    long rounds = argc > 2 ? atol(argv[2]) : 10000, runs = argc > 3 ? atol(argv[3]) : 5, only = argc > 4 ? atol(argv[4]) : 0;
    const char *store = argc > 5 ? argv[5] : NULL;
    must(argc > 1 && argc < 7 && rounds > 0 && runs > 0 && runs <= MOST_RUNS && only >= 0 && only <= COUNT_CASES,
         "usage: queues NEW_FILE [ROUNDS [RUNS [CASE [STORE]]]]");
    try_stores(argv[1], store);
    for (long at = 0; at < COUNT_CASES; at++)
        if (only == 0 || only == at + 1)
            tell_case(&CASES[at], argv[1], (size_t)rounds, (int)runs, store);
    return 0;
}
