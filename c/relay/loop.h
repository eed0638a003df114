/* The loop of a server: one thread that waits for whatever comes first. */
#ifndef MSGQ_LOOP_H
#define MSGQ_LOOP_H

#include "clients.h"
#include "core.h"
#include "listener.h"
#include "lookout.h"
#include "options.h"

#include <stdint.h>

/* Where a server is in its life. */
enum phase {
    SERVING,
    ENDING,   /* the core was told so */
    DRAINING, /* the core has ended, and its last answers are written */
    OVER,
};

struct relay {
    const struct options *options;
    struct core core;
    struct listener listener;
    struct clients clients;
    struct lookout lookout;
    int epoll, spare; /* a descriptor to be let go of where there is no other */
    struct watch listens, signals, timer, core_in, core_out;
    enum phase phase;
    int status;           /* DONE or FAULT */
    bool is_armed;        /* the timer */
    bool is_told;         /* that no client can be taken */
    bool is_writing;      /* something waits for the core's pipe */
    bool wants_save;      /* that is to be asked for */
    int64_t muted_until;  /* while no client can be taken, 0 for else */
    int64_t drained_until;
};

/* Makes what it looks with, over a core and a listener that have begun. False where it can't be, which was said. */
bool relay_begin(struct relay *it);

/* Serves until it is told to end, or can't go on. Its status says which. */
void relay_run(struct relay *it);

/* Hangs up on all, and frees what it has but for the core and the listener. */
void relay_end(struct relay *it);

#endif
