/* The connections of a process: which thread has which, and what becomes of them where a thread, the process or a request ends. No lock
 * is taken, so that handlers of signals may ask, and the child of a fork. */
#ifndef MSGQ_LINES_H
#define MSGQ_LINES_H

#include "wire.h"

#include <pthread.h>
#include <stdatomic.h>

/* A connection that a thread has taken. */
struct line {
    struct wire wire;
    uint32_t number;            /* of the last request */
    struct line *outer;         /* of the same thread: a handler of a signal asks while that one's request is under way */
    const char *frame;          /* on the stack, of the request */
    struct line *next;          /* of the process: none is ever given up */
    _Atomic(const void *) key;  /* of whose lines it is; NULL for one that is free */
    _Atomic(const void *) owner; /* the thread; NULL for none */
    atomic_bool is_busy;        /* a request is under way, or a jump has left it */
};

/* The lines of one server. */
struct lines {
    pthread_key_t innermost; /* the line on which a thread asks */
};

/* 0 or the number of an error. */
int lines_begin(struct lines *lines);

/* Hangs up all of them. No other thread asks any more. */
void lines_end(struct lines *lines);

/* The line on which the thread asks now, by the frame of its request; NULL where there is no memory. */
struct line *line_begin(struct lines *lines, const char *frame);

/* The request has ended. */
void line_end(struct lines *lines, struct line *line);

/* Hangs up the requests of the thread. */
void lines_leave(struct lines *lines);

/* How many requests of other threads are under way. */
unsigned lines_under_way(struct lines *lines);

#endif
