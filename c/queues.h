/* What the parts of the library share. */
#ifndef MSGQ_QUEUES_H
#define MSGQ_QUEUES_H

#include "msgq.h"
#include "reason.h"

/* ---- a handle */

/* A handle is of one of two kinds: a file that this process has opened (opened.h), or a connection to a server (served.c). Each
 * begins with this. */
struct msgq {
    const struct calls *calls;
    char name[NAME_BYTES]; /* for sentences */
};

/* A message that is sent. */
struct sending {
    struct send_call call;
    const uint8_t *body;
    size_t length;
    bool asks_again;
    uint64_t serial; /* of one that was sent, from 1 on */
    bool has_met; /* where there was no room: whether it is known what the queue was like */
    struct info met;
};

enum { MOST_TOGETHER = 32 };

/* A message that is received or reserved. */
struct receiving {
    struct receive_call call;
    uint8_t *room;
    size_t size;
    bool asks_again;
    struct got got;
    uint32_t holding; /* the id of the holding queue of one that is reserved */
};

/* The calls of a kind, whose arguments were tested. Each gives 0 or the number of an error: a refusal, whose cause it may have noted, or
 * another, of which it has said the sentence. Who waits has an end by CLOCK_MONOTONIC, or NULL. The moments of calls are not given. */
struct calls {
    bool is_served;
    int (*get)(msgq *, struct get_call *, uint32_t *id);
    int (*send)(msgq *, struct sending *, const struct timespec *end);
    /* Up to MOST_TOGETHER that do not wait, in their order; each that was sent has a serial, and the others none. */
    int (*send_all)(msgq *, struct sending *, size_t count);
    int (*receive)(msgq *, struct receiving *, const struct timespec *end);
    int (*reserve)(msgq *, struct receiving *, const struct timespec *end);
    int (*settle)(msgq *, uint32_t holding, bool is_done); /* acknowledged, or released */
    int (*stat)(msgq *, uint32_t id, struct info *);
    int (*set)(msgq *, struct set_call *);
    int (*remove)(msgq *, uint32_t id);
    int (*list)(msgq *, uint32_t after, uint32_t *id);
    /* These say their sentences themselves. */
    int (*save)(msgq *);
    int (*note)(msgq *);
    int (*stop)(msgq *);
    int (*close)(msgq *);
    int (*abandon)(msgq *);
};

/* ---- time */

/* The moment of a call. */
uint64_t moment(void);

enum { SECOND = 1000000000 }; /* in nanoseconds */

/* Whether a limit is none that there can be. */
static inline bool is_wrong_limit(const struct timespec *limit) {
    return limit != NULL && (limit->tv_sec < 0 || limit->tv_nsec < 0 || limit->tv_nsec >= SECOND);
}

/* The moment at which a wait that begins now ends. */
int end_of(const struct timespec *limit, struct timespec *end);

/* Tells how long it is to a moment, 0 where that is over. */
int left_until(const struct timespec *end, struct timespec *left);

#endif
