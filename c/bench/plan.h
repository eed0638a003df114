/* Calls that are made one after the other, with what each is answered by the rules of docs/QUEUES.md on plain lists. */
#ifndef MSGQ_PLAN_H
#define MSGQ_PLAN_H

#include "store.h"

enum { MOST_QUEUES = 64 };

/* A call on a queue: a send of a type and so many bytes, or a receive of a type with room for so many. And its answer: what it is
 * refused, or 0, the message's serial, and of a receive its type and bytes. */
struct step {
    int64_t type, got_type;
    uint64_t serial;
    uint16_t queue, size, got_length;
    uint8_t refused, is_send;
};

struct plan {
    struct step *steps;
    size_t count, room;
    struct listed *queues;
};

struct plan new_plan(void);
void free_plan(struct plan *plan);

/* Each adds a call, and what it is answered after those before it. */
void plan_send(struct plan *plan, unsigned queue, int64_t type, size_t length);
void plan_receive(struct plan *plan, unsigned queue, int64_t type, size_t size);

/* Makes calls of a plan, and ends the bench where one is answered otherwise. */
void follow(const struct plan *plan, size_t from, size_t to, const struct store *store, void *it, const uint32_t *ids);

/* The same from a call on, and how many nanoseconds of the processor they take. */
double follow_timed(const struct plan *plan, size_t from, const struct store *store, void *it, const uint32_t *ids);

#endif
