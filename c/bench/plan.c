/* What is expected, on plain lists; and what is answered, beside it. */
#include "plan.h"

#include <errno.h>
#include <stdio.h>
#include <stdlib.h>
#include <string.h>
#include <time.h>

/* ---- lists */

struct listed {
    uint64_t next_serial;
    size_t cbytes, count;
    struct {
        int64_t type;
        uint64_t serial;
        size_t length;
    } messages[MOST_MESSAGES];
};

struct plan new_plan(void) {
    struct plan it = {.queues = calloc(MOST_QUEUES, sizeof *it.queues)};
    must(it.queues != NULL, "memory");
    for (int at = 0; at < MOST_QUEUES; at++)
        it.queues[at].next_serial = 1;
    return it;
}

void free_plan(struct plan *plan) {
    free(plan->steps);
    free(plan->queues);
}

static struct step *add(struct plan *plan, unsigned queue, int64_t type, size_t size) {
    if (plan->count == plan->room) {
        plan->room = 2 * plan->room + 1024;
        plan->steps = realloc(plan->steps, plan->room * sizeof *plan->steps);
        must(plan->steps != NULL, "memory");
    }
    struct step *step = &plan->steps[plan->count++];
    *step = (struct step){.type = type, .queue = (uint16_t)queue, .size = (uint16_t)size};
    return step;
}

void plan_send(struct plan *plan, unsigned queue, int64_t type, size_t length) {
    struct listed *it = &plan->queues[queue];
    struct step *step = add(plan, queue, type, length);
    step->is_send = 1;
    if (it->cbytes + length > QBYTES || it->count == MOST_MESSAGES) {
        step->refused = EAGAIN;
        return;
    }
    step->serial = it->messages[it->count].serial = it->next_serial++;
    it->messages[it->count].type = type;
    it->messages[it->count++].length = length;
    it->cbytes += length;
}

/* The place of the message that a type selects; their number for none. */
static size_t selected(const struct listed *it, int64_t type) {
    size_t found = it->count;
    for (size_t at = 0; at < it->count; at++) {
        int64_t here = it->messages[at].type;
        if (type >= 0 && (type == 0 || here == type))
            return at;
        if (type < 0 && here + type <= 0 && (found == it->count || here < it->messages[found].type))
            found = at;
    }
    return found;
}

void plan_receive(struct plan *plan, unsigned queue, int64_t type, size_t size) {
    struct listed *it = &plan->queues[queue];
    struct step *step = add(plan, queue, type, size);
    size_t at = selected(it, type);
    if (at == it->count || it->messages[at].length > size) {
        step->refused = at == it->count ? ENOMSG : E2BIG;
        return;
    }
    step->serial = it->messages[at].serial;
    step->got_type = it->messages[at].type;
    step->got_length = (uint16_t)it->messages[at].length;
    it->cbytes -= it->messages[at].length;
    it->count--;
    memmove(&it->messages[at], &it->messages[at + 1], (it->count - at) * sizeof *it->messages);
}

/* ---- answers */

/* The body of a message: letters, and in front of them its serial and its queue, as far as there is room. */
static char *body_of(uint64_t serial, uint32_t queue) {
    static char body[MOST_BODY];
    if (body[MOST_BODY - 1] == 0)
        memset(body, 'm', sizeof body);
    memcpy(body, &serial, sizeof serial);
    memcpy(body + sizeof serial, &queue, sizeof queue);
    return body;
}

static void complain(const struct store *store, const struct plan *plan, size_t at, const char *what, int refused) {
    const struct step *step = &plan->steps[at];
    fprintf(stderr, "queues: %s: call %zu, a %s of type %lld on queue %u: %s; refused %d where it is %d\n", store->name, at,
            step->is_send ? "send" : "receive", (long long)step->type, step->queue, what, refused, step->refused);
    exit(1);
}

/* Whether a serial is the one expected, or is not told. */
static bool is_serial(uint64_t told, const struct step *step) {
    return told == step->serial || told == 0;
}

void follow(const struct plan *plan, size_t from, size_t to, const struct store *store, void *it, const uint32_t *ids) {
    char room[MOST_BODY];
    for (size_t at = from; at < to; at++) {
        const struct step *step = &plan->steps[at];
        char *body = body_of(step->serial, step->queue);
        struct answer answer = {0, 0, 0};
        int refused = step->is_send ? store->send(it, ids[step->queue], step->type, body, step->size, &answer.serial)
                                    : store->receive(it, ids[step->queue], step->type, room, step->size, &answer);
        if (refused != step->refused)
            complain(store, plan, at, "it is answered otherwise", refused);
        if (refused != 0)
            continue;
        if (!is_serial(answer.serial, step))
            complain(store, plan, at, "another serial", refused);
        if (!step->is_send && (answer.type != step->got_type || answer.length != step->got_length || memcmp(room, body, answer.length) != 0))
            complain(store, plan, at, "another message", refused);
    }
}

static double now(void) {
    struct timespec at;
    must(clock_gettime(CLOCK_PROCESS_CPUTIME_ID, &at) == 0, "the clock");
    return (double)at.tv_sec * 1e9 + (double)at.tv_nsec;
}

double follow_timed(const struct plan *plan, size_t from, const struct store *store, void *it, const uint32_t *ids) {
    double begun = now();
    follow(plan, from, plan->count, store, it, ids);
    return now() - begun;
}
