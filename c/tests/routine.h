/* What tells transfers, in plain C: it runs on a stack of its own, and stands still at each transfer until it is told how that went. */
#ifndef MSGQ_TESTS_ROUTINE_H
#define MSGQ_TESTS_ROUTINE_H

#include "../session.h"

#include <stdlib.h>
#include <string.h>
#include <ucontext.h>

struct routine {
    ucontext_t caller, own;
    char *stack;
    struct order order; /* that is asked for */
    uint8_t *bytes;     /* its bytes, or those that were read */
    bool is_done;
    uint32_t code;      /* what came of it once it is over */
};

/* One is under way at a time. */
static struct routine routine;

/* Asks for a transfer, and waits until it is told of it. */
static bool ask(uint32_t kind, uint64_t at, uint32_t length, const void *written) {
    routine.order = (struct order){kind, length, at};
    if (written != NULL)
        memcpy(routine.bytes, written, length);
    swapcontext(&routine.own, &routine.caller);
    return routine.is_done;
}

/* It is over, for now. */
static void rest(uint32_t code) {
    routine.code = code;
    routine.order = (struct order){OVER, 0, 0};
    swapcontext(&routine.own, &routine.caller);
}

static void end_routine(void) {
    free(routine.stack);
    routine.stack = NULL;
}

static uint32_t begin_routine(void (*run)(void)) {
    enum { STACK = 1 << 20 };
    end_routine();
    memset(&routine, 0, sizeof routine);
    routine.stack = malloc(STACK);
    if (routine.stack == NULL || getcontext(&routine.own) != 0)
        return NO_MEMORY;
    routine.own.uc_stack.ss_sp = routine.stack;
    routine.own.uc_stack.ss_size = STACK;
    makecontext(&routine.own, run, 0);
    return DONE;
}

/* Goes on until the next transfer is asked for. */
static uint32_t next_of_routine(struct order *order, uint8_t *bytes) {
    routine.bytes = bytes;
    swapcontext(&routine.caller, &routine.own);
    *order = routine.order;
    return order->kind == OVER ? routine.code : DONE;
}

static uint32_t told_of_routine(const uint8_t *read, bool is_done) {
    routine.bytes = (uint8_t *)read;
    routine.is_done = is_done;
    return is_done ? DONE : FAILED;
}

#endif
