/* `msgq do` on a file that is served: the server holds the message in hand, and gives it back where this process is gone. */
#include "command.h"
#include "ends.h"
#include "front.h"
#include "request.h"
#include "telling.h"

#include <errno.h>
#include <inttypes.h>

/* What is left of a wait; NULL for no end. */
static const struct timespec *left_of(const struct request *it) {
    static struct timespec left;
    left = time_left(&it->end);
    return it->has_end ? &left : NULL;
}

/* The queue that is named, which is waited for where that is asked for. */
static int find(const struct request *it, msgq *queues, uint32_t *id) {
    static const struct timespec nap = {0, 20000000};
    bool is_said = false;
    *id = it->queue.number;
    while (!it->queue.is_id) {
        int wrong = msgq_get(queues, it->queue.number, 0, id);
        if (wrong != ENOENT || !it->waits || (it->has_end && is_over(&it->end)))
            return wrong;
        if (!is_said)
            complain("%s: there is no such queue yet: waiting for it", it->file);
        is_said = true;
        (void)nanosleep(&nap, NULL);
    }
    return 0;
}

/* Ends what is in hand: the message is gone for good, or back in its queue. */
static int settle(const struct request *it, msgq *queues, uint32_t holding, uint64_t serial, const struct ending *ended) {
    char how[ENDING_BYTES];
    bool is_done = spell_ending(ended, how);
    int wrong = is_done ? msgq_acknowledge(queues, holding) : msgq_release(queues, holding);
    if (wrong != 0)
        complain_of(it->file, &it->queue, wrong);
    if (!is_done || wrong != 0)
        complain("%s: queue %s%" PRIu32 ": message %" PRIu64 ": the command %s: %s", it->file,
                 it->queue.is_id ? "@" : "", it->queue.number, serial, how,
                 wrong == 0 ? "its message is back, last of its queue" : "the server gives its message back");
    return !is_done ? FAILED : wrong == 0 ? DONE : FAULT;
}

int do_served(const struct request *it, msgq *queues) {
    uint8_t body[MSGQ_MAX_BODY];
    struct msgq_message message;
    struct ending ended = {.signal = 0};
    sigset_t before;
    uint32_t id, holding;
    int status, wrong = find(it, queues, &id);
    if (wrong == 0)
        wrong = msgq_reserve(queues, id, it->type, body, sizeof body, it->waits ? 0 : MSGQ_NOWAIT, left_of(it), &message,
                             &holding);
    if (wrong != 0) {
        complain_of(it->file, &it->queue, wrong);
        status = wrong == ETIMEDOUT ? NOTHING : status_of(wrong);
    } else {
        signals_hold(&before);
        ended = command_run(it->command, body, &message, &before);
        status = settle(it, queues, holding, message.serial, &ended);
    }
    (void)msgq_abandon(queues);
    if (ended.signal != 0)
        end_by(ended.signal);
    if (wrong == 0)
        signals_release(&before);
    return status;
}
