/* `msgq do`: takes a message in hand, runs a command on it, and takes it out for good where that ends with 0. */
#include "command.h"
#include "ends.h"
#include "front.h"
#include "held.h"
#include "jobs.h"
#include "request.h"
#include "served.h"
#include "settling.h"
#include "telling.h"
#include "watch.h"

#include <errno.h>
#include <inttypes.h>
#include <stdio.h>
#include <string.h>
#include <sys/wait.h>
#include <unistd.h>

/* How long a file that another process has open is waited for, in seconds. */
enum { PATIENCE = 10 };

/* ---- what is said */

static void tell_hands(const struct request *it, const struct hands *hands) {
    if (hands->dropped > 0)
        complain("%s: %u jobs of dead workers are gone with their queues, which were removed", it->file,
                 hands->dropped);
}

/* ---- the file */

/* The most that is waited for a turn; NULL for no end. */
static const struct timespec *limit_of(const struct request *it) {
    static struct timespec limit;
    if (it->waits && !it->has_end)
        return NULL;
    limit = it->waits ? time_left(&it->end) : (struct timespec){PATIENCE, 0};
    return &limit;
}

/* Opens the file in its turn, and the lock file. */
static int open_both(const struct request *it, msgq **queues, struct held *held) {
    settle_file(it->file);
    int wrong = msgq_open_wait(it->file, limit_of(it), queues);
    if (wrong == 0 && (wrong = held_open(held, it->file)) != 0) {
        (void)msgq_abandon(*queues);
        complain("%s.held: it can't be opened: %s", it->file, strerror(wrong));
        return wrong;
    }
    if (wrong != 0 && !(wrong == ENOENT && it->waits))
        complain_of(it->file, &it->queue, wrong);
    return wrong;
}

/* Saves and closes the file, or says why not. */
static int close_saved(const struct request *it, msgq *queues) {
    int wrong = msgq_close(queues);
    if (wrong == 0)
        return 0;
    complain_of(it->file, &it->queue, wrong);
    (void)msgq_abandon(queues);
    return wrong;
}

/* ---- a job is taken */

/* What a look at the file has come to. */
enum look { TAKEN, NONE, ABSENT, AGAIN, ENDED };

struct look_out {
    struct hands hands;
    bool is_wary; /* no hand is to be looked into: there is hardly any room in the file */
    bool is_told; /* that the file or the queue is not there yet */
    int status;   /* where it has ended, or a wait for what is not there ends */
};

/* Says once that something is waited for, without which a command that does not wait has this status. */
static enum look is_absent(const struct request *it, struct look_out *out, const char *what, int status) {
    if (!out->is_told)
        complain("%s: there is no such %s yet: waiting for it", it->file, what);
    out->is_told = true;
    out->status = status;
    return ABSENT;
}

static enum look end_with(struct look_out *out, int status) {
    out->status = status;
    return ENDED;
}

/* Takes a job from a file that is open, and does not close it. */
static int take(const struct request *it, msgq *queues, const struct held *held, struct look_out *out,
                struct job *job) {
    uint32_t queue = it->queue.number;
    struct hands later;
    int wrong = it->queue.is_id ? 0 : msgq_get(queues, it->queue.number, 0, &queue);
    out->hands = (struct hands){.returned = 0};
    if (wrong == 0 && !out->is_wary)
        wrong = hands_recover(queues, held, 0, &out->hands);
    if (wrong == 0 && !out->hands.is_spoilt)
        wrong = job_take(queues, held, out->is_wary ? NULL : &out->hands, queue, it->type, job);
    /* What has room on its queue only now. */
    if (wrong == 0 && out->hands.stuck > 0 && (wrong = hands_recover(queues, held, job->hand, &later)) == 0)
        out->hands.is_spoilt = later.is_spoilt;
    return wrong;
}

/* Looks at the file once. Where a job was taken the file is saved, and the signals are held back. */
static enum look look(const struct request *it, struct held *held, struct look_out *out, struct job *job,
                      sigset_t *before) {
    msgq *queues;
    int wrong = open_both(it, &queues, held);
    if (wrong == ENOENT && it->waits)
        return is_absent(it, out, "file", FAULT);
    if (wrong != 0)
        return end_with(out, FAULT);
    signals_hold(before);
    wrong = take(it, queues, held, out, job);
    enum look found = TAKEN;
    bool is_lost = out->hands.is_spoilt || (wrong == ENOSPC && !out->is_wary);
    if (is_lost)
        found = AGAIN;
    else if (wrong == ENOENT && it->waits)
        found = is_absent(it, out, "queue", REFUSED);
    else if (wrong == ENOMSG)
        found = NONE;
    else if (wrong != 0)
        found = end_with(out, status_of(wrong));
    if (found == ENDED || (found == NONE && !it->waits))
        complain_of(it->file, &it->queue, wrong);
    out->is_wary |= is_lost;
    bool has_changed = found == TAKEN || (found == NONE && out->hands.returned + out->hands.dropped > 0);
    if (has_changed && close_saved(it, queues) != 0)
        found = end_with(out, FAULT);
    else if (!has_changed)
        (void)msgq_abandon(queues);
    if (has_changed)
        tell_hands(it, &out->hands);
    if (found != TAKEN)
        signals_release(before);
    return found;
}

/* Whether one of the workers that lived at the last look has ended since. */
static bool has_lost_one(const struct held *held, const struct hands *hands) {
    for (unsigned at = 0; at < hands->busy_count; at++)
        if (!held_is_locked(held, hands->busy[at]))
            return true;
    return false;
}

/* Takes a job, and waits for one as long as that was asked for. */
static int take_in_time(const struct request *it, struct held *held, struct job *job, sigset_t *before) {
    struct look_out out = {.status = DONE};
    struct watch watch;
    enum found told = CHANGED;
    int wrong = watch_begin(&watch, it->file);
    if (wrong != 0) {
        complain("%s: %s", it->file, strerror(wrong));
        return FAULT;
    }
    for (enum look found = AGAIN; told != OVER; held_close(held)) {
        watch_note(&watch);
        found = look(it, held, &out, job, before);
        if (found == TAKEN || found == ENDED || (found == NONE && !it->waits)) {
            watch_end(&watch);
            return found == TAKEN ? DONE : found == NONE ? NOTHING : out.status;
        }
        if (found == NONE)
            out.status = NOTHING;
        while (found != AGAIN && (told = watch_wait(&watch, it->has_end ? &it->end : NULL)) == PASSED)
            if (has_lost_one(held, &out.hands))
                break;
    }
    watch_end(&watch);
    if (out.status == NOTHING)
        complain("%s: queue %s%" PRIu32 ": ENOMSG: no message that the type selects came in time", it->file,
                 it->queue.is_id ? "@" : "", it->queue.number);
    else
        complain("%s: it did not come in time", it->file);
    return out.status;
}

/* ---- a job has ended */

/* Opens the file again, however long another process has it; behind a signal that tells this one to end for some more
 * seconds. */
static int open_again(const struct request *it, msgq **queues) {
    int wrong, left = PATIENCE * 5;
    do {
        /* (also where a server has had it meanwhile) */
        settle_file(it->file);
        wrong = msgq_open_wait(it->file, msgq_within(200), queues);
    } while (wrong == ETIMEDOUT && (!signals_are_held() || --left > 0));
    return wrong;
}

/* Gives a job back, or takes it out for good. Where that can't be it stays in hand, and whoever comes next gives it
 * back. */
static int settle(const struct request *it, const struct job *job, bool is_done) {
    msgq *queues;
    int wrong = open_again(it, &queues);
    if (wrong != 0) {
        complain_of(it->file, &it->queue, wrong);
        return EIO;
    }
    wrong = is_done ? job_finish(queues, job) : job_return(queues, job);
    if (wrong == 0 || (wrong == EIDRM && !is_done))
        return close_saved(it, queues) != 0 ? EIO : wrong;
    if (wrong != ENOENT)
        complain_of(it->file, &it->queue, wrong);
    (void)msgq_abandon(queues);
    return wrong;
}

/* Says what became of a job that was not done. */
static void tell_return(const struct request *it, const struct job *job, const char *how, int wrong) {
    const char *what = wrong == 0        ? "its message is back, last of its queue"
                       : wrong == EIDRM  ? "its message is gone with its queue, which was removed"
                       : wrong == ENOENT ? "its message was given back or removed meanwhile"
                                         : "its message stays in hand until a later 'msgq do' gives it back";
    complain("%s: queue %s%" PRIu32 ": message %" PRIu64 ": the command %s: %s", it->file, it->queue.is_id ? "@" : "",
             it->queue.number, job->message.serial, how, what);
}

static int finish(const struct request *it, const struct job *job, const struct ending *ended) {
    char how[ENDING_BYTES];
    bool is_done = spell_ending(ended, how);
    int wrong = settle(it, job, is_done);
    if (!is_done || wrong != 0)
        tell_return(it, job, how, wrong);
    return !is_done ? FAILED : wrong == 0 ? DONE : wrong == ENOENT ? REFUSED : FAULT;
}

/* ---- the verb */

static int run_one(const struct request *it) {
    struct held held = {NOT_OPENED};
    msgq *queues;
    if (connect_beside(it->file, &queues))
        return do_served(it, queues);
    struct job job;
    sigset_t before;
    int status = take_in_time(it, &held, &job, &before);
    if (status == DONE) {
        struct ending ended = command_run(it->command, job.body, &job.message, &before);
        status = finish(it, &job, &ended);
        if (ended.signal != 0)
            end_by(ended.signal);
        signals_release(&before);
    }
    held_close(&held);
    return status;
}

/* Gives back what dead workers had, and removes the hands that nobody uses. */
static int recover(const struct request *it) {
    struct held held = {NOT_OPENED};
    struct hands hands;
    msgq *queues;
    unsigned removed;
    if (connect_beside(it->file, &queues)) {
        (void)msgq_abandon(queues);
        complain("%s: it is served: its server gives back what dead workers had", it->file);
        return REFUSED;
    }
    int wrong = open_both(it, &queues, &held);
    if (wrong != 0)
        return FAULT;
    wrong = hands_recover(queues, &held, 0, &hands);
    if (wrong == 0 && hands.is_spoilt)
        wrong = ENOSPC;
    if (wrong == 0)
        wrong = hands_clear(queues, &held, &hands, &removed);
    if (wrong != 0) {
        complain_of(it->file, &it->queue, wrong);
        (void)msgq_abandon(queues);
    } else {
        wrong = close_saved(it, queues);
    }
    held_close(&held);
    if (wrong != 0)
        return FAULT;
    tell_hands(it, &hands);
    if (printf("recovered %u %u\n", hands.returned, hands.stuck) < 0 || fflush(stdout) != 0) {
        complain("standard output: %s", strerror(errno));
        return FAULT;
    }
    return hands.stuck > 0 ? NOTHING : DONE;
}

int do_run(int count, char **words) {
    struct request it;
    int status = read_request(&it, count, words);
    if (status != DONE)
        return status < 0 ? DONE : status;
    return it.recovers ? recover(&it) : run_one(&it);
}
