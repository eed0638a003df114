/* Jobs in hand, over the calls of the library. */
#include "jobs.h"

#include <errno.h>
#include <inttypes.h>
#include <stdio.h>
#include <string.h>
#include <time.h>
#include <unistd.h>

/* The label of a hand without a job. */
#define IDLE "idle"

static int send_to(msgq *queues, uint32_t queue, const struct job *job) {
    return msgq_send(queues, queue, job->message.type, job->body, job->message.length, MSGQ_NOWAIT, NULL);
}

static int take_from(msgq *queues, uint32_t queue, int64_t type, struct job *job) {
    return msgq_receive(queues, queue, type, job->body, sizeof job->body, MSGQ_NOWAIT, NULL, &job->message);
}

/* ---- a hand */

static int put_label(msgq *queues, uint32_t hand, const char *label) {
    return msgq_send(queues, hand, LABEL_TYPE, label, strlen(label), MSGQ_NOWAIT, NULL);
}

/* Takes the label out of a hand. ENOMSG or E2BIG, and nothing has changed, where it has none: then it is no hand. */
static int take_label(msgq *queues, uint32_t hand, char label[LABEL_BYTES]) {
    struct msgq_message got;
    int wrong = msgq_receive(queues, hand, LABEL_TYPE, label, LABEL_BYTES - 1, MSGQ_NOWAIT, NULL, &got);
    if (wrong == 0)
        label[got.length] = '\0';
    return wrong;
}

/* Puts a label and a job into a hand. */
static int fill(msgq *queues, const struct job *job) {
    int wrong = put_label(queues, job->hand, job->label);
    return wrong != 0 ? wrong : send_to(queues, job->hand, job);
}

/* Leaves a hand whose label and job are out idle. Where it is not to last, or the file has no room for a label, it is
 * removed. */
static int rest(msgq *queues, uint32_t hand, bool lasts) {
    return lasts && put_label(queues, hand, IDLE) == 0 ? 0 : msgq_remove(queues, hand);
}

/* Gives a hand the owner, group and mode of a queue, so that who may receive from the queue may give the job back.
 * Its owner, who may be another than the queue's, lacks nothing. */
static int dress(msgq *queues, uint32_t hand, const struct msgq_info *like) {
    struct msgq_info now;
    int wrong = msgq_stat(queues, hand, &now);
    struct msgq_change change = {now.qbytes, like->uid, like->gid, like->mode | 0600};
    return wrong != 0 ? wrong : msgq_set(queues, hand, &change);
}

/* ---- what dead workers had */

/* Gives back what a hand without a worker has. Where that can't be it is put back into the hand, and where that can't
 * be either the file is spoilt. */
static void recover(msgq *queues, uint32_t hand, struct hands *hands) {
    struct job job = {.hand = hand};
    if (take_label(queues, hand, job.label) != 0)
        return;
    int wrong = sscanf(job.label, "queue %" SCNu32 ",", &job.queue) == 1 ? 0 : EINVAL;
    if (wrong != 0) {
        /* Whoever made this queue has messages of that type. */
        hands->is_spoilt |= put_label(queues, hand, job.label) != 0;
        return;
    }
    if ((wrong = take_from(queues, hand, 0, &job)) != 0) {
        hands->is_spoilt = true;
        return;
    }
    wrong = send_to(queues, job.queue, &job);
    if (wrong == 0 || wrong == EIDRM) {
        hands->is_spoilt |= rest(queues, hand, true) != 0;
        hands->idle[hands->idle_count++] = hand;
    } else {
        hands->is_spoilt |= fill(queues, &job) != 0;
    }
    hands->returned += wrong == 0;
    hands->dropped += wrong == EIDRM;
    hands->stuck += wrong != 0 && wrong != EIDRM;
}

/* Looks at a private queue, and gives back what it has where that is a job without a worker. */
static int look(msgq *queues, const struct held *held, const struct msgq_info *info, struct hands *hands) {
    int wrong = held_lock(held, info->id);
    if (wrong == EAGAIN) {
        hands->busy[hands->busy_count++] = info->id;
        return 0;
    }
    if (wrong != 0)
        return wrong;
    if (info->qnum > 1)
        recover(queues, info->id, hands);
    else
        hands->idle[hands->idle_count++] = info->id;
    held_unlock(held, info->id);
    return 0;
}

int hands_recover(msgq *queues, const struct held *held, uint32_t own, struct hands *hands) {
    struct msgq_info info;
    uint32_t id = 0;
    int wrong = 0;
    *hands = (struct hands){.returned = 0};
    /* (A file has no more than MOST_HANDS queues.) */
    while (wrong == 0 && !hands->is_spoilt && (wrong = msgq_list(queues, id, &id)) == 0) {
        /* One that may not be read is none of those from which this caller could give anything back. */
        if (id != own && msgq_stat(queues, id, &info) == 0 && info.key == MSGQ_PRIVATE && info.qnum > 0)
            wrong = look(queues, held, &info, hands);
    }
    return wrong == ENOENT ? 0 : wrong;
}

int hands_clear(msgq *queues, const struct held *held, const struct hands *hands, unsigned *removed) {
    char label[LABEL_BYTES];
    int wrong = 0;
    *removed = 0;
    for (unsigned at = 0; wrong == 0 && at < hands->idle_count; at++) {
        if (held_lock(held, hands->idle[at]) != 0 || take_label(queues, hands->idle[at], label) != 0)
            continue;
        if (strcmp(label, IDLE) == 0 && msgq_remove(queues, hands->idle[at]) == 0)
            (*removed)++;
        else
            wrong = put_label(queues, hands->idle[at], label);
    }
    return wrong;
}

/* ---- a job is taken */

/* Whether a mode lets this process write: by it no job is taken that could not be given back. What decides is the
 * give-back. */
static bool may_write(const struct msgq_info *info) {
    uint32_t user = geteuid(), group = getegid();
    unsigned digit = info->mode;
    if (user == 0)
        return true;
    if (user == info->uid || user == info->cuid)
        digit >>= 6;
    else if (group == info->gid || group == info->cgid)
        digit >>= 3;
    return (digit & 2) != 0;
}

/* The label says from which queue a job is. What follows makes it the only one of its text: a file that was put in
 * the place of this one may have a hand of the same id. */
static int write_label(struct job *job) {
    struct timespec now;
    if (clock_gettime(CLOCK_REALTIME, &now) != 0)
        return errno;
    (void)snprintf(job->label, sizeof job->label, "queue %" PRIu32 ", process %ld, since %lld.%09ld", job->queue,
                   (long)getpid(), (long long)now.tv_sec, now.tv_nsec);
    return 0;
}

/* Finds an idle hand that this caller may have, and locks it; ENOENT where there is none. */
static int find_hand(msgq *queues, const struct held *held, const struct hands *hands, const struct msgq_info *like,
                     struct job *job) {
    char label[LABEL_BYTES];
    for (unsigned at = 0; at < hands->idle_count; at++) {
        job->hand = hands->idle[at];
        if (held_lock(held, job->hand) != 0)
            continue;
        if (take_label(queues, job->hand, label) == 0) {
            if (strcmp(label, IDLE) == 0 && dress(queues, job->hand, like) == 0)
                return 0;
            int wrong = put_label(queues, job->hand, label);
            if (wrong != 0)
                return wrong;
        }
        held_unlock(held, job->hand);
    }
    return ENOENT;
}

/* Makes a hand and puts a job into it. Where a file is nearly full one page has room and another has not, and which
 * it is goes by the id: so several are tried. */
static int make_hand(msgq *queues, const struct held *held, const struct msgq_info *like, struct job *job) {
    enum { MOST_TRIES = 16 };
    for (int tries = 0;; tries++) {
        int wrong = msgq_get(queues, MSGQ_PRIVATE, 0600, &job->hand);
        if (wrong != 0)
            return wrong;
        wrong = dress(queues, job->hand, like);
        if (wrong == 0)
            wrong = fill(queues, job);
        /* The lock may be that of a worker of a file that stood here before. */
        if (wrong == 0)
            wrong = held_lock(held, job->hand);
        if ((wrong != ENOSPC && wrong != EAGAIN) || tries == MOST_TRIES)
            return wrong;
        if ((wrong = msgq_remove(queues, job->hand)) != 0)
            return wrong;
    }
}

int job_take(msgq *queues, const struct held *held, const struct hands *hands, uint32_t queue, int64_t type,
             struct job *job) {
    struct msgq_info info;
    job->queue = queue;
    int wrong = msgq_stat(queues, queue, &info);
    if (wrong == 0 && !may_write(&info))
        return EACCES;
    if (wrong == 0)
        wrong = write_label(job);
    if (wrong == 0)
        wrong = take_from(queues, queue, type, job);
    if (wrong != 0)
        return wrong;
    job->lasts = hands != NULL;
    wrong = hands == NULL ? ENOENT : find_hand(queues, held, hands, &info, job);
    return wrong == ENOENT ? make_hand(queues, held, &info, job) : wrong != 0 ? wrong : fill(queues, job);
}

/* ---- a job is finished or given back */

/* Empties a job's own hand. ENOENT where it is another's by now. */
static int take_out(msgq *queues, const struct job *job, struct job *found) {
    struct msgq_info info;
    *found = (struct job){.queue = job->queue, .hand = job->hand};
    int wrong = msgq_stat(queues, job->hand, &info);
    if (wrong == 0 && (info.key != MSGQ_PRIVATE || info.qnum < 2))
        return ENOENT;
    if (wrong == 0)
        wrong = take_label(queues, job->hand, found->label);
    if (wrong == EIDRM || wrong == EINVAL || wrong == ENOMSG || wrong == E2BIG || wrong == EACCES)
        return ENOENT;
    if (wrong == 0 && strcmp(found->label, job->label) != 0)
        return ENOENT;
    return wrong != 0 ? wrong : take_from(queues, job->hand, 0, found);
}

int job_finish(msgq *queues, const struct job *job) {
    struct job found;
    int wrong = take_out(queues, job, &found);
    return wrong != 0 ? wrong : rest(queues, job->hand, job->lasts);
}

int job_return(msgq *queues, const struct job *job) {
    struct job found;
    int wrong = take_out(queues, job, &found);
    if (wrong != 0)
        return wrong;
    int sent = send_to(queues, job->queue, &found);
    if (sent != 0 && sent != EIDRM)
        return sent;
    return (wrong = rest(queues, job->hand, job->lasts)) != 0 ? wrong : sent;
}
