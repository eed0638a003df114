/* The calls of message queues: their arguments are tested and their refusals are said here, for both kinds of handles. */
#include "queues.h"

#include <errno.h>

/* ---- sentences */

/* A refusal of what is asked, whoever is to do it. */
static SELDOM int no_argument(const msgq *queues, struct subject it, int wrong) {
    return refuses(wrong, queues == NULL ? "the file" : queues->name, it);
}

static SELDOM int no_queues(void) {
    return fails(why(EINVAL, "there is none"), "the file", "the call is not made");
}

/* What a refusal means in each call that names a queue by its id (docs/QUEUES.md, "Calls"), where it means the same. */
static int because(int wrong) {
    switch (wrong) {
    case EIDRM:
        return why(wrong, "it was removed");
    case EINVAL:
        return why(wrong, "no queue ever had this id");
    case EACCES:
        return why(wrong, "its mode does not let the caller read");
    case EPERM:
        return why(wrong, "the caller is neither its owner, its creator nor user 0");
    default:
        return wrong;
    }
}

/* Where a wait ends whose limit begins to count here. */
static int begin_wait(const msgq *queues, const struct timespec *limit, struct timespec *end) {
    if (limit == NULL)
        return 0;
    return fails(end_of(limit, end), queues == NULL ? "the file" : queues->name, "the clock can't be read");
}

/* ---- calls */

int msgq_get(msgq *queues, int64_t key, int flags, uint32_t *id) {
    nothing_is_wrong();
    struct subject it = of_key(key);
    if (id == NULL)
        return no_argument(queues, it, why(EINVAL, "there is no room for the id"));
    if (key < MSGQ_PRIVATE || key > (int64_t)UINT32_MAX)
        return no_argument(queues, it, why(EINVAL, "a key is 0 to 4294967295, or MSGQ_PRIVATE"));
    if ((flags & ~(MSGQ_CREATE | MSGQ_EXCLUSIVE | 0777)) != 0)
        return no_argument(queues, it, why(EINVAL, "0%o has flags that are none", (unsigned)flags));
    if (queues == NULL)
        return no_queues();
    struct get_call call = {
        .key = key == MSGQ_PRIVATE ? 0 : (uint32_t)key,
        .has_key = key != MSGQ_PRIVATE,
        .create = (flags & MSGQ_CREATE) != 0,
        .excl = (flags & MSGQ_EXCLUSIVE) != 0,
        .mode = (uint16_t)(flags & 0777),
    };
    int wrong = queues->calls->get(queues, &call, id);
    if (wrong == ENOENT)
        (void)why(wrong, "no queue has this key");
    if (wrong == EEXIST)
        (void)why(wrong, "the key has a queue");
    if (wrong == ENOSPC && msgq_last_fault() == 0)
        (void)why(wrong, "256 queues are alive, or no id is left");
    return refuses(wrong, queues->name, it);
}

/* Why there is no room for a message: the limit that it meets, and how that is raised. */
static int no_room(int wrong, const struct sending *it) {
    const struct info *info = &it->met;
    const char *none = wrong == ETIMEDOUT ? "there was no room on it in time" : "there is no room on it";
    if (!it->has_met)
        return why(wrong, "%s", none);
    if (info->cbytes + it->length <= info->qbytes)
        return why(wrong, "%s: it has %lu messages, the most of a queue", none, (unsigned long)info->qnum);
    return why(wrong, "%s: its messages have %lu of %lu bytes, and this one %lu; %s", none, (unsigned long)info->cbytes,
               (unsigned long)info->qbytes, (unsigned long)it->length,
               info->qbytes < 65536 ? "msgq_set raises the limit, up to 65536" : "that is the most of a queue");
}

static _Thread_local uint64_t last_serial;

uint64_t msgq_last_serial(void) {
    return last_serial;
}

/* What is asked of a message that is sent, but for its type: that is the rules' to test. */
static inline int test_body(const msgq *queues, uint32_t id, const void *body, size_t length) {
    if (body == NULL && length > 0)
        return no_argument(queues, of_id(id), why(EINVAL, "there is no body"));
    if (length > MSGQ_MAX_BODY)
        return no_argument(queues, of_id(id), why(EINVAL, "the body has %zu bytes, and a message 1024 at most", length));
    return 0;
}

/* What a queue that had no room was like is not set: nothing was met yet. */
static void begin_sending(struct sending *it, uint32_t id, int64_t type, const void *body, size_t length, int flags) {
    static const uint8_t none;
    it->call = (struct send_call){.mtype = type, .id = id, .nowait = (flags & MSGQ_NOWAIT) != 0};
    it->body = body == NULL ? &none : body;
    it->length = length;
    it->asks_again = (flags & MSGQ_AGAIN) != 0;
    it->serial = 0;
    it->has_met = false;
}

/* Notes the serial of a message that was sent, or says why it was not. */
static int tell_sent(const msgq *queues, const struct sending *it, int wrong) {
    if (it->serial != 0)
        last_serial = it->serial;
    if (wrong == 0)
        return 0;
    if (wrong == EAGAIN || wrong == ETIMEDOUT)
        (void)no_room(wrong, it);
    else if (wrong == EINVAL && it->call.mtype < 1)
        (void)why(wrong, "the type of a message is at least 1");
    else if (wrong == EACCES)
        (void)why(wrong, "its mode does not let the caller write");
    else
        (void)because(wrong);
    return refuses(wrong, queues->name, of_id(it->call.id));
}

int msgq_send(msgq *queues, uint32_t id, int64_t type, const void *body, size_t length, int flags,
              const struct timespec *limit) {
    struct timespec end;
    struct sending it;
    nothing_is_wrong();
    if ((flags & ~(MSGQ_NOWAIT | MSGQ_AGAIN)) != 0)
        return no_argument(queues, of_id(id), why(EINVAL, "0%o has flags that are none", (unsigned)flags));
    int wrong = test_body(queues, id, body, length);
    if (wrong != 0)
        return wrong;
    if (is_wrong_limit(limit))
        return no_argument(queues, of_id(id), why(EINVAL, "the limit is none"));
    if ((wrong = begin_wait(queues, limit, &end)) != 0)
        return wrong;
    if (queues == NULL)
        return no_queues();
    begin_sending(&it, id, type, body, length, flags);
    return tell_sent(queues, &it, queues->calls->send(queues, &it, limit == NULL ? NULL : &end));
}

/* Sends so many messages, up to MOST_TOGETHER. */
static int send_some(msgq *queues, uint32_t id, struct msgq_outgoing *messages, size_t count) {
    struct sending all[MOST_TOGETHER];
    size_t first = count;
    for (size_t n = 0; n < count; n++)
        begin_sending(&all[n], id, messages[n].type, messages[n].body, messages[n].length, MSGQ_NOWAIT);
    int wrong = queues->calls->send_all(queues, all, count);
    for (size_t n = 0; n < count; n++) {
        messages[n].serial = all[n].serial;
        if (all[n].serial != 0)
            last_serial = all[n].serial;
        else if (first == count)
            first = n;
    }
    return tell_sent(queues, &all[first < count ? first : count - 1], wrong);
}

int msgq_send_all(msgq *queues, uint32_t id, struct msgq_outgoing *messages, size_t count) {
    nothing_is_wrong();
    int wrong = messages == NULL && count > 0 ? no_argument(queues, of_id(id), why(EINVAL, "there are no messages")) : 0;
    for (size_t n = 0; wrong == 0 && n < count; n++) {
        messages[n].serial = 0;
        wrong = test_body(queues, id, messages[n].body, messages[n].length);
    }
    if (wrong == 0 && queues == NULL)
        return no_queues();
    for (size_t at = 0, some; wrong == 0 && at < count; at += some) {
        some = count - at < MOST_TOGETHER ? count - at : MOST_TOGETHER;
        wrong = send_some(queues, id, messages + at, some);
    }
    return wrong;
}

/* Why no message was taken. */
static int no_message(int wrong, size_t size) {
    switch (wrong) {
    case E2BIG:
        return why(wrong, "the message is longer than %zu bytes, and MSGQ_NOERROR is not given; it stays", size);
    case ENOMSG:
        return why(wrong, "there is no message that the type selects");
    case ETIMEDOUT:
        return why(wrong, "no message that the type selects came in time");
    default:
        return because(wrong);
    }
}

/* What takes a message asks for: it is tested but for its flags. */
static inline int test_room(const msgq *queues, uint32_t id, const void *room, size_t size, const struct timespec *limit) {
    if (room == NULL && size > 0)
        return no_argument(queues, of_id(id), why(EINVAL, "there is no room"));
    if (is_wrong_limit(limit))
        return no_argument(queues, of_id(id), why(EINVAL, "the limit is none"));
    return 0;
}

static void tell_message(struct msgq_message *got, const struct receiving *it) {
    if (got != NULL)
        *got = (struct msgq_message){it->got.serial, it->got.mtype, it->got.length, it->got.sender};
}

int msgq_receive(msgq *queues, uint32_t id, int64_t type, void *room, size_t size, int flags,
                 const struct timespec *limit, struct msgq_message *got) {
    uint8_t none;
    struct timespec end;
    nothing_is_wrong();
    if ((flags & ~(MSGQ_NOWAIT | MSGQ_NOERROR | MSGQ_AGAIN)) != 0)
        return no_argument(queues, of_id(id), why(EINVAL, "0%o has flags that are none", (unsigned)flags));
    int wrong = test_room(queues, id, room, size, limit);
    if (wrong != 0 || (wrong = begin_wait(queues, limit, &end)) != 0)
        return wrong;
    if (queues == NULL)
        return no_queues();
    struct receiving it = {
        .call = {.mtype = type,
                 .id = id,
                 .nowait = (flags & MSGQ_NOWAIT) != 0,
                 .noerror = (flags & MSGQ_NOERROR) != 0},
        .room = room == NULL ? &none : room,
        /* No message has more, so no more of the room is ever written. */
        .size = size < MSGQ_MAX_BODY ? size : MSGQ_MAX_BODY,
        .asks_again = (flags & MSGQ_AGAIN) != 0,
    };
    wrong = queues->calls->receive(queues, &it, limit == NULL ? NULL : &end);
    if (wrong == 0) {
        tell_message(got, &it);
        return 0;
    }
    return refuses(no_message(wrong, size), queues->name, of_id(id));
}

int msgq_reserve(msgq *queues, uint32_t id, int64_t type, void *room, size_t size, int flags,
                 const struct timespec *limit, struct msgq_message *got, uint32_t *holding) {
    struct timespec end;
    nothing_is_wrong();
    if ((flags & ~MSGQ_NOWAIT) != 0)
        return no_argument(queues, of_id(id), why(EINVAL, "0%o has flags that are none", (unsigned)flags));
    if (size < MSGQ_MAX_BODY)
        return no_argument(queues, of_id(id), why(EINVAL, "there is room for %zu bytes, and a message may have 1024", size));
    if (holding == NULL)
        return no_argument(queues, of_id(id), why(EINVAL, "there is no room for the id of what is held"));
    int wrong = test_room(queues, id, room, size, limit);
    if (wrong != 0 || (wrong = begin_wait(queues, limit, &end)) != 0)
        return wrong;
    if (queues == NULL)
        return no_queues();
    struct receiving it = {
        .call = {.mtype = type, .id = id, .nowait = (flags & MSGQ_NOWAIT) != 0},
        .room = room,
        .size = MSGQ_MAX_BODY,
    };
    wrong = queues->calls->reserve(queues, &it, limit == NULL ? NULL : &end);
    if (wrong == 0) {
        tell_message(got, &it);
        *holding = it.holding;
    }
    if (wrong == ENOSPC && msgq_last_fault() == 0)
        (void)why(wrong, "256 queues are alive, and what is held is one more");
    return refuses(no_message(wrong, size), queues->name, of_id(id));
}

/* Ends what is held. */
static int settle(msgq *queues, uint32_t holding, bool is_done) {
    nothing_is_wrong();
    if (queues == NULL)
        return no_queues();
    int wrong = because(queues->calls->settle(queues, holding, is_done));
    if (wrong == EINVAL)
        (void)why(wrong, "no message is held by this id");
    return refuses(wrong, queues->name, of_id(holding));
}

int msgq_acknowledge(msgq *queues, uint32_t holding) {
    return settle(queues, holding, true);
}

int msgq_release(msgq *queues, uint32_t holding) {
    return settle(queues, holding, false);
}

int msgq_stat(msgq *queues, uint32_t id, struct msgq_info *told) {
    struct info info;
    nothing_is_wrong();
    struct subject its = of_id(id);
    if (told == NULL)
        return no_argument(queues, its, why(EINVAL, "there is no room for what is known"));
    if (queues == NULL)
        return no_queues();
    int wrong = because(queues->calls->stat(queues, id, &info));
    if (wrong == 0)
        *told = (struct msgq_info){
            .stime = info.stime, .rtime = info.rtime, .ctime = info.ctime,
            .id = info.id, .key = info.has_key ? (int64_t)info.key : MSGQ_PRIVATE,
            .qnum = info.qnum, .cbytes = info.cbytes, .qbytes = info.qbytes,
            .lspid = info.lspid, .lrpid = info.lrpid,
            .uid = info.uid, .gid = info.gid, .cuid = info.cuid, .cgid = info.cgid,
            .mode = info.mode,
        };
    return refuses(wrong, queues->name, its);
}

/* Whether a number is one of a user or a group, or -1. */
static bool is_number(int64_t number) {
    return number >= -1 && number <= (int64_t)UINT32_MAX;
}

int msgq_set(msgq *queues, uint32_t id, const struct msgq_change *change) {
    nothing_is_wrong();
    struct subject its = of_id(id);
    if (change == NULL)
        return no_argument(queues, its, why(EINVAL, "there is no change"));
    if (!is_number(change->uid) || !is_number(change->gid))
        return no_argument(queues, its, why(EINVAL, "a user and a group are 0 to 4294967295, or -1"));
    if (change->mode < -1 || change->mode > 0777)
        return no_argument(queues, its, why(EINVAL, "a mode is 0 to 0777, or -1"));
    if (queues == NULL)
        return no_queues();
    struct set_call call = {
        .id = id, .qbytes = change->qbytes,
        .uid = change->uid < 0 ? 0 : (uint32_t)change->uid, .has_uid = change->uid >= 0,
        .gid = change->gid < 0 ? 0 : (uint32_t)change->gid, .has_gid = change->gid >= 0,
        .mode = change->mode < 0 ? 0 : (uint16_t)change->mode, .has_mode = change->mode >= 0,
    };
    int wrong = queues->calls->set(queues, &call);
    if (wrong == EINVAL && change->qbytes > 65536)
        (void)why(wrong, "a limit is at most 65536 bytes");
    else if (wrong == EPERM)
        (void)why(wrong, "the caller is neither its owner, its creator nor user 0, or raises the limit and is not user 0");
    else
        (void)because(wrong);
    return refuses(wrong, queues->name, its);
}

int msgq_remove(msgq *queues, uint32_t id) {
    nothing_is_wrong();
    if (queues == NULL)
        return no_queues();
    return refuses(because(queues->calls->remove(queues, id)), queues->name, of_id(id));
}

int msgq_list(msgq *queues, uint32_t after, uint32_t *id) {
    nothing_is_wrong();
    struct subject its = of_id(after);
    if (id == NULL)
        return no_argument(queues, its, why(EINVAL, "there is no room for the id"));
    if (queues == NULL)
        return no_queues();
    int wrong = queues->calls->list(queues, after, id);
    if (wrong == ENOENT)
        (void)why(wrong, "no queue is alive behind it");
    return refuses(wrong, queues->name, its);
}

/* ---- the handle */

int msgq_save(msgq *queues) {
    nothing_is_wrong();
    return queues == NULL ? no_queues() : queues->calls->save(queues);
}

int msgq_note(msgq *queues) {
    nothing_is_wrong();
    return queues == NULL ? no_queues() : queues->calls->note(queues);
}

int msgq_stop(msgq *queues) {
    nothing_is_wrong();
    return queues == NULL ? no_queues() : queues->calls->stop(queues);
}

int msgq_close(msgq *queues) {
    nothing_is_wrong();
    return queues == NULL ? no_queues() : queues->calls->close(queues);
}

int msgq_abandon(msgq *queues) {
    nothing_is_wrong();
    return queues == NULL ? no_queues() : queues->calls->abandon(queues);
}
