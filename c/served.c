/* A connection to a server, and its calls: each is a request, and what it is answered. */
#include "served.h"
#include "requests.h"

#include <errno.h>
#include <stdlib.h>
#include <string.h>

struct served_file {
    msgq handle;
    struct server *server;
};

/* For so long a call waits for the next server where one has ended, in milliseconds. */
enum { PATIENCE = 5000 };

static struct server *server_of(msgq *queues) {
    return ((struct served_file *)queues)->server;
}

/* The number of an error for what a request gave. What is wrong with the connection is said. */
static int error_of_request(const msgq *queues, int done) {
    static const char UNMADE[] = "the call is not made", UNKNOWN[] = "it is not known whether the call was made";
    if (done >= 0)
        return error_of((uint32_t)done);
    switch (-done) {
    case EINTR:
        return why(EINTR, "a signal has ended the wait");
    case ETIMEDOUT:
        return ETIMEDOUT;
    case ECONNRESET:
        return fails(why(ECONNRESET, "its server was lost"), queues->name, UNKNOWN);
    case ENOTCONN:
        return fails(why(ENOTCONN, "nobody serves it"), queues->name, UNMADE);
    case EPROTO:
        return fails(why(EPROTO, "its server's answer is none"), queues->name, UNKNOWN);
    default:
        return fails(-done, queues->name, UNMADE);
    }
}

/* ---- calls */

static int get(msgq *queues, struct get_call *call, uint32_t *id) {
    uint8_t flags = (call->has_key ? HAS_KEY : 0) | (call->create ? CREATES : 0) | (call->excl ? IS_EXCLUSIVE : 0);
    return error_of_request(queues, request_get(server_of(queues), call->key, flags, call->mode, id));
}

static void tell_info(struct info *info, const struct known *it) {
    *info = (struct info){
        .stime = it->stime, .rtime = it->rtime, .ctime = it->ctime,
        .id = it->id, .key = it->key, .has_key = it->has_key,
        .qnum = it->qnum, .cbytes = it->cbytes, .qbytes = it->qbytes,
        .lspid = it->lspid, .lrpid = it->lrpid,
        .uid = it->uid, .gid = it->gid, .cuid = it->cuid, .cgid = it->cgid,
        .mode = it->mode,
    };
}

static struct waiting waiting_of(bool nowait, bool asks_again, const struct timespec *end) {
    return (struct waiting){.waits = !nowait, .asks_again = asks_again, .end = nowait ? NULL : end};
}

/* Where there was no room for a message it is asked what the queue is like. */
static int meet(msgq *queues, struct sending *it, int wrong) {
    struct known known;
    if ((wrong == EAGAIN || wrong == ETIMEDOUT) && request_stat(server_of(queues), it->call.id, &known) == 0) {
        it->has_met = true;
        tell_info(&it->met, &known);
    }
    return wrong;
}

static int send(msgq *queues, struct sending *it, const struct timespec *end) {
    uint8_t type[8];
    const struct iovec message[] = {{type, sizeof type}, {(void *)(uintptr_t)it->body, it->length}};
    const struct waiting how = waiting_of(it->call.nowait, it->asks_again, end);
    put_number(type, (uint64_t)it->call.mtype, 8);
    int done = request_send(server_of(queues), it->call.id, it->call.nowait ? NO_WAIT : 0, message, 2, &how,
                            &it->serial);
    return meet(queues, it, error_of_request(queues, done));
}

/* Whether a queue has room for all of some messages, as far as nobody else sends to it. */
static bool fits(msgq *queues, const struct sending *all, size_t count) {
    enum { MOST_MESSAGES = 1024 };
    struct known known;
    size_t bytes = 0;
    for (size_t n = 0; n < count; n++)
        bytes += all[n].length;
    return request_stat(server_of(queues), all->call.id, &known) == 0 && known.qnum + count <= MOST_MESSAGES
        && known.cbytes + bytes <= known.qbytes;
}

_Static_assert((int)MOST_TOGETHER <= (int)MOST_AT_ONCE, "they may be under way at once");

/* Has them all under way at once. */
static int send_together(msgq *queues, const struct sending *all, size_t count, struct outgoing *outgoing) {
    uint8_t types[MOST_TOGETHER][8];
    for (size_t n = 0; n < count; n++) {
        put_number(types[n], (uint64_t)all[n].call.mtype, 8);
        outgoing[n] = (struct outgoing){
            .message = {{types[n], 8}, {(void *)(uintptr_t)all[n].body, all[n].length}}, .done = -ENOTCONN};
    }
    return request_send_all(server_of(queues), all->call.id, outgoing, count);
}

/* Several at once where there is room for them, so that none that is shorter comes before one that is refused. */
static int send_all(msgq *queues, struct sending *all, size_t count) {
    struct outgoing outgoing[MOST_TOGETHER];
    bool are_together = count > 1 && fits(queues, all, count) && send_together(queues, all, count, outgoing) == 0;
    for (size_t n = 0; are_together && n < count; n++)
        all[n].serial = outgoing[n].serial;
    for (size_t n = 0; n < count; n++) {
        if (all[n].serial != 0)
            continue;
        /* What was not made is made by itself, of the next server where this one ends. */
        bool is_told = are_together && outgoing[n].done != -ENOTCONN;
        int wrong = is_told ? meet(queues, &all[n], error_of_request(queues, outgoing[n].done)) : send(queues, &all[n], NULL);
        if (wrong != 0)
            return wrong;
    }
    return 0;
}

/* Takes a message by one of two requests. */
static int take(msgq *queues, struct receiving *it, const struct timespec *end,
                int (*request)(struct server *, const struct selection *, const struct waiting *, struct taken *)) {
    uint8_t type[8];
    struct taken taken;
    const struct iovec message[] = {{type, sizeof type}, {it->room, it->size}};
    const struct waiting how = waiting_of(it->call.nowait, it->asks_again, end);
    const struct selection selection = {
        .id = it->call.id,
        .flags = (it->call.nowait ? NO_WAIT : 0) | (it->call.noerror ? NO_ERROR : 0),
        .type = it->call.mtype,
        .size = (uint32_t)it->size,
        .message = message,
        .parts = 2,
    };
    int wrong = error_of_request(queues, request(server_of(queues), &selection, &how, &taken));
    if (wrong == 0) {
        it->got = (struct got){taken.serial, (int64_t)number_at(type, 8), taken.length, taken.sender};
        it->holding = taken.holding;
    }
    return wrong;
}

static int receive(msgq *queues, struct receiving *it, const struct timespec *end) {
    return take(queues, it, end, request_receive);
}

static int reserve(msgq *queues, struct receiving *it, const struct timespec *end) {
    /* What is held for a connection that has ended goes back. So nothing is lost by asking again. */
    it->asks_again = true;
    return take(queues, it, end, request_reserve);
}

static int settle(msgq *queues, uint32_t holding, bool is_done) {
    return error_of_request(queues, request_plain(server_of(queues), is_done ? ACKNOWLEDGE : RELEASE, holding));
}

static int stat(msgq *queues, uint32_t id, struct info *info) {
    struct known known;
    int wrong = error_of_request(queues, request_stat(server_of(queues), id, &known));
    if (wrong == 0)
        tell_info(info, &known);
    return wrong;
}

static int set(msgq *queues, struct set_call *call) {
    const struct setting setting = {
        .flags = (call->has_uid ? HAS_USER : 0) | (call->has_gid ? HAS_GROUP : 0) | (call->has_mode ? HAS_MODE : 0),
        .mode = call->mode,
        .qbytes = call->qbytes,
        .uid = call->uid,
        .gid = call->gid,
    };
    return error_of_request(queues, request_set(server_of(queues), call->id, &setting));
}

static int remove_queue(msgq *queues, uint32_t id) {
    return error_of_request(queues, request_plain(server_of(queues), REMOVE, id));
}

static int list(msgq *queues, uint32_t after, uint32_t *id) {
    int wrong = error_of_request(queues, request_next(server_of(queues), after, id));
    /* (a server says so of an id behind which there is none) */
    return wrong == EINVAL ? ENOENT : wrong;
}

/* ---- the handle */

static int save(msgq *queues) {
    int wrong = error_of_request(queues, request_plain(server_of(queues), SAVE, 0));
    return fails(wrong, queues->name, "it can't be saved");
}

static int stop(msgq *queues) {
    return fails(why(ENOTSUP, "a server is stopped by who has started it"), queues->name, "it can't be stopped");
}

static void let_go(struct served_file *it) {
    server_end(it->server);
    free(it);
}

static int disconnect(msgq *queues) {
    unsigned calls = server_under_way(server_of(queues));
    if (calls > 0)
        return fails(why(EBUSY, "%u of its calls are under way", calls), queues->name, "it can't be closed");
    let_go((struct served_file *)queues);
    return 0;
}

static const struct calls CALLS = {
    .is_served = true,
    .get = get, .send = send, .send_all = send_all, .receive = receive, .reserve = reserve, .settle = settle,
    .stat = stat, .set = set, .remove = remove_queue, .list = list,
    /* What was answered is the server's to save. */
    .save = save, .note = save, .stop = stop, .close = disconnect, .abandon = disconnect,
};

int served_connect(const char *socket, const char *name, msgq **queues) {
    struct greeting greeting;
    struct served_file *made = calloc(1, sizeof *made);
    if (made == NULL)
        return ENOMEM;
    made->handle.calls = &CALLS;
    spell_name(made->handle.name, name);
    int wrong = server_begin(socket, PATIENCE, &made->server);
    if (wrong != 0) {
        free(made);
        return wrong;
    }
    if ((wrong = -server_greeting(made->server, &greeting)) != 0)
        let_go(made);
    else
        *queues = &made->handle;
    return wrong;
}
