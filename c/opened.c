/* The calls of a file that is open, under its lock, and their waits. */
#include "opened.h"

#include <errno.h>

/* ---- waits */

/* ETIMEDOUT once the end is over. */
static int test_end(const struct timespec *end) {
    struct timespec left;
    int wrong = left_until(end, &left);
    return wrong == 0 && left.tv_sec == 0 && left.tv_nsec == 0 ? ETIMEDOUT : wrong;
}

typedef uint32_t call_of(struct opened_file *, void *with);

/* Goes on with a call of which this came: makes it as often as it would wait and something has changed since, under the lock. The end
 * is also looked at where something has changed: others may keep the file busy for ever. */
static int go_on(struct opened_file *file, uint32_t code, call_of *call, void *with, const struct timespec *end) {
    for (; code == WAITS; code = call(file, with)) {
        int wrong = end == NULL ? 0 : test_end(end);
        if (wrong != 0)
            return wrong;
        lock_wait(&file->lock, end);
    }
    int wrong = error_of(code);
    return wrong == EINTR ? why(wrong, "the call would wait, and msgq_stop has ended all waits") : wrong;
}

/* Makes a call, which may wait. */
static inline int serve(struct opened_file *file, call_of *call, void *with, const struct timespec *end) {
    uint32_t code = call(file, with);
    return code == DONE ? 0 : go_on(file, code, call, with, end);
}

/* ---- calls */

static int get(msgq *queues, struct get_call *call, uint32_t *id) {
    struct opened_file *file = opened_of(queues);
    call->moment = moment();
    int wrong = enter(file, NULL);
    return wrong != 0 ? wrong : leave_changed(file, error_of(msgq_session_get(&file->session, call, id)));
}

static uint32_t send_now(struct opened_file *file, void *with) {
    struct sending *it = with;
    return msgq_session_send(&file->session, &it->call, it->body, it->length, &it->serial);
}

static int send(msgq *queues, struct sending *it, const struct timespec *end) {
    struct opened_file *file = opened_of(queues);
    it->call.moment = moment();
    int wrong = enter(file, end);
    if (wrong != 0)
        return wrong;
    wrong = serve(file, send_now, it, end);
    if (wrong != 0)
        it->serial = 0;
    if (wrong == EAGAIN || wrong == ETIMEDOUT)
        it->has_met = msgq_session_stat(&file->session, it->call.id, &it->met) == DONE;
    return leave_changed(file, wrong);
}

static int send_all(msgq *queues, struct sending *all, size_t count) {
    int wrong = 0;
    for (size_t n = 0; wrong == 0 && n < count; n++)
        wrong = send(queues, &all[n], NULL);
    return wrong;
}

static uint32_t receive_now(struct opened_file *file, void *with) {
    struct receiving *it = with;
    return msgq_session_receive(&file->session, &it->call, it->room, it->size, &it->got);
}

static int receive(msgq *queues, struct receiving *it, const struct timespec *end) {
    struct opened_file *file = opened_of(queues);
    it->call.moment = moment();
    int wrong = enter(file, end);
    return wrong != 0 ? wrong : leave_changed(file, serve(file, receive_now, it, end));
}

/* Only a server holds what somebody else may lose. */
static int no_server(const msgq *queues) {
    return fails(why(ENOTSUP, "the file is opened, and a server alone reserves: msgq_connect or msgq_attach"), queues->name,
                 "the call is not made");
}

static int reserve(msgq *queues, struct receiving *it, const struct timespec *end) {
    (void)it;
    (void)end;
    return no_server(queues);
}

static int settle(msgq *queues, uint32_t holding, bool is_done) {
    (void)holding;
    (void)is_done;
    return no_server(queues);
}

static int stat(msgq *queues, uint32_t id, struct info *info) {
    struct opened_file *file = opened_of(queues);
    int wrong = enter(file, NULL);
    return wrong != 0 ? wrong : leave(file, error_of(msgq_session_stat(&file->session, id, info)));
}

static int set(msgq *queues, struct set_call *call) {
    struct opened_file *file = opened_of(queues);
    call->moment = moment();
    int wrong = enter(file, NULL);
    return wrong != 0 ? wrong : leave_changed(file, error_of(msgq_session_set(&file->session, call)));
}

static int remove_queue(msgq *queues, uint32_t id) {
    struct opened_file *file = opened_of(queues);
    int wrong = enter(file, NULL);
    return wrong != 0 ? wrong : leave_changed(file, error_of(msgq_session_remove(&file->session, id)));
}

/* The next id above one whose queue is alive; 0 and ENOENT where there is none. */
static int next_alive(struct opened_file *file, uint32_t after, uint32_t *id) {
    struct info info;
    for (uint32_t next = after; next < UINT32_MAX;) {
        int wrong = error_of(msgq_session_stat(&file->session, ++next, &info));
        if (wrong == EIDRM)
            continue;
        /* An id that was never given: there is none behind it. A queue that may not be read is one. */
        if (wrong == EINVAL)
            break;
        if (wrong == 0 || wrong == EACCES) {
            *id = next;
            return 0;
        }
        return wrong;
    }
    return ENOENT;
}

static int list(msgq *queues, uint32_t after, uint32_t *id) {
    struct opened_file *file = opened_of(queues);
    int wrong = enter(file, NULL);
    return wrong != 0 ? wrong : leave(file, next_alive(file, after, id));
}

const struct calls OPENED_CALLS = {
    .get = get, .send = send, .send_all = send_all, .receive = receive, .reserve = reserve, .settle = settle,
    .stat = stat, .set = set, .remove = remove_queue, .list = list,
    .save = opened_save, .note = opened_note, .stop = opened_stop, .close = opened_close, .abandon = opened_abandon,
};
