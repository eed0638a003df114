/* libmsgq: a file that is open, in memory between saves. */
#include "store.h"
#include "../msgq.h"

static void *open_msgq(const char *path, uint32_t pages) {
    msgq *it = NULL;
    must(msgq_create(path, pages) == 0 && msgq_open(path, &it) == 0, msgq_reason());
    return it;
}

static uint32_t get(void *it) {
    uint32_t id;
    must(msgq_get(it, MSGQ_PRIVATE, 0600, &id) == 0, msgq_reason());
    return id;
}

static int send(void *it, uint32_t id, int64_t type, const void *body, size_t length, uint64_t *serial) {
    int wrong = msgq_send(it, id, type, body, length, MSGQ_NOWAIT, NULL);
    *serial = msgq_last_serial();
    return wrong;
}

static int receive(void *it, uint32_t id, int64_t type, void *room, size_t size, struct answer *answer) {
    struct msgq_message got;
    int wrong = msgq_receive(it, id, type, room, size, MSGQ_NOWAIT, NULL, &got);
    if (wrong == 0)
        *answer = (struct answer){got.type, got.serial, got.length};
    return wrong;
}

static void close_msgq(void *it) {
    must(msgq_abandon(it) == 0, msgq_reason());
}

const struct store STORE_MSGQ = {"libmsgq", open_msgq, get, send, receive, close_msgq};
