/* The system's own queues (SysV), in the kernel. They tell no serial, and have ENOMSG, EAGAIN and E2BIG by errno. */
#include "store.h"

#include <errno.h>
#include <stdlib.h>
#include <string.h>
#include <sys/ipc.h>
#include <sys/msg.h>

enum { MOST_QUEUES = 256 };

/* They outlast the process where nobody removes them. */
static struct {
    int ids[MOST_QUEUES];
    uint32_t count;
} made;

static void remove_all(void) {
    while (made.count > 0)
        (void)msgctl(made.ids[--made.count], IPC_RMID, NULL);
}

struct text {
    long type;
    char body[MOST_BODY];
};

static void *open_system(const char *path, uint32_t pages) {
    static bool is_begun;
    (void)path;
    (void)pages;
    int id = msgget(IPC_PRIVATE, 0600);
    if (id < 0)
        return NULL;
    (void)msgctl(id, IPC_RMID, NULL);
    must(is_begun || atexit(remove_all) == 0, "msgsnd: an exit");
    is_begun = true;
    return &made;
}

static uint32_t get(void *it) {
    struct msqid_ds known;
    (void)it;
    must(made.count < MOST_QUEUES, "msgsnd: too many queues");
    int id = msgget(IPC_PRIVATE, 0600);
    must(id >= 0, "msgsnd: a queue");
    made.ids[made.count++] = id;
    must(msgctl(id, IPC_STAT, &known) == 0, "msgsnd: a stat");
    known.msg_qbytes = QBYTES;
    must(msgctl(id, IPC_SET, &known) == 0, "msgsnd: a size");
    return (uint32_t)id;
}

static int send(void *it, uint32_t id, int64_t type, const void *body, size_t length, uint64_t *serial) {
    struct text text;
    (void)it;
    *serial = 0;
    text.type = type;
    memcpy(text.body, body, length);
    return msgsnd((int)id, &text, length, IPC_NOWAIT) == 0 ? 0 : errno;
}

static int receive(void *it, uint32_t id, int64_t type, void *room, size_t size, struct answer *answer) {
    struct text text;
    (void)it;
    ssize_t length = msgrcv((int)id, &text, size, type, IPC_NOWAIT);
    if (length < 0)
        return errno;
    *answer = (struct answer){text.type, 0, (size_t)length};
    memcpy(room, text.body, (size_t)length);
    return 0;
}

static void close_system(void *it) {
    (void)it;
    remove_all();
}

const struct store STORE_SYSTEM = {"msgsnd", open_system, get, send, receive, close_system};
