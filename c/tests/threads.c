/* Eight threads on one file: four send, four receive, each message once; the file is saved in between. With a second argument
 * each sender sends so many messages. */
#include "../msgq.h"

#include <errno.h>
#include <pthread.h>
#include <stdio.h>
#include <stdlib.h>
#include <string.h>

enum { SENDERS = 4, RECEIVERS = 4 };

static msgq *queues;
static uint32_t id;
static unsigned each;
static int failed;

static void must(int wrong, int expected, const char *what) {
    if (wrong != expected) {
        fprintf(stderr, "%s: %d (%s), not %d\n", what, wrong, strerror(wrong), expected);
        __atomic_store_n(&failed, 1, __ATOMIC_RELAXED);
    }
}

static void *sends(void *with) {
    unsigned self = (unsigned)(size_t)with;
    for (unsigned n = 0; n < each; n++) {
        unsigned body[2] = {self, n};
        must(msgq_send(queues, id, 1 + self, body, sizeof body, 0, NULL), 0, "send");
        if (n % 1000 == 999)
            must(msgq_save(queues), 0, "save");
    }
    return NULL;
}

/* What one receiver got: of each sender, ascending. */
static void *receives(void *with) {
    unsigned *count = with, last[SENDERS] = {0};
    for (;;) {
        unsigned body[2];
        struct msgq_message got;
        int wrong = msgq_receive(queues, id, 0, body, sizeof body, 0, NULL, &got);
        if (wrong == EINTR)
            return NULL;
        must(wrong, 0, "receive");
        if (wrong != 0 || body[0] >= SENDERS || got.type != 1 + body[0] || got.length != sizeof body
            || body[1] + 1 <= last[body[0]]) {
            fprintf(stderr, "a message that was not sent, or out of order\n");
            failed = 1;
            return NULL;
        }
        last[body[0]] = body[1] + 1;
        ++*count;
    }
}

int main(int argc, char **argv) {
    pthread_t threads[SENDERS + RECEIVERS];
    unsigned counts[RECEIVERS] = {0}, total = 0;
    struct msgq_info info;
    if (argc < 2)
        return 2;
    each = argc > 2 ? (unsigned)atoi(argv[2]) : 12500;
    must(msgq_create(argv[1], 352), 0, "create");
    must(msgq_open(argv[1], &queues), 0, "open");
    if (failed)
        return 1;
    must(msgq_get(queues, 7, MSGQ_CREATE | 0600, &id), 0, "get");
    for (unsigned n = 0; n < RECEIVERS; n++)
        pthread_create(&threads[n], NULL, receives, &counts[n]);
    for (unsigned n = 0; n < SENDERS; n++)
        pthread_create(&threads[RECEIVERS + n], NULL, sends, (void *)(size_t)n);
    for (unsigned n = 0; n < SENDERS; n++)
        pthread_join(threads[RECEIVERS + n], NULL);
    do
        must(msgq_stat(queues, id, &info), 0, "stat");
    while (info.qnum > 0 && !failed);
    must(msgq_stop(queues), 0, "stop");
    for (unsigned n = 0; n < RECEIVERS; n++) {
        pthread_join(threads[n], NULL);
        total += counts[n];
    }
    if (total != SENDERS * each) {
        fprintf(stderr, "%u messages of %u\n", total, SENDERS * each);
        failed = 1;
    }
    must(msgq_send(queues, id, 9, "left", 4, MSGQ_NOWAIT, NULL), 0, "the last send");
    must(msgq_close(queues), 0, "close");
    return failed;
}
