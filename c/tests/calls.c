/* Each call and each refusal once; what is expected stands in docs/QUEUES.md and in msgq.h. */
#include "../msgq.h"

#include <errno.h>
#include <fcntl.h>
#include <pthread.h>
#include <stdatomic.h>
#include <stdio.h>
#include <stdlib.h>
#include <string.h>
#include <sys/syscall.h>
#include <sys/wait.h>
#include <unistd.h>

static int passed, failed;

static void is(long long found, long long expected, const char *what) {
    if (found == expected) {
        passed++;
        return;
    }
    failed++;
    fprintf(stderr, "%s: %lld, not %lld\n", what, found, expected);
}

static const struct timespec SOON = {0, 20000000}, NOW = {0, 0};

static void refusals(msgq *queues, uint32_t id) {
    uint8_t room[MSGQ_MAX_BODY + 1] = {0};
    uint32_t other;
    struct msgq_info info;
    struct msgq_change change = {.qbytes = 65537, .uid = -1, .gid = -1, .mode = -1};
    is(msgq_get(queues, 5, 0, &other), ENOENT, "a key without a queue");
    is(msgq_get(queues, 7, MSGQ_CREATE | MSGQ_EXCLUSIVE | 0600, &other), EEXIST, "a key that has one");
    is(msgq_get(queues, (int64_t)1 << 32, MSGQ_CREATE, &other), EINVAL, "a key that is none");
    is(msgq_get(queues, 7, 1 << 20, &other), EINVAL, "a flag that is none");
    is(msgq_send(queues, id, 0, "x", 1, 0, NULL), EINVAL, "a type below 1");
    is(msgq_send(queues, id, 1, room, sizeof room, 0, NULL), EINVAL, "a body that is too long");
    is(msgq_send(queues, 99, 1, "x", 1, 0, NULL), EINVAL, "an id that was never given");
    is(msgq_send(queues, id, 1, NULL, 1, 0, NULL), EINVAL, "no body");
    is(msgq_receive(queues, id, 0, room, sizeof room, MSGQ_NOWAIT, NULL, NULL), ENOMSG, "no message");
    is(msgq_receive(queues, id, 0, room, sizeof room, 0, &SOON, NULL), ETIMEDOUT, "a wait that ends");
    is(msgq_receive(queues, id, 0, room, sizeof room, 0, &NOW, NULL), ETIMEDOUT, "a wait of no time");
    is(msgq_set(queues, id, &change), EINVAL, "qbytes above the limit");
    is(msgq_stat(queues, 0, &info), EINVAL, "id 0");
    is(msgq_stat(queues, id, NULL), EINVAL, "no room for what is known");
    change.qbytes = 1;
    is(msgq_get(NULL, 7, 0, &other), EINVAL, "no queues");
    is(msgq_send(NULL, id, 1, "x", 1, 0, NULL), EINVAL, "no queues");
    is(msgq_receive(NULL, id, 0, room, sizeof room, 0, &SOON, NULL), EINVAL, "no queues");
    is(msgq_stat(NULL, id, &info), EINVAL, "no queues");
    is(msgq_set(NULL, id, &change), EINVAL, "no queues");
    is(msgq_remove(NULL, id), EINVAL, "no queues");
    is(msgq_list(NULL, id, &other), EINVAL, "no queues");
    is(msgq_save(NULL), EINVAL, "no queues");
    is(msgq_note(NULL), EINVAL, "no queues");
    is(msgq_stop(NULL), EINVAL, "no queues");
    is(msgq_close(NULL), EINVAL, "no queues");
    is(msgq_abandon(NULL), EINVAL, "no queues");
    is(msgq_open(NULL, NULL), EINVAL, "no name");
    is(msgq_create(NULL, 352), EINVAL, "no name");
}

/* A number is never cut to one of another queue, type, user or mode. */
static void numbers_stay(msgq *queues, uint32_t id) {
    char room[4];
    uint32_t other = 0;
    struct msgq_info info;
    struct msgq_change change = {.qbytes = 16384, .uid = -2, .gid = -1, .mode = -1};
    is(msgq_get(queues, ((int64_t)1 << 32) + 7, 0, &other), EINVAL, "a key of 33 bits");
    is(msgq_get(queues, INT64_MIN, MSGQ_CREATE, &other), EINVAL, "the least key");
    is(msgq_set(queues, id, &change), EINVAL, "a user below -1");
    change = (struct msgq_change){.qbytes = 16384, .uid = -1, .gid = (int64_t)1 << 32, .mode = -1};
    is(msgq_set(queues, id, &change), EINVAL, "a group of 33 bits");
    change = (struct msgq_change){.qbytes = 16384, .uid = -1, .gid = -1, .mode = 0x10000};
    is(msgq_set(queues, id, &change), EINVAL, "a mode of 17 bits");
    is(msgq_send(queues, id, INT64_MAX, "most", 4, 0, NULL), 0, "the greatest type");
    is(msgq_receive(queues, id, 5, room, SIZE_MAX, MSGQ_NOWAIT, NULL, NULL), ENOMSG, "another type");
    struct msgq_message got;
    is(msgq_receive(queues, id, INT64_MIN, room, SIZE_MAX, MSGQ_NOWAIT, NULL, &got), 0, "the lowest type, and more room than there can be");
    is(got.type, INT64_MAX, "its type");
    change = (struct msgq_change){.qbytes = 16384, .uid = UINT32_MAX, .gid = UINT32_MAX, .mode = 0};
    is(msgq_get(queues, UINT32_MAX, MSGQ_CREATE | 0600, &other), 0, "the greatest key");
    is(msgq_set(queues, other, &change), 0, "the greatest user and group");
    is(msgq_stat(queues, other, &info), 0, "stat");
    is(info.key, UINT32_MAX, "its key");
    is(info.uid, UINT32_MAX, "its user");
    is(info.gid, UINT32_MAX, "its group");
    is(msgq_remove(queues, other), 0, "remove");
}

static void a_message_comes_and_goes(msgq *queues, uint32_t id) {
    char room[8] = "";
    struct msgq_message got;
    struct msgq_info info;
    is(msgq_send(queues, id, 3, "third", 5, 0, NULL), 0, "send");
    is(msgq_send(queues, id, 2, "second", 6, 0, NULL), 0, "send");
    is(msgq_send(queues, id, 4, NULL, 0, 0, NULL), 0, "send of no byte");
    is(msgq_stat(queues, id, &info), 0, "stat");
    is(info.qnum, 3, "qnum");
    is(info.cbytes, 11, "cbytes");
    is(info.qbytes, 16384, "qbytes");
    is(info.key, 7, "key");
    is(info.mode, 0600, "mode");
    is(info.lspid, getpid(), "lspid");
    is(info.uid, geteuid(), "uid");
    is(msgq_receive(queues, id, -3, room, 3, 0, NULL, &got), E2BIG, "a message that is too long");
    is(msgq_receive(queues, id, -3, room, 3, MSGQ_NOERROR, NULL, &got), 0, "one that is cut");
    is(got.length, 3, "its length");
    is(memcmp(room, "sec", 3), 0, "its bytes");
    is(got.serial, 3, "its serial");
    is(got.type, 2, "its type");
    is(msgq_receive(queues, id, 3, room, sizeof room, 0, NULL, &got), 0, "one of a type");
    is(memcmp(room, "third", 5), 0, "its bytes");
    is(got.sender, getpid(), "its sender");
    is(msgq_receive(queues, id, 0, NULL, 0, 0, NULL, NULL), 0, "one of no byte");
}

/* Several at once, up to the first that is refused. */
static void several(msgq *queues) {
    char long_one[MSGQ_MAX_BODY + 1] = "", room[8];
    struct msgq_outgoing all[40];
    struct msgq_message got;
    struct msgq_change change = {.qbytes = 34, .uid = -1, .gid = -1, .mode = -1};
    uint32_t id;
    is(msgq_get(queues, MSGQ_PRIVATE, 0600, &id), 0, "a queue");
    is(msgq_set(queues, id, &change), 0, "its limit");
    for (int n = 0; n < 40; n++)
        all[n] = (struct msgq_outgoing){n + 1, "x", 1, 77};
    is(msgq_send_all(queues, id, all, 40), EAGAIN, "forty, of which 34 have room");
    is(strstr(msgq_reason(), "its messages have 34 of 34 bytes, and this one 1") != NULL, 1, "why");
    is((long long)all[33].serial, 34, "the last that has");
    is((long long)all[34].serial, 0, "the first that has not");
    is((long long)all[39].serial, 0, "the last that has not");
    is((long long)msgq_last_serial(), 34, "the last serial");
    is(msgq_receive(queues, id, 0, room, sizeof room, 0, NULL, &got), 0, "the first");
    is(got.type == 1 && got.serial == 1, 1, "what it is");
    is(msgq_send_all(queues, id, all, 1), 0, "one");
    is((long long)all[0].serial, 35, "its serial");
    is(msgq_send_all(queues, id, NULL, 0), 0, "none");
    is(msgq_send_all(queues, id, NULL, 1), EINVAL, "no messages");
    is(msgq_send_all(NULL, id, all, 1), EINVAL, "no file");
    all[1].body = NULL;
    is(msgq_send_all(queues, id, all, 2), EINVAL, "no body");
    all[1] = (struct msgq_outgoing){1, long_one, sizeof long_one, 77};
    is(msgq_send_all(queues, id, all, 2), EINVAL, "a body that is too long");
    is((long long)(all[0].serial + all[1].serial), 0, "nothing was put");
    all[1] = (struct msgq_outgoing){0, NULL, 0, 77};
    is(msgq_receive(queues, id, 0, room, sizeof room, 0, NULL, &got), 0, "one more");
    is(msgq_send_all(queues, id, all, 2), EINVAL, "a type that is none");
    is(all[0].serial == 36 && all[1].serial == 0, 1, "the one before it was put");
    is(msgq_remove(queues, id), 0, "its queue");
}

static void lists(msgq *queues, uint32_t id) {
    uint32_t first, second, found;
    struct msgq_change change = {.qbytes = 4, .uid = -1, .gid = -1, .mode = 0640};
    struct msgq_info info;
    is(msgq_get(queues, MSGQ_PRIVATE, 0600, &first), 0, "a private queue");
    is(msgq_get(queues, MSGQ_PRIVATE, 0600, &second), 0, "another");
    is(msgq_stat(queues, second, &info), 0, "stat of a private queue");
    is(info.key, MSGQ_PRIVATE, "its key");
    is(msgq_remove(queues, first), 0, "remove");
    is(msgq_stat(queues, first, &info), EIDRM, "a queue that was removed");
    is(msgq_list(queues, 0, &found), 0, "the first queue");
    is(found, id, "its id");
    is(msgq_list(queues, id, &found), 0, "the next queue");
    is(found, second, "its id");
    is(msgq_list(queues, second, &found), ENOENT, "no queue behind it");
    is(msgq_set(queues, second, &change), 0, "set");
    is(msgq_stat(queues, second, &info), 0, "stat");
    is(info.qbytes, 4, "qbytes");
    is(info.mode, 0640, "mode");
    is(msgq_send(queues, second, 1, "12345", 5, MSGQ_NOWAIT, NULL), EAGAIN, "no room");
    is(msgq_send(queues, second, 1, "12345", 5, 0, &SOON), ETIMEDOUT, "a wait for room that ends");
}

/* The thread that is about to receive, or 0. */
static atomic_int receiver;

static void *waits(void *with) {
    char room[1];
    atomic_store(&receiver, (int)syscall(SYS_gettid));
    return (void *)(size_t)msgq_receive(with, 1, 0, room, sizeof room, 0, NULL, NULL);
}

/* Nobody else has the lock meanwhile, so it sleeps only where it waits for a message. */
static int sleeps(int thread) {
    char path[64], text[512] = "";
    snprintf(path, sizeof path, "/proc/self/task/%d/stat", thread);
    FILE *file = fopen(path, "r");
    if (file == NULL)
        return 0;
    size_t had = fread(text, 1, sizeof text - 1, file);
    fclose(file);
    text[had] = '\0';
    const char *end = strrchr(text, ')');
    return end != NULL && end[1] == ' ' && end[2] == 'S';
}

/* Waits until a receiver sleeps: the file can't be closed then. */
static void closing_is_refused(msgq *queues) {
    for (int n = 0; n < 20000 && (receiver == 0 || !sleeps(receiver)); n++) {
        struct timespec pause = {0, 1000000};
        nanosleep(&pause, NULL);
    }
    int told = msgq_abandon(queues);
    is(told, EBUSY, "a close while a call waits");
    if (told == 0)
        exit(1);
}

static void a_stop_ends_waits(msgq *queues) {
    pthread_t thread;
    void *told;
    pthread_create(&thread, NULL, waits, queues);
    closing_is_refused(queues);
    is(msgq_stop(queues), 0, "stop");
    pthread_join(thread, &told);
    is((long long)(size_t)told, EINTR, "a wait that is stopped");
}

/* The bytes that this process has handed to the system to be written. */
static long long written(void) {
    long long count = 0;
    char line[64];
    FILE *file = fopen("/proc/self/io", "r");
    if (file == NULL)
        return 0;
    while (fgets(line, sizeof line, file) != NULL)
        if (sscanf(line, "wchar: %lld", &count) == 1)
            break;
    fclose(file);
    return count;
}

/* A page that has changed is written twice, once as it was. */
static void a_save_writes_what_has_changed(msgq *queues, uint32_t id) {
    is(msgq_save(queues), 0, "save");
    long long before = written();
    is(msgq_save(queues), 0, "a save of nothing");
    is(written() - before, 0, "what it writes");
    is(msgq_send(queues, id, 1, "one", 3, 0, NULL), 0, "send");
    before = written();
    is(msgq_save(queues), 0, "a save of one message");
    long long pages = (written() - before) / 4096;
    is(pages >= 2 && pages < 20, before > 0, "pages that it writes");
    before = written();
    is(msgq_save(queues), 0, "a save of nothing more");
    is(written() - before, 0, "what it writes");
    is(msgq_receive(queues, id, 0, NULL, 0, MSGQ_NOERROR, NULL, NULL), 0, "receive");
}

static void a_child_is_refused(msgq *queues) {
    int status = -1;
    pid_t child = fork();
    if (child == 0) {
        uint32_t id;
        _exit(msgq_get(queues, 7, 0, &id) == ENOTSUP && msgq_close(queues) == ENOTSUP ? 0 : 1);
    }
    waitpid(child, &status, 0);
    is(status, 0, "the child of a fork");
}

static void files(const char *path, const char *other) {
    msgq *queues, *again;
    int file = open(other, O_RDWR | O_CREAT, 0600);
    is(write(file, "no pages", 8), 8, "a file that is none");
    close(file);
    is(msgq_open(other, &queues), EBADMSG, "a file that is cut");
    is(msgq_last_fault(), 22, "its fault");
    is(msgq_open("/", &queues), EISDIR, "a folder");
    is(msgq_open("no such file", &queues), ENOENT, "no file");
    is(msgq_create(path, 352), EEXIST, "a file that is there");
    is(msgq_create(other, 3), EINVAL, "too few pages");
    is(msgq_open(path, &queues), 0, "open");
    is(msgq_open(path, &again), EBUSY, "a file that is open");
    is(msgq_close(queues), 0, "close");
}

int main(int argc, char **argv) {
    msgq *queues;
    uint32_t id = 0;
    struct msgq_info info;
    if (argc < 3)
        return 2;
    is(msgq_create(argv[1], 352), 0, "create");
    files(argv[1], argv[2]);
    is(msgq_open(argv[1], &queues), 0, "open");
    is(msgq_get(queues, 7, MSGQ_CREATE | 0600, &id), 0, "get");
    is(id, 1, "the first id");
    refusals(queues, id);
    numbers_stay(queues, id);
    a_message_comes_and_goes(queues, id);
    lists(queues, id);
    several(queues);
    a_child_is_refused(queues);
    a_save_writes_what_has_changed(queues, id);
    is(msgq_send(queues, id, 1, "kept", 4, 0, NULL), 0, "send");
    is(msgq_save(queues), 0, "save");
    is(msgq_send(queues, id, 1, "lost", 4, 0, NULL), 0, "send");
    is(msgq_abandon(queues), 0, "abandon");
    is(msgq_open(argv[1], &queues), 0, "open what was saved");
    is(msgq_stat(queues, id, &info), 0, "stat");
    is(info.qnum, 1, "what was saved");
    is(msgq_receive(queues, id, 0, NULL, 0, MSGQ_NOERROR, NULL, NULL), 0, "receive");
    a_stop_ends_waits(queues);
    is(msgq_close(queues), 0, "close");
    printf("%d passed, %d failed\n", passed, failed);
    return failed > 0;
}
