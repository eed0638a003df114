/* The calls of msgq.h on a file that is served; what is expected stands there and in docs/QUEUES.md. Run with the program that serves, the
 * path of a new file, and the path of one more. */
#include "../msgq.h"

#include <errno.h>
#include <pthread.h>
#include <signal.h>
#include <stdbool.h>
#include <stdio.h>
#include <stdlib.h>
#include <string.h>
#include <sys/time.h>
#include <sys/wait.h>
#include <unistd.h>

static int passed, failed;
static const char *program, *path;
static char socket_path[4100];

static void is(long long found, long long expected, const char *what) {
    if (found == expected) {
        passed++;
        return;
    }
    failed++;
    fprintf(stderr, "%s: %lld, not %lld (%s)\n", what, found, expected, msgq_reason());
}

/* Whether the sentence is that of a path, and these words. */
static void says(int told, int wrong, const char *name, const char *words) {
    char whole[5000];
    snprintf(whole, sizeof whole, "%s: %s", name, words);
    is(told, wrong, words);
    is(strcmp(msgq_reason(), whole), 0, whole);
}

/* ---- the server */

static pid_t server;

/* Starts it, and waits until it serves. */
static void serve(void) {
    int ends[2];
    char said[8192];
    if (pipe(ends) != 0)
        exit(2);
    server = fork();
    if (server == 0) {
        dup2(ends[1], 1);
        close(ends[0]);
        close(ends[1]);
        execl(program, program, "serve", path, (char *)NULL);
        _exit(127);
    }
    close(ends[1]);
    ssize_t count = read(ends[0], said, sizeof said - 1);
    close(ends[0]);
    said[count < 0 ? 0 : count] = '\0';
    is(strncmp(said, "serving ", 8), 0, "it serves");
}

static int ends(int by) {
    int status = -1;
    kill(server, by);
    waitpid(server, &status, 0);
    return status;
}

static msgq *attached(void) {
    msgq *queues = NULL;
    is(msgq_attach(path, &queues), 0, "attach");
    if (queues == NULL)
        exit(1);
    return queues;
}

/* ---- handles */

static void without_server(void) {
    msgq *queues = NULL;
    char room[MSGQ_MAX_BODY];
    uint32_t holding;
    says(msgq_connect(socket_path, &queues), ENOENT, socket_path, "it can't be connected to: nobody serves it");
    says(msgq_connect(path, &queues), ECONNREFUSED, path, "it can't be connected to: nobody serves it");
    is(msgq_connect(NULL, &queues), EINVAL, "no name");
    is(msgq_connect(socket_path, NULL), EINVAL, "no room for the handle");
    is(msgq_attach(NULL, &queues), EINVAL, "no name");
    is(msgq_attach("nothing.here", &queues), ENOENT, "no file");
    queues = attached();
    says(msgq_reserve(queues, 1, 0, room, sizeof room, 0, NULL, NULL, &holding), ENOTSUP, path,
         "the call is not made: the file is opened, and a server alone reserves: msgq_connect or msgq_attach");
    is(msgq_acknowledge(queues, 1), ENOTSUP, "acknowledge");
    is(msgq_release(queues, 1), ENOTSUP, "release");
    is(msgq_receive(queues, 9, 0, room, sizeof room, MSGQ_NOWAIT | MSGQ_AGAIN, NULL, NULL), EINVAL, "a flag that says nothing here");
    is(msgq_is_served(queues), 0, "a file that is opened");
    is(msgq_is_served(NULL), 0, "no file");
    is(msgq_abandon(queues), 0, "abandon");
}

static void handles(const char *other) {
    msgq *queues;
    is(symlink(path, other), 0, "a link");
    is(msgq_attach(other, &queues), 0, "a file by its link");
    is(msgq_is_served(queues), 1, "a file that is served");
    says(msgq_stop(queues), ENOTSUP, other, "it can't be stopped: a server is stopped by who has started it");
    is(msgq_save(queues), 0, "save");
    is(msgq_close(queues), 0, "close");
    unlink(other);
    int wrong = msgq_open(path, &queues);
    is(wrong, EBUSY, "a file that is served");
    if (wrong == 0)
        (void)msgq_abandon(queues);
    is(msgq_connect(socket_path, &queues), 0, "connect");
    is(strlen(msgq_reason()), 0, "nothing is said");
    is(msgq_abandon(queues), 0, "abandon");
}

/* ---- calls */

static void messages(msgq *queues, uint32_t id) {
    char room[MSGQ_MAX_BODY];
    struct msgq_message got;
    is(msgq_send(queues, id, 3, "third", 5, 0, NULL), 0, "send");
    is(msgq_send(queues, id, 2, "second", 6, 0, NULL), 0, "send");
    is(msgq_send(queues, id, 4, NULL, 0, 0, NULL), 0, "send of no byte");
    says(msgq_receive(queues, id, -3, room, 3, 0, NULL, &got), E2BIG, path,
         "queue @1: E2BIG: the message is longer than 3 bytes, and MSGQ_NOERROR is not given; it stays");
    is(msgq_receive(queues, id, -3, room, 3, MSGQ_NOERROR, NULL, &got), 0, "one that is cut");
    is(got.length == 3 && got.type == 2 && got.serial == 2 && memcmp(room, "sec", 3) == 0, 1, "what it is");
    is(msgq_receive(queues, id, 3, room, sizeof room, 0, NULL, &got), 0, "one of a type");
    is(got.length == 5 && got.type == 3 && got.sender == (uint32_t)getpid() && memcmp(room, "third", 5) == 0, 1, "what it is");
    is(msgq_receive(queues, id, 0, NULL, 0, 0, NULL, NULL), 0, "one of no byte");
    memset(room, 'x', sizeof room);
    is(msgq_send(queues, id, INT64_MAX, room, sizeof room, 0, NULL), 0, "the longest");
    is(msgq_receive(queues, id, INT64_MIN, room, SIZE_MAX, 0, NULL, &got), 0, "the longest, and more room than there can be");
    is(got.length == sizeof room && got.type == INT64_MAX, 1, "what it is");
    says(msgq_receive(queues, id, 0, room, sizeof room, MSGQ_NOWAIT, NULL, NULL), ENOMSG, path,
         "queue @1: ENOMSG: there is no message that the type selects");
    says(msgq_receive(queues, id, 0, room, sizeof room, 0, msgq_within(20), NULL), ETIMEDOUT, path,
         "queue @1: ETIMEDOUT: no message that the type selects came in time");
    says(msgq_send(queues, id, 0, "x", 1, 0, NULL), EINVAL, path, "queue @1: EINVAL: the type of a message is at least 1");
    says(msgq_send(queues, 99, 1, "x", 1, 0, NULL), EINVAL, path, "queue @99: EINVAL: no queue ever had this id");
}

static void queues_and_limits(msgq *queues, uint32_t id) {
    struct msgq_info info;
    struct msgq_change change = {.qbytes = 100, .uid = 77, .gid = 78, .mode = 0640};
    static const char body[61];
    uint32_t other, found;
    says(msgq_get(queues, 77, 0, &other), ENOENT, path, "queue 77: ENOENT: no queue has this key");
    says(msgq_get(queues, 7, MSGQ_CREATE | MSGQ_EXCLUSIVE | 0600, &other), EEXIST, path, "queue 7: EEXIST: the key has a queue");
    is(msgq_get(queues, MSGQ_PRIVATE, 0600, &other), 0, "a private queue");
    is(other, id + 1, "its id");
    is(msgq_set(queues, other, &change), 0, "set");
    is(msgq_stat(queues, other, &info), 0, "stat");
    is(info.id == other && info.key == MSGQ_PRIVATE && info.qbytes == 100 && info.mode == 0640, 1, "what it is");
    is(info.uid == 77 && info.gid == 78 && info.cuid == geteuid() && info.cgid == getegid(), 1, "whose it is");
    is(msgq_send(queues, other, 1, body, 40, MSGQ_NOWAIT, NULL), 0, "send");
    says(msgq_send(queues, other, 1, body, 61, MSGQ_NOWAIT, NULL), EAGAIN, path,
         "queue @2: EAGAIN: there is no room on it: its messages have 40 of 100 bytes, and this one 61; msgq_set raises the limit, up to "
         "65536");
    is(msgq_list(queues, 0, &found) == 0 && found == id, 1, "the first queue");
    is(msgq_list(queues, id, &found) == 0 && found == other, 1, "the next queue");
    says(msgq_list(queues, other, &found), ENOENT, path, "queue @2: ENOENT: no queue is alive behind it");
    is(msgq_remove(queues, other), 0, "remove");
    says(msgq_remove(queues, other), EIDRM, path, "queue @2: EIDRM: it was removed");
    is(msgq_stat(queues, id, &info), 0, "stat");
    is(info.key == 7 && info.lspid == (uint32_t)getpid() && info.lrpid == (uint32_t)getpid() && info.stime > 0, 1, "what it is");
}

static void reservations(msgq *queues, uint32_t id) {
    char room[MSGQ_MAX_BODY];
    struct msgq_message got;
    uint32_t holding, found;
    is(msgq_send(queues, id, 6, "a job", 5, 0, NULL), 0, "send");
    says(msgq_reserve(queues, id, 0, room, 1023, 0, NULL, &got, &holding), EINVAL, path,
         "queue @1: EINVAL: there is room for 1023 bytes, and a message may have 1024");
    is(msgq_reserve(queues, id, 0, room, sizeof room, 0, NULL, &got, NULL), EINVAL, "no room for what is held");
    is(msgq_reserve(queues, id, 0, NULL, sizeof room, 0, NULL, &got, &holding), EINVAL, "no room");
    is(msgq_reserve(queues, id, 0, room, sizeof room, MSGQ_NOERROR, NULL, &got, &holding), EINVAL, "a flag that is none");
    for (int n = 0; n < 2; n++) {
        is(msgq_reserve(queues, id, 0, room, sizeof room, 0, NULL, &got, &holding), 0, "reserve");
        is(got.length == 5 && got.type == 6 && memcmp(room, "a job", 5) == 0, 1, "what it is");
        is(msgq_list(queues, id, &found) == 0 && found == holding, 1, "a holding queue");
        says(msgq_reserve(queues, id, 0, room, sizeof room, MSGQ_NOWAIT, NULL, &got, &found), ENOMSG, path,
             "queue @1: ENOMSG: there is no message that the type selects");
        is(n == 0 ? msgq_release(queues, holding) : msgq_acknowledge(queues, holding), 0, "an end of it");
    }
    is(msgq_acknowledge(queues, holding), EINVAL, "what has ended");
    says(msgq_release(queues, id), EINVAL, path, "queue @1: EINVAL: no message is held by this id");
    is(msgq_reserve(queues, id, 0, room, sizeof room, 0, msgq_within(20), &got, &holding), ETIMEDOUT, "a wait that ends");
}

static msgq *shared;
static uint32_t queue;

static void *reserves(void *with) {
    char room[MSGQ_MAX_BODY];
    uint32_t holding;
    *(int *)with = msgq_reserve(shared, queue, 0, room, sizeof room, 0, NULL, NULL, &holding);
    return NULL;
}

/* What is held goes back where a thread or a process ends. */
static void hands(msgq *queues, uint32_t id) {
    pthread_t thread;
    int told, status;
    char room[MSGQ_MAX_BODY];
    uint32_t holding;
    shared = queues;
    queue = id;
    is(msgq_send(queues, id, 6, "a job", 5, 0, NULL), 0, "send");
    pthread_create(&thread, NULL, reserves, &told);
    pthread_join(thread, NULL);
    is(told, 0, "a thread reserves, and ends");
    pid_t child = fork();
    if (child == 0) {
        (void)reserves(&told);
        _exit(told);
    }
    waitpid(child, &status, 0);
    is(status, 0, "a child reserves, and ends");
    is(msgq_reserve(queues, id, 0, room, sizeof room, 0, NULL, NULL, &holding), 0, "reserve");
    is(msgq_acknowledge(queues, holding), 0, "acknowledge");
}

/* ---- waits, threads and processes */

static void on_alarm(int number) {
    (void)number;
}

static void signals(msgq *queues, uint32_t id) {
    const struct itimerval often = {{0, 20000}, {0, 20000}}, never = {{0, 0}, {0, 0}};
    struct sigaction act = {.sa_handler = on_alarm, .sa_flags = SA_RESTART};
    sigaction(SIGALRM, &act, NULL);
    setitimer(ITIMER_REAL, &often, NULL);
    says(msgq_receive(queues, id, 0, NULL, 0, 0, NULL, NULL), EINTR, path, "queue @1: EINTR: a signal has ended the wait");
    is(msgq_receive(queues, id, 0, NULL, 0, 0, msgq_within(10000), NULL), EINTR, "a wait with a limit");
    setitimer(ITIMER_REAL, &never, NULL);
}

/* Sends or receives numbers, one after the other, on a queue of few bytes, while a timer interrupts each wait: EINTR says that nothing was
 * done, so it is done again. */
static int counts(uint32_t id, bool sends) {
    const struct itimerval often = {{0, 1000}, {0, 1000}}, never = {{0, 0}, {0, 0}};
    int wrong = 0;
    setitimer(ITIMER_REAL, &often, NULL);
    for (unsigned n = 0; n < 300 && wrong == 0; n++) {
        unsigned body = n;
        do
            wrong = sends ? msgq_send(shared, id, 1, &body, sizeof body, 0, NULL)
                          : msgq_receive(shared, id, 0, &body, sizeof body, 0, n % 2 == 0 ? NULL : msgq_within(60000), NULL);
        while (wrong == EINTR);
        if (body != n)
            wrong = EPROTO;
    }
    setitimer(ITIMER_REAL, &never, NULL);
    return wrong;
}

static void storm(msgq *queues) {
    struct msgq_change change = {.qbytes = 3 * sizeof(unsigned), .uid = -1, .gid = -1, .mode = -1};
    uint32_t id;
    int status;
    is(msgq_get(queues, MSGQ_PRIVATE, 0600, &id) == 0 && msgq_set(queues, id, &change) == 0, 1, "a queue of few bytes");
    pid_t child = fork();
    if (child == 0)
        _exit(counts(id, true));
    is(counts(id, false), 0, "each message once, in order, in a storm of signals");
    waitpid(child, &status, 0);
    is(status, 0, "who has sent them");
    is(msgq_remove(queues, id), 0, "remove");
}

/* What one thread or process does: its messages go and come by a type of its own. */
static int works(int self) {
    for (unsigned n = 0; n < 100; n++) {
        unsigned body[2] = {(unsigned)self, n}, room[2] = {0, 0};
        struct msgq_message got;
        int wrong = msgq_send(shared, queue, 100 + self, body, sizeof body, 0, NULL);
        if (wrong == 0)
            wrong = msgq_receive(shared, queue, 100 + self, room, sizeof room, 0, NULL, &got);
        if (wrong != 0 || got.length != sizeof body || memcmp(body, room, sizeof body) != 0 || got.sender != (uint32_t)getpid())
            return wrong == 0 ? EPROTO : wrong;
    }
    return 0;
}

static void *thread_works(void *with) {
    int *told = with;
    *told = works(*told);
    return NULL;
}

static void many(void) {
    pthread_t threads[8];
    pid_t children[4];
    int told[8], status;
    for (int n = 0; n < 8; n++) {
        told[n] = n;
        pthread_create(&threads[n], NULL, thread_works, &told[n]);
    }
    for (int n = 0; n < 4; n++)
        if ((children[n] = fork()) == 0)
            _exit(works(20 + n));
    for (int n = 0; n < 8; n++) {
        pthread_join(threads[n], NULL);
        is(told[n], 0, "a thread");
    }
    for (int n = 0; n < 4; n++) {
        waitpid(children[n], &status, 0);
        is(status, 0, "a child");
    }
}

/* A thread that waits for a message. */
struct waiter {
    pthread_t thread;
    int flags, told;
};

static void *waits(void *with) {
    struct waiter *it = with;
    it->told = msgq_receive(shared, queue, 9, NULL, 0, it->flags, NULL, NULL);
    return NULL;
}

static void begin(struct waiter *it, int flags) {
    *it = (struct waiter){.flags = flags, .told = -1};
    pthread_create(&it->thread, NULL, waits, it);
    usleep(200000);
}

static int told(struct waiter *it) {
    pthread_join(it->thread, NULL);
    return it->told;
}

static void busy(msgq *queues, uint32_t id) {
    struct waiter waiter;
    begin(&waiter, 0);
    says(msgq_close(queues), EBUSY, path, "it can't be closed: 1 of its calls are under way");
    is(msgq_send(queues, id, 9, NULL, 0, 0, NULL), 0, "send");
    is(told(&waiter), 0, "who waits");
}

/* ---- a server that ends */

static void servers(msgq *queues, uint32_t id) {
    struct waiter first, second;
    begin(&first, 0);
    is(ends(SIGTERM), 0, "a server that is told to end");
    serve();
    is(msgq_send(queues, id, 9, NULL, 0, 0, NULL), 0, "send to the next server, of which nothing is seen");
    is(told(&first), 0, "who waits is asked again");
    begin(&first, 0);
    begin(&second, MSGQ_AGAIN);
    is(ends(SIGKILL), SIGKILL, "a server that is killed");
    is(told(&first), ECONNRESET, "who waits does not know");
    serve();
    is(msgq_send(queues, id, 9, NULL, 0, 0, NULL), 0, "send to the next server");
    is(told(&second), 0, "who wants it is asked again");
    is(ends(SIGTERM), 0, "a server that is told to end");
    says(msgq_save(queues), ENOTCONN, path, "the call is not made: nobody serves it");
    serve();
    is(msgq_save(queues), 0, "the next one");
}

int main(int argc, char **argv) {
    if (argc != 4)
        return 2;
    program = argv[1];
    path = argv[2];
    snprintf(socket_path, sizeof socket_path, "%s.socket", path);
    is(msgq_create(path, 300), 0, "create");
    without_server();
    serve();
    handles(argv[3]);
    msgq *queues = attached();
    uint32_t id;
    is(msgq_get(queues, 7, MSGQ_CREATE | 0600, &id) == 0 && id == 1, 1, "a queue");
    messages(queues, id);
    queues_and_limits(queues, id);
    reservations(queues, id);
    signals(queues, id);
    hands(queues, id);
    storm(queues);
    many();
    busy(queues, id);
    servers(queues, id);
    is(msgq_close(queues), 0, "close");
    is(ends(SIGTERM), 0, "the server");
    is(msgq_attach(path, &queues), 0, "the file, which is no longer served");
    is(msgq_list(queues, 0, &id), 0, "what was saved");
    is(msgq_abandon(queues), 0, "abandon");
    printf("%d passed, %d failed\n", passed, failed);
    return failed > 0;
}
