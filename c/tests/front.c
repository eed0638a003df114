/* Each call of the library and of the system that `msgq do` makes fails in turn: then no message is lost, none is
 * there twice, and what is in hand is given back. Run with the path of a new file. */
#include "../front/front.h"
#include "../front/jobs.h"
#include "../msgq.h"

#include <errno.h>
#include <fcntl.h>
#include <stdarg.h>
#include <stdbool.h>
#include <stdio.h>
#include <stdlib.h>
#include <string.h>
#include <sys/inotify.h>
#include <sys/stat.h>
#include <sys/wait.h>
#include <time.h>
#include <unistd.h>

static int passed, failed;

static void is(long long found, long long expected, const char *what) {
    if (found == expected) {
        passed++;
        return;
    }
    failed++;
    fprintf(stderr, "%s: %lld, not %lld\n", what, found, expected);
}

/* What was said last. */
static char said[2048];

void complain(const char *format, ...) {
    va_list words;
    va_start(words, format);
    (void)vsnprintf(said, sizeof said, format, words);
    va_end(words);
}

/* ---- calls that fail */

enum call {
    NONE,
    OPENING,
    GET,
    SEND,
    RECEIVE,
    STAT,
    SET,
    REMOVE,
    LIST,
    CLOSE,
    FCNTL,
    CLOCK,
    PIPE,
    FORK,
    NOTIFY,
    REALPATH,
    OPEN,
    CALLS
};

static const char *const names[] = {
    "none",     "msgq_open_wait", "msgq_get",      "msgq_send",  "msgq_receive", "msgq_stat",
    "msgq_set", "msgq_remove",    "msgq_list",     "msgq_close", "fcntl",        "clock_gettime",
    "pipe2",    "fork",           "inotify_init1", "realpath",   "open",
};

static enum call which;
static int when, seen, number;

static bool is_now(enum call call) {
    if (call != which || ++seen != when)
        return false;
    errno = number;
    return true;
}

#define WRAP(kind, name, call, fails, parameters, arguments) \
    kind __real_##name parameters; \
    kind __wrap_##name parameters; \
    kind __wrap_##name parameters { \
        return is_now(call) ? (fails) : __real_##name arguments; \
    }

WRAP(int, msgq_open_wait, OPENING, number, (const char *path, const struct timespec *limit, msgq **it),
     (path, limit, it))
WRAP(int, msgq_get, GET, number, (msgq * it, int64_t key, int flags, uint32_t *id), (it, key, flags, id))
WRAP(int, msgq_send, SEND, number,
     (msgq * it, uint32_t id, int64_t type, const void *body, size_t length, int flags, const struct timespec *limit),
     (it, id, type, body, length, flags, limit))
WRAP(int, msgq_receive, RECEIVE, number,
     (msgq * it, uint32_t id, int64_t type, void *room, size_t size, int flags, const struct timespec *limit,
      struct msgq_message *got),
     (it, id, type, room, size, flags, limit, got))
WRAP(int, msgq_stat, STAT, number, (msgq * it, uint32_t id, struct msgq_info *info), (it, id, info))
WRAP(int, msgq_set, SET, number, (msgq * it, uint32_t id, const struct msgq_change *change), (it, id, change))
WRAP(int, msgq_remove, REMOVE, number, (msgq * it, uint32_t id), (it, id))
WRAP(int, msgq_list, LIST, number, (msgq * it, uint32_t after, uint32_t *id), (it, after, id))
WRAP(int, msgq_close, CLOSE, number, (msgq * it), (it))
WRAP(int, clock_gettime, CLOCK, -1, (clockid_t clock, struct timespec *to), (clock, to))
WRAP(int, pipe2, PIPE, -1, (int *files, int flags), (files, flags))
WRAP(pid_t, fork, FORK, -1, (void), ())
WRAP(int, inotify_init1, NOTIFY, -1, (int flags), (flags))
WRAP(char *, realpath, REALPATH, NULL, (const char *path, char *to), (path, to))

int __real_fcntl(int file, int how, ...);
int __wrap_fcntl(int file, int how, ...);
int __wrap_fcntl(int file, int how, ...) {
    va_list rest;
    va_start(rest, how);
    void *with = va_arg(rest, void *);
    va_end(rest);
    return is_now(FCNTL) ? -1 : __real_fcntl(file, how, with);
}

int __real_open(const char *path, int flags, ...);
int __wrap_open(const char *path, int flags, ...);
int __wrap_open(const char *path, int flags, ...) {
    va_list rest;
    va_start(rest, flags);
    mode_t mode = (flags & O_CREAT) != 0 ? va_arg(rest, mode_t) : 0;
    va_end(rest);
    return is_now(OPEN) ? -1 : __real_open(path, flags, mode);
}

/* ---- files */

static const char *path;

static void must(int wrong, const char *what) {
    if (wrong != 0) {
        fprintf(stderr, "%s: %s: %s\n", what, strerror(wrong), msgq_reason());
        exit(2);
    }
}

static msgq *opened(void) {
    msgq *queues;
    must(msgq_open_wait(path, msgq_within(10000), &queues), "open");
    return queues;
}

static void forget(void) {
    static const char *const suffixes[] = {"", ".journal", ".held"};
    char name[4096];
    for (int at = 0; at < 3; at++) {
        snprintf(name, sizeof name, "%s%s", path, suffixes[at]);
        unlink(name);
    }
}

/* Makes the file with the messages `one` and `two` on the queue of key 7. */
static void begin(void) {
    uint32_t id;
    forget();
    must(msgq_create(path, 300), "create");
    msgq *queues = opened();
    must(msgq_get(queues, 7, MSGQ_CREATE | 0600, &id), "get");
    must(msgq_send(queues, id, 3, "one", 3, 0, NULL), "send");
    must(msgq_send(queues, id, 4, "two", 3, 0, NULL), "send");
    must(msgq_close(queues), "close");
}

/* Sets the limit of the queue of key 7. */
static void limit(uint32_t qbytes) {
    uint32_t id;
    msgq *queues = opened();
    must(msgq_get(queues, 7, 0, &id), "get");
    must(msgq_set(queues, id, &(struct msgq_change){qbytes, -1, -1, -1}), "set");
    must(msgq_close(queues), "close");
}

struct tally {
    int one, two;     /* on all queues */
    int right, hands; /* of these on the queue of key 7, with the type that they were sent with; private queues with
                         more than a label */
};

static void count(msgq *queues, uint32_t id, struct tally *it) {
    struct msgq_info info;
    struct msgq_message got;
    char body[MSGQ_MAX_BODY];
    must(msgq_stat(queues, id, &info), "stat");
    it->hands += info.key == MSGQ_PRIVATE && info.qnum > 1;
    while (msgq_receive(queues, id, 0, body, sizeof body, MSGQ_NOWAIT, NULL, &got) == 0) {
        bool is_one = got.length == 3 && memcmp(body, "one", 3) == 0,
             is_two = got.length == 3 && memcmp(body, "two", 3) == 0;
        it->one += is_one;
        it->two += is_two;
        it->right += info.key == 7 && ((is_one && got.type == 3) || (is_two && got.type == 4));
    }
}

/* Counts the messages, and leaves the file as it is. */
static struct tally tally(void) {
    struct tally it = {0, 0, 0, 0};
    uint32_t id = 0;
    msgq *queues = opened();
    while (msgq_list(queues, id, &id) == 0)
        count(queues, id, &it);
    must(msgq_abandon(queues), "abandon");
    return it;
}

/* Calls `msgq do` with these words. */
static int call(const char *const *words) {
    char *copies[16];
    int count = 0;
    for (; words[count] != NULL; count++)
        copies[count] = strdup(words[count]);
    copies[count] = NULL;
    said[0] = '\0';
    int status = do_run(count, copies);
    while (count-- > 0)
        free(copies[count]);
    return status;
}

static int do_with(const char *command) {
    return call((const char *[]){path, "7", "--", "/bin/sh", "-c", command, NULL});
}

static int recover(void) {
    fflush(stdout);
    int out = dup(1), nothing = __real_open("/dev/null", O_WRONLY);
    dup2(nothing, 1);
    int status = call((const char *[]){"--recover", path, NULL});
    fflush(stdout);
    dup2(out, 1);
    close(out);
    close(nothing);
    return status;
}

/* A worker takes `one` and is killed. */
static void die_in_hand(void) {
    int status = 0;
    pid_t child = fork();
    if (child == 0)
        _exit(do_with("kill -KILL $PPID; sleep 10"));
    waitpid(child, &status, 0);
    is(WIFSIGNALED(status), true, "a worker is killed");
    is(tally().hands, 1, "its job is in hand");
}

/* ---- what happens while calls fail */

enum deed { SUCCEEDS, FAILS, SUCCEEDS_BEHIND, RECOVERS, FULL };

static const char *const deeds[] = {"done", "not done", "done behind a dead worker", "recovered",
                                    "recovered where there is no room"};

/* What the file has before a deed. */
static char *bytes;
static size_t size;

static void prepare(enum deed deed) {
    struct stat found;
    begin();
    if (deed == SUCCEEDS_BEHIND || deed == RECOVERS || deed == FULL)
        die_in_hand();
    if (deed == FULL)
        limit(4);
    FILE *file = fopen(path, "r");
    must(file == NULL || fstat(fileno(file), &found) != 0 ? errno : 0, "read");
    size = (size_t)found.st_size;
    bytes = malloc(size);
    must(bytes == NULL || fread(bytes, 1, size, file) != size ? EIO : 0, "read");
    fclose(file);
}

static void put_back(void) {
    FILE *file = fopen(path, "r+");
    must(file == NULL || fwrite(bytes, 1, size, file) != size || fclose(file) != 0 ? EIO : 0, "write");
}

static int act(enum deed deed) {
    return deed == FAILS ? do_with("false") : deed == RECOVERS || deed == FULL ? recover() : do_with("true");
}

/* One call of a kind fails; says whether it was come to. */
static bool fails_once(enum deed deed, enum call call, int at, int wrong) {
    char what[160];
    snprintf(what, sizeof what, "%s, where call %d of %s fails", deeds[deed], at, names[call]);
    put_back();
    which = call, when = at, seen = 0, number = wrong;
    int status = act(deed);
    bool was = seen >= when;
    which = NONE;
    struct tally now = tally();
    bool takes = deed == SUCCEEDS || deed == SUCCEEDS_BEHIND;
    /* What was done is gone, and then it was said so. (Behind a dead worker `two` is the first.) */
    int gone = takes && status == 0;
    is(now.one + now.two, 2 - gone, what);
    is(now.one <= 1 && now.two <= 1, true, what);
    if (status != 0)
        is(said[0] != '\0' || status == NOTHING, true, what);
    if (!was)
        is(status, deed == FAILS ? FAILED : deed == FULL ? NOTHING : DONE, what);
    if (deed == FULL)
        limit(16384);
    is(recover(), DONE, what);
    now = tally();
    is(now.right, 2 - gone, what);
    is(now.hands, 0, what);
    return was;
}

static void each_fails(enum deed deed) {
    static const int wrongs[CALLS] = {
        [OPENING] = EACCES, [GET] = ENOMEM,    [SEND] = ENOMEM,     [RECEIVE] = ENOMEM,
        [STAT] = ENOMEM,    [SET] = ENOMEM,    [REMOVE] = ENOMEM,   [LIST] = ENOMEM,
        [CLOSE] = EIO,      [FCNTL] = ENOLCK,  [CLOCK] = EINVAL,    [PIPE] = EMFILE,
        [FORK] = EAGAIN,    [NOTIFY] = EMFILE, [REALPATH] = EACCES, [OPEN] = EMFILE,
    };
    prepare(deed);
    for (enum call call = NONE + 1; call < CALLS; call++) {
        int at = 1;
        while (fails_once(deed, call, at, wrongs[call]) && at < 60)
            at++;
        is(at < 60, true, names[call]);
    }
    /* A page without room for a record. */
    for (int at = 1; fails_once(deed, SEND, at, ENOSPC) && at < 60; at++)
        ;
    free(bytes);
}

/* A file that stood here before had a worker, which still has its hand locked. */
static void finds_a_locked_hand(void) {
    begin();
    int ends[2];
    char byte = 0;
    must(pipe(ends) == 0 ? 0 : errno, "pipe");
    pid_t child = fork();
    if (child == 0) {
        struct held held;
        must(held_open(&held, path), "held");
        must(held_lock(&held, 2), "lock");
        (void)!write(ends[1], &byte, 1);
        pause();
    }
    (void)!read(ends[0], &byte, 1);
    is(do_with("true"), DONE, "the id of a new hand is locked");
    is(tally().one, 0, "it is done");
    kill(child, SIGKILL);
    waitpid(child, NULL, 0);
}

int main(int argc, char **argv) {
    if (argc != 2)
        return 2;
    path = argv[1];
    for (enum deed deed = SUCCEEDS; deed <= FULL; deed++)
        each_fails(deed);
    finds_a_locked_hand();
    forget();
    printf("%d passed, %d failed\n", passed, failed);
    return failed > 0;
}
