/* Each call of the system that `msgq serve` makes fails in turn: then it serves all the same, or says why not and ends,
 * and leaves no socket, process or descriptor behind. Run as PREFIX/bin/NAME with the path of a new file, where
 * PREFIX/libexec/msgq/msgqd is a link to it: as that it is the core. */
#include "../front/front.h"
#include "../relay/numbers.h"

#include <dirent.h>
#include <errno.h>
#include <fcntl.h>
#include <grp.h>
#include <poll.h>
#include <sched.h>
#include <signal.h>
#include <stdarg.h>
#include <stdbool.h>
#include <stdio.h>
#include <stdlib.h>
#include <string.h>
#include <sys/epoll.h>
#include <sys/random.h>
#include <sys/resource.h>
#include <sys/signalfd.h>
#include <sys/socket.h>
#include <sys/stat.h>
#include <sys/timerfd.h>
#include <sys/un.h>
#include <sys/wait.h>
#include <time.h>
#include <unistd.h>

static int passed, failed;

static void is(long long found, long long expected, const char *what) {
    if (found == expected) {
        passed++;
        return;
    }
    failed++;
    fprintf(stderr, "%s: %lld, not %lld\n", what, found, expected);
}

/* What was said first. */
static char said[2048];

void complain(const char *format, ...) {
    va_list words;
    va_start(words, format);
    if (said[0] == '\0')
        (void)vsnprintf(said, sizeof said, format, words);
    va_end(words);
}

/* ---- calls that fail */

enum call {
    NONE, READLINK, REALPATH, STAT, LSTAT, OPEN, FLOCK, FTRUNCATE, PWRITE, MALLOC, CALLOC, REALLOC, PIPE, FORK, FCNTL, READ, SOCKET, BIND,
    LCHOWN, CHMOD, LISTEN, EPOLL_CREATE, EPOLL_CTL, EPOLL_WAIT, SIGNALFD, TIMERFD, TIMER, ACCEPT, GETSOCKOPT, RECV, SEND, CLOCK, LIMIT, RANDOM,
    AFFINITY, CALLS
};

static const char *const names[] = {
    "none", "readlink", "realpath", "stat", "lstat", "open", "flock", "ftruncate", "pwrite", "malloc", "calloc", "realloc", "pipe2", "fork",
    "fcntl", "read", "socket", "bind", "lchown", "chmod", "listen", "epoll_create1", "epoll_ctl", "epoll_wait", "signalfd", "timerfd_create",
    "timerfd_settime", "accept4", "getsockopt", "recv", "send", "clock_gettime", "setrlimit", "getrandom", "sched_getaffinity",
};

static enum call which;
static int when, seen, number;

static bool is_now(enum call call) {
    if (call != which || ++seen != when)
        return false;
    errno = number;
    return true;
}

#define WRAP(kind, name, call, fails, parameters, arguments) \
    kind __real_##name parameters; \
    kind __wrap_##name parameters; \
    kind __wrap_##name parameters { return is_now(call) ? (fails) : __real_##name arguments; }

/* How often the relay looks before it sleeps is a matter of time: so a run of looks counts as one. */
int __real_epoll_wait(int epoll, struct epoll_event *to, int count, int most);
int __wrap_epoll_wait(int epoll, struct epoll_event *to, int count, int most);
int __wrap_epoll_wait(int epoll, struct epoll_event *to, int count, int most) {
    static int last = -1;
    bool looks_again = most == 0 && last == 0;
    last = most;
    return !looks_again && is_now(EPOLL_WAIT) ? -1 : __real_epoll_wait(epoll, to, count, most);
}

WRAP(ssize_t, readlink, READLINK, -1, (const char *name, char *to, size_t size), (name, to, size))
WRAP(char *, realpath, REALPATH, NULL, (const char *name, char *to), (name, to))
WRAP(int, stat, STAT, -1, (const char *name, struct stat *to), (name, to))
WRAP(int, lstat, LSTAT, -1, (const char *name, struct stat *to), (name, to))
WRAP(int, flock, FLOCK, -1, (int file, int how), (file, how))
WRAP(int, ftruncate, FTRUNCATE, -1, (int file, off_t size), (file, size))
WRAP(ssize_t, pwrite, PWRITE, -1, (int file, const void *from, size_t count, off_t at), (file, from, count, at))
WRAP(void *, malloc, MALLOC, NULL, (size_t size), (size))
WRAP(void *, calloc, CALLOC, NULL, (size_t count, size_t size), (count, size))
WRAP(void *, realloc, REALLOC, NULL, (void *at, size_t size), (at, size))
WRAP(int, pipe2, PIPE, -1, (int *files, int flags), (files, flags))
WRAP(pid_t, fork, FORK, -1, (void), ())
WRAP(int, socket, SOCKET, -1, (int family, int kind, int protocol), (family, kind, protocol))
WRAP(int, bind, BIND, -1, (int file, const struct sockaddr *name, socklen_t size), (file, name, size))
WRAP(int, lchown, LCHOWN, -1, (const char *name, uid_t user, gid_t group), (name, user, group))
WRAP(int, chmod, CHMOD, -1, (const char *name, mode_t mode), (name, mode))
WRAP(int, listen, LISTEN, -1, (int file, int count), (file, count))
WRAP(int, epoll_create1, EPOLL_CREATE, -1, (int flags), (flags))
WRAP(int, epoll_ctl, EPOLL_CTL, -1, (int epoll, int how, int file, struct epoll_event *event), (epoll, how, file, event))
WRAP(int, signalfd, SIGNALFD, -1, (int file, const sigset_t *set, int flags), (file, set, flags))
WRAP(int, timerfd_create, TIMERFD, -1, (int clock, int flags), (clock, flags))
WRAP(int, timerfd_settime, TIMER, -1, (int file, int flags, const struct itimerspec *to, struct itimerspec *was), (file, flags, to, was))
WRAP(int, accept4, ACCEPT, -1, (int file, struct sockaddr *name, socklen_t *size, int flags), (file, name, size, flags))
WRAP(int, getsockopt, GETSOCKOPT, -1, (int file, int level, int option, void *to, socklen_t *size), (file, level, option, to, size))
WRAP(ssize_t, recv, RECV, -1, (int file, void *to, size_t count, int flags), (file, to, count, flags))
WRAP(ssize_t, send, SEND, -1, (int file, const void *from, size_t count, int flags), (file, from, count, flags))
WRAP(int, clock_gettime, CLOCK, -1, (clockid_t clock, struct timespec *to), (clock, to))
WRAP(int, setrlimit, LIMIT, -1, (int what, const struct rlimit *to), (what, to))
WRAP(int, sched_getaffinity, AFFINITY, -1, (pid_t process, size_t size, cpu_set_t *to), (process, size, to))
WRAP(ssize_t, getrandom, RANDOM, -1, (void *to, size_t count, unsigned flags), (to, count, flags))

int __real_fcntl(int file, int how, ...);
int __wrap_fcntl(int file, int how, ...);
int __wrap_fcntl(int file, int how, ...) {
    va_list rest;
    va_start(rest, how);
    int with = va_arg(rest, int);
    va_end(rest);
    return is_now(FCNTL) ? -1 : __real_fcntl(file, how, with);
}

/* (nor is a read one that finds nothing, and does not wait) */
ssize_t __real_read(int file, void *to, size_t count);
ssize_t __wrap_read(int file, void *to, size_t count);
ssize_t __wrap_read(int file, void *to, size_t count) {
    struct pollfd at = {.fd = file, .events = POLLIN};
    bool is_vain = (__real_fcntl(file, F_GETFL) & O_NONBLOCK) != 0 && poll(&at, 1, 0) == 0;
    return !is_vain && is_now(READ) ? -1 : __real_read(file, to, count);
}

int __real_open(const char *path, int flags, ...);
int __wrap_open(const char *path, int flags, ...);
int __wrap_open(const char *path, int flags, ...) {
    va_list rest;
    va_start(rest, flags);
    mode_t mode = (flags & O_CREAT) != 0 ? va_arg(rest, mode_t) : 0;
    va_end(rest);
    return is_now(OPEN) ? -1 : __real_open(path, flags, mode);
}

enum { SEND_IT = 2, INFO_IT = 10, COUNT_IT = 32, FOLLOW_IT = 33 };

/* ---- the core */

static bool read_all(int file, uint8_t *to, size_t count) {
    while (count > 0) {
        ssize_t more = __real_read(file, to, count);
        if (more < 0 && errno == EAGAIN)
            continue;
        if (more <= 0)
            return false;
        to += more;
        count -= (size_t)more;
    }
    return true;
}

static void tell(uint32_t connection, uint32_t of, bool has_serial) {
    uint8_t record[28] = {has_serial ? 24 : 16};
    put_u32(record + 4, connection);
    put_u32(record + 8, of);
    (void)!write(STDOUT_FILENO, record, 4 + (size_t)record[0]);
}

/* Answers each request that it was done, a send with a serial. */
static int be_core(void) {
    uint8_t record[2048];
    tell(0, 0, false);
    while (read_all(STDIN_FILENO, record, 4) && read_all(STDIN_FILENO, record + 4, get_u32(record))) {
        if (record[8] == 3)
            return 0;
        if (record[8] == 0)
            tell(get_u32(record + 4), get_u32(record + 24), record[28] == SEND_IT);
    }
    return 0;
}

/* ---- a client */

static char path[3000], socket_path[sizeof((struct sockaddr_un *)NULL)->sun_path];

/* Sends a request, of a send with 10 bytes of fields, and says whether it was done: answered next, by its number, in so many bytes or
 * more. */
static bool ask_one(int file, uint8_t operation, uint8_t number, size_t least) {
    uint8_t count = operation == SEND_IT ? 10 : 0;
    uint8_t request[64] = {(uint8_t)(12 + count), 0, 0, 0, number, 0, 0, 0, operation}, came[8192];
    request[12] = operation == SEND_IT || operation == FOLLOW_IT;
    return write(file, request, 16 + (size_t)count) == 16 + (ssize_t)count && read_all(file, came, 4)
        && get_u32(came) <= sizeof came - 4 && read_all(file, came + 4, get_u32(came)) && get_u32(came) >= least
        && get_u32(came + 4) == number && get_u32(came + 8) == 0;
}

/* Follows a queue, sends to it, is told so, and asks for counts: says whether each was answered. */
static bool ask(void) {
    struct sockaddr_un name = {.sun_family = AF_UNIX};
    uint8_t came[64];
    strcpy(name.sun_path, socket_path);
    int file = __real_socket(AF_UNIX, SOCK_STREAM, 0);
    /* The follower is told before the sender is answered. */
    bool is_answered = connect(file, (struct sockaddr *)&name, sizeof name) == 0 && read_all(file, came, 36)
                    && ask_one(file, FOLLOW_IT, 76, 12) && ask_one(file, INFO_IT, 77, 12) && !ask_one(file, SEND_IT, 78, 12)
                    && read_all(file, came, 24) && get_u32(came + 4) == 78 && ask_one(file, COUNT_IT, 79, 300);
    close(file);
    return is_answered;
}

/* Asks until it is answered, and then ends the server. */
static void be_client(pid_t server) {
    struct timespec moment = {0, 2000000};
    (void)signal(SIGPIPE, SIG_IGN);
    while (!ask())
        nanosleep(&moment, NULL);
    kill(server, SIGTERM);
    _exit(0);
}

/* ---- a server */

static int count_files(void) {
    int count = 0;
    DIR *folder = opendir("/proc/self/fd");
    while (folder != NULL && readdir(folder) != NULL)
        count++;
    closedir(folder);
    return count;
}

/* Serves until the client was answered, while a call fails; tells the status, and whether it was. */
static int serve_once(bool *is_answered) {
    char mode[] = "--mode=0660", every[] = "--every=5", group[32], *words[] = {path, mode, group, every, NULL};
    int status = 0;
    struct timespec none = {0, 0};
    sigset_t term;
    (void)snprintf(group, sizeof group, "--group=%u", (unsigned)getegid());
    said[0] = '\0';
    seen = 0;
    pid_t server = getpid(), client = __real_fork();
    if (client == 0)
        be_client(server);
    alarm(60);
    int ended = serve_run(4, words);
    which = NONE;
    (void)sigemptyset(&term);
    (void)sigaddset(&term, SIGTERM);
    (void)sigprocmask(SIG_BLOCK, &term, NULL);
    /* Where it has ended well it was told to by the client, which ends too. */
    if (ended != DONE)
        kill(client, SIGKILL);
    waitpid(client, &status, 0);
    alarm(0);
    *is_answered = WIFEXITED(status);
    while (sigtimedwait(&term, NULL, &none) == SIGTERM)
        ;
    return ended;
}

/* One call of a kind fails; says whether it was come to. */
static bool fails_once(enum call call, int at, int wrong) {
    char what[160];
    bool is_answered;
    int files = count_files();
    snprintf(what, sizeof what, "call %d of %s fails", at, names[call]);
    which = call, when = at, number = wrong;
    int status = serve_once(&is_answered);
    bool was = seen >= at;
    if (status == DONE)
        is(is_answered, true, what);
    else
        is(status == FAULT && said[0] != '\0', true, what);
    if (!was)
        is(status, DONE, what);
    /* (what can't be looked at is left, and replaced by the next one) */
    is(access(socket_path, F_OK), was && call == LSTAT && at == 3 ? 0 : -1, what);
    is(count_files(), files, what);
    is(waitpid(-1, NULL, 0), -1, what);
    return was;
}

/* What is said first where a call of a kind fails; tells the status. */
static int tells(enum call call, int at, int wrong, const char *name, const char *words) {
    char expected[4096];
    bool is_answered;
    snprintf(expected, sizeof expected, "%s%s: %s", name, words, strerror(wrong));
    which = call, when = at, number = wrong;
    int status = serve_once(&is_answered);
    is(strcmp(said, expected), 0, expected);
    if (strcmp(said, expected) != 0)
        fprintf(stderr, "and it said: %s\n", said);
    return status;
}

/* The same, which ends it. */
static void says(enum call call, int at, int wrong, const char *name, const char *words) {
    is(tells(call, at, wrong, name, words), FAULT, words);
}

static void each_sentence(void) {
    char lock[sizeof socket_path + 8];
    snprintf(lock, sizeof lock, "%s.lock", socket_path);
    says(STAT, 1, EACCES, path, ": it can't be opened");
    says(REALPATH, 1, EACCES, path, ": it can't be opened");
    says(READLINK, 1, EACCES, "", "the program's own path can't be read");
    says(OPEN, 2, EACCES, lock, ": it can't be opened");
    says(FLOCK, 1, ENOLCK, lock, ": it can't be locked");
    says(FTRUNCATE, 1, EIO, lock, ": it can't be written");
    says(PIPE, 2, EMFILE, path, ": the core can't be started");
    says(FORK, 1, EAGAIN, path, ": the core can't be started");
    says(MALLOC, 2, ENOMEM, path, ": the core can't be started");
    says(LSTAT, 1, EACCES, socket_path, ": it can't be looked at");
    says(SOCKET, 1, EMFILE, socket_path, ": it can't be made");
    says(BIND, 1, EROFS, socket_path, ": it can't be bound");
    says(LCHOWN, 1, EPERM, socket_path, ": its group can't be set");
    says(CHMOD, 1, EPERM, socket_path, ": its mode can't be set");
    says(LISTEN, 1, EADDRINUSE, socket_path, ": it can't be listened to");
    says(SIGNALFD, 1, EMFILE, path, ": it can't be served");
    says(CALLOC, 1, ENOMEM, path, ": it can't be served");
    says(EPOLL_WAIT, 1, EFAULT, path, ": it can't be served on");
    /* It goes on behind that one. */
    is(tells(ACCEPT, 1, ENOBUFS, socket_path, ": no client can be taken"), DONE, "no client can be taken");
}

static void each_fails(void) {
    static const int wrongs[CALLS] = {
        [READLINK] = EACCES, [REALPATH] = EACCES, [STAT] = EACCES,   [LSTAT] = EACCES,        [OPEN] = EMFILE,      [FLOCK] = ENOLCK,
        [FTRUNCATE] = EIO,   [PWRITE] = ENOSPC,   [MALLOC] = ENOMEM, [CALLOC] = ENOMEM,       [REALLOC] = ENOMEM,   [PIPE] = EMFILE,
        [FORK] = EAGAIN,     [FCNTL] = EPERM,     [READ] = EIO,      [SOCKET] = EMFILE,       [BIND] = EADDRINUSE,  [LCHOWN] = EPERM,
        [CHMOD] = EPERM,     [LISTEN] = EOPNOTSUPP, [EPOLL_CREATE] = EMFILE, [EPOLL_CTL] = ENOSPC, [EPOLL_WAIT] = EINTR,
        [SIGNALFD] = EMFILE, [TIMERFD] = EMFILE,  [TIMER] = EINVAL,  [ACCEPT] = ENOBUFS,      [GETSOCKOPT] = ENOPROTOOPT,
        [RECV] = ECONNRESET, [SEND] = EPIPE,      [CLOCK] = EINVAL,  [LIMIT] = EPERM,         [RANDOM] = ENOSYS,
        [AFFINITY] = EINVAL,
    };
    for (enum call call = NONE + 1; call < CALLS; call++) {
        int at = 1;
        while (fails_once(call, at, wrongs[call]) && at < 60)
            at++;
        /* (the clock is read again and again) */
        is(at < 60 || call == CLOCK, true, names[call]);
    }
    for (int at = 1; fails_once(ACCEPT, at, EMFILE) && at < 60; at++)
        ;
}

int main(int argc, char **argv) {
    const char *slash = strrchr(argv[0], '/');
    if (strcmp(slash == NULL ? argv[0] : slash + 1, "msgqd") == 0)
        return be_core();
    if (argc != 2)
        return 2;
    int file = __real_open(argv[1], O_RDWR | O_CREAT | O_CLOEXEC, 0600), out = dup(STDOUT_FILENO), nothing = __real_open("/dev/null", O_WRONLY);
    close(file);
    if (realpath(argv[1], path) == NULL || strlen(path) > 90)
        return 2;
    snprintf(socket_path, sizeof socket_path, "%.90s.socket", path);
    dup2(nothing, STDOUT_FILENO);
    close(nothing);
    each_sentence();
    each_fails();
    fflush(stdout);
    dup2(out, STDOUT_FILENO);
    char lock[sizeof socket_path + 8];
    snprintf(lock, sizeof lock, "%s.lock", socket_path);
    unlink(lock);
    unlink(path);
    printf("%d passed, %d failed\n", passed, failed);
    return failed > 0;
}
