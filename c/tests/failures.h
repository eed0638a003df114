/* The calls of the system that a connection makes, which fail where a test says so: it is linked with the words of lines.wraps. */
#include "scripted.h"

#include <fcntl.h>
#include <pthread.h>
#include <stdarg.h>
#include <sys/mman.h>
#include <sys/syscall.h>

/* ---- calls that fail */

enum call {
    NONE, SOCKET, FCNTL, FSTAT, CONNECT, RECVMSG, SENDMSG, POLL, NAP, MMAP, CALLOC, GETCWD, OPEN, SIGMASK, SETSPECIFIC, KEY_CREATE, ATFORK
};

static enum call which;
static int when, times, number;

/* Whether this call is one that fails. */
static bool is_now(enum call call) {
    if (call != which || --when > 0 || times == 0)
        return false;
    times--;
    errno = number;
    return true;
}

/* Lets a call of a kind fail, and so many behind it. */
static void arm(enum call call, int at, int count, int wrong) {
    which = call;
    when = at;
    times = count;
    number = wrong;
}

static bool disarm(void) {
    bool was = which != NONE && times == 0;
    which = NONE;
    return was;
}

#define WRAP(kind, name, call, fails, parameters, arguments) \
    kind __real_##name parameters; \
    kind __wrap_##name parameters; \
    kind __wrap_##name parameters { return is_now(call) ? (fails) : __real_##name arguments; }

WRAP(int, socket, SOCKET, -1, (int domain, int type, int protocol), (domain, type, protocol))
WRAP(int, fcntl, FCNTL, -1, (int fd, int what, int with), (fd, what, with))
WRAP(int, fcntl64, FCNTL, -1, (int fd, int what, int with), (fd, what, with))
WRAP(ssize_t, recvmsg, RECVMSG, -1, (int fd, struct msghdr *to, int flags), (fd, to, flags))
WRAP(void *, mmap, MMAP, MAP_FAILED, (void *at, size_t size, int how, int flags, int fd, off_t from), (at, size, how, flags, fd, from))
WRAP(void *, calloc, CALLOC, NULL, (size_t count, size_t size), (count, size))
WRAP(char *, getcwd, GETCWD, NULL, (char *to, size_t size), (to, size))
WRAP(int, open, OPEN, -1, (const char *name, int flags, mode_t mode), (name, flags, mode))
WRAP(int, pthread_sigmask, SIGMASK, number, (int how, const sigset_t *to, sigset_t *was), (how, to, was))
WRAP(int, pthread_setspecific, SETSPECIFIC, number, (pthread_key_t key, const void *to), (key, to))
WRAP(int, pthread_key_create, KEY_CREATE, number, (pthread_key_t *key, void (*end)(void *)), (key, end))
WRAP(int, pthread_atfork, ATFORK, number, (void (*before)(void), void (*parent)(void), void (*child)(void)), (before, parent, child))

/* A number in the place of an error: the call is done, and a signal comes behind it. */
enum { SIGNAL = -1 };

static bool is_signalled(void) {
    if (number != SIGNAL)
        return false;
    raise(SIGUSR1);
    return true;
}

/* The seconds that a connect takes which fails. */
static time_t takes;

int __real_clock_gettime(clockid_t clock, struct timespec *now);
int __wrap_clock_gettime(clockid_t clock, struct timespec *now);
static time_t ahead;
int __wrap_clock_gettime(clockid_t clock, struct timespec *now) {
    int wrong = __real_clock_gettime(clock, now);
    now->tv_sec += ahead;
    return wrong;
}

/* (one that is connected all the same) */
int __real_connect(int fd, const struct sockaddr *to, socklen_t size);
int __wrap_connect(int fd, const struct sockaddr *to, socklen_t size);
int __wrap_connect(int fd, const struct sockaddr *to, socklen_t size) {
    if (!is_now(CONNECT))
        return __real_connect(fd, to, size);
    if (is_signalled())
        return __real_connect(fd, to, size);
    if (number == EISCONN)
        (void)__real_connect(fd, to, size);
    ahead += takes;
    errno = number;
    return -1;
}

/* (a byte alone, where there is no number) */
ssize_t __real_sendmsg(int fd, const struct msghdr *from, int flags);
ssize_t __wrap_sendmsg(int fd, const struct msghdr *from, int flags);
ssize_t __wrap_sendmsg(int fd, const struct msghdr *from, int flags) {
    if (!is_now(SENDMSG))
        return __real_sendmsg(fd, from, flags);
    if (number == SIGNAL) {
        ssize_t sent = __real_sendmsg(fd, from, flags);
        (void)is_signalled();
        return sent;
    }
    return number == 0 ? send(fd, from->msg_iov->iov_base, 1, flags) : -1;
}

/* (nothing in time, where there is no number) */
int __real_ppoll(struct pollfd *all, nfds_t count, const struct timespec *limit, const sigset_t *open);
int __wrap_ppoll(struct pollfd *all, nfds_t count, const struct timespec *limit, const sigset_t *open);
int __wrap_ppoll(struct pollfd *all, nfds_t count, const struct timespec *limit, const sigset_t *open) {
    if (!is_now(count == 0 ? NAP : POLL))
        return __real_ppoll(all, count, limit, open);
    return number == 0 ? 0 : -1;
}

long __real_syscall(long call, ...);
long __wrap_syscall(long call, ...);
long __wrap_syscall(long call, ...) {
    va_list rest;
    va_start(rest, call);
    long first = va_arg(rest, long), second = va_arg(rest, long);
    va_end(rest);
    return call == SYS_fstat && is_now(FSTAT) ? -1 : __real_syscall(call, first, second);
}
