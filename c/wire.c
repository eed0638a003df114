/* A connection to a server's socket. What only asks the kernel goes there by its number: another library that is loaded before this one
 * may have functions of the same names, which make calls of queues themselves; and a close is no place to be cancelled at. */
#ifndef _GNU_SOURCE
#define _GNU_SOURCE /* for O_PATH and ppoll */
#endif
#include "wire.h"

#include <errno.h>
#include <fcntl.h>
#include <libgen.h>
#include <limits.h>
#include <poll.h>
#include <stdio.h>
#include <string.h>
#include <sys/socket.h>
#include <sys/stat.h>
#include <sys/syscall.h>
#include <sys/un.h>
#include <time.h>
#include <unistd.h>

enum { VERSION = 1, GREETING_BYTES = 36 };

/* From here on a program does not count on a descriptor's number, as it does on 0 to 2. */
enum { FAR = 500, NEAR = 3 };

static int stat_of(int fd, struct stat *found) {
    return (int)syscall(SYS_fstat, fd, found);
}

static void shut(int fd) {
    (void)syscall(SYS_close, fd);
}

bool wire_is_of_process(const struct wire *it) {
    return it->pid == (pid_t)syscall(SYS_getpid);
}

/* Whether the number still names the socket. */
static bool is_ours(const struct wire *it) {
    struct stat found;
    return it->fd >= 0 && stat_of(it->fd, &found) == 0 && found.st_ino == it->inode && found.st_dev == it->device;
}

bool wire_is_own(const struct wire *it) {
    return wire_is_of_process(it) && it->uid == (uid_t)syscall(SYS_geteuid) && it->gid == (gid_t)syscall(SYS_getegid)
        && is_ours(it);
}

void wire_hang_up(struct wire *it) {
    if (is_ours(it))
        shut(it->fd);
    it->fd = -1;
}

/* ---- time */

static const long SECOND = 1000000000; /* in nanoseconds */

/* (This clock can always be read.) */
struct timespec moment_now(void) {
    struct timespec it = {0, 0};
    (void)clock_gettime(CLOCK_MONOTONIC, &it);
    return it;
}

struct timespec moment_after(struct timespec moment, struct timespec time) {
    moment.tv_sec += time.tv_sec;
    moment.tv_nsec += time.tv_nsec;
    if (moment.tv_nsec >= SECOND) {
        moment.tv_sec++;
        moment.tv_nsec -= SECOND;
    }
    return moment;
}

struct timespec time_until(const struct timespec *moment) {
    struct timespec left = moment_now();
    left.tv_sec = moment->tv_sec - left.tv_sec;
    left.tv_nsec = moment->tv_nsec - left.tv_nsec;
    if (left.tv_nsec < 0) {
        left.tv_sec--;
        left.tv_nsec += SECOND;
    }
    return left.tv_sec < 0 ? (struct timespec){0, 0} : left;
}

bool is_past(const struct timespec *moment) {
    struct timespec left = time_until(moment);
    return left.tv_sec == 0 && left.tv_nsec == 0;
}

/* ---- waits */

int wire_nap(const sigset_t *open) {
    static const struct timespec TIME = {0, 10000000};
    return ppoll(NULL, 0, &TIME, open) < 0 && open != NULL ? EINTR : 0;
}

/* Waits until a socket has something to be read, or room. */
static int wait_for(int fd, short events, const struct endings *how) {
    struct pollfd at = {.fd = fd, .events = events};
    struct timespec left;
    if (how->end != NULL)
        left = time_until(how->end);
    int ready = ppoll(&at, 1, how->end == NULL ? NULL : &left, how->open);
    return ready < 0 ? errno : ready > 0 ? 0 : ETIMEDOUT;
}

/* ---- transfers */

size_t parts_skip(struct iovec *parts, size_t count, size_t done, struct iovec **left) {
    while (count > 0 && done >= parts->iov_len) {
        done -= parts->iov_len;
        parts++;
        count--;
    }
    if (count > 0) {
        parts->iov_base = (char *)parts->iov_base + done;
        parts->iov_len -= done;
    }
    *left = parts;
    return count;
}

/* (For one request, and what cancels it, a socket always has room.) */
int wire_send(const struct wire *it, struct iovec *parts, size_t count) {
    while (count > 0) {
        const struct msghdr message = {.msg_iov = parts, .msg_iovlen = count};
        ssize_t sent = sendmsg(it->fd, &message, MSG_NOSIGNAL);
        if (sent >= 0)
            count = parts_skip(parts, count, (size_t)sent, &parts);
        else if (errno == EAGAIN)
            (void)wait_for(it->fd, POLLOUT, &(struct endings){NULL, NULL});
        else if (errno != EINTR)
            return errno == ECONNRESET || errno == ENOTCONN ? EPIPE : errno;
    }
    return 0;
}

int wire_receive(const struct wire *it, const struct iovec *parts, size_t count, const struct endings *how, size_t *done) {
    for (;;) {
        struct msghdr message = {.msg_iov = (struct iovec *)(uintptr_t)parts, .msg_iovlen = count};
        int wrong = wait_for(it->fd, POLLIN, how);
        if (wrong != 0)
            return wrong;
        ssize_t more = recvmsg(it->fd, &message, 0);
        if (more >= 0) {
            *done = (size_t)more;
            return 0;
        }
        if (errno != EAGAIN)
            return errno;
    }
}

/* ---- dialling */

/* A socket whose number is far from those that a program counts on. No call of it waits, but those that wait for it. */
static int open_far(int *fd) {
    int low = socket(AF_UNIX, SOCK_STREAM | SOCK_CLOEXEC | SOCK_NONBLOCK, 0);
    if (low < 0)
        return errno;
    *fd = fcntl(low, F_DUPFD_CLOEXEC, FAR);
    if (*fd < 0)
        *fd = fcntl(low, F_DUPFD_CLOEXEC, NEAR);
    int wrong = *fd < 0 ? errno : 0;
    shut(low);
    return wrong;
}

/* Spells the address of a socket. One that is longer than an address may be is named from its folder, which is opened for it. */
static int address_of(const char *socket, struct sockaddr_un *address, int *folder) {
    char name[PATH_MAX];
    *folder = -1;
    *address = (struct sockaddr_un){.sun_family = AF_UNIX};
    if (strlen(socket) < sizeof address->sun_path) {
        strcpy(address->sun_path, socket);
        return 0;
    }
    if (strlen(socket) >= sizeof name)
        return ENAMETOOLONG;
    strcpy(name, socket);
    *folder = open(dirname(name), O_PATH | O_DIRECTORY | O_CLOEXEC);
    if (*folder < 0)
        return errno;
    const char *last = strrchr(socket, '/');
    size_t room = sizeof address->sun_path;
    int length = snprintf(address->sun_path, room, "/proc/self/fd/%d/%s", *folder, last == NULL ? socket : last + 1);
    return length < 0 || (size_t)length >= room ? ENAMETOOLONG : 0;
}

/* Connects; where too many are about to, that is tried again until the end. */
static int connect_to(int fd, const char *socket, const struct endings *how) {
    struct sockaddr_un address;
    int folder, wrong = address_of(socket, &address, &folder);
    while (wrong == 0 && connect(fd, (const struct sockaddr *)&address, sizeof address) != 0)
        if (errno != EAGAIN && errno != EINTR)
            wrong = errno;
        else
            wrong = is_past(how->end) ? ETIMEDOUT : wire_nap(how->open);
    if (folder >= 0)
        shut(folder);
    return wrong == EISCONN ? 0 : wrong;
}

static uint32_t word_at(const uint8_t *at) {
    return at[0] | (uint32_t)at[1] << 8 | (uint32_t)at[2] << 16 | (uint32_t)at[3] << 24;
}

static int hear_greeting(struct wire *it, const struct endings *how) {
    uint8_t frame[GREETING_BYTES];
    for (size_t got = 0, more; got < sizeof frame; got += more) {
        const struct iovec rest = {frame + got, sizeof frame - got};
        int wrong = wire_receive(it, &rest, 1, how, &more);
        if (wrong == EINTR && how->open == NULL)
            more = 0;
        else if (wrong != 0 || more == 0)
            return wrong != 0 ? wrong : ECONNRESET;
    }
    it->greeting = (struct greeting){
        .version = word_at(frame + 12),
        .mode = word_at(frame + 16),
        .instance = word_at(frame + 20) | (uint64_t)word_at(frame + 24) << 32,
        .most = word_at(frame + 28),
    };
    bool is_one = word_at(frame) == GREETING_BYTES - 4 && word_at(frame + 4) == 0 && word_at(frame + 8) == 0;
    return is_one && it->greeting.version == VERSION ? 0 : EPROTO;
}

/* Makes a socket, and notes it at once: a thread that is cancelled while it waits for the server hangs up. */
static int begin(struct wire *it) {
    struct stat found;
    int fd = -1, wrong = open_far(&fd);
    if (wrong != 0)
        return wrong;
    if (stat_of(fd, &found) != 0) {
        wrong = errno;
        shut(fd);
        return wrong;
    }
    *it = (struct wire){
        .fd = fd,
        .device = found.st_dev,
        .inode = found.st_ino,
        .pid = (pid_t)syscall(SYS_getpid),
        .uid = (uid_t)syscall(SYS_geteuid),
        .gid = (gid_t)syscall(SYS_getegid),
    };
    return 0;
}

int wire_dial(struct wire *it, const char *socket, const sigset_t *open) {
    static const struct timespec LIMIT = {10, 0};
    struct timespec end = moment_after(moment_now(), LIMIT);
    const struct endings how = {&end, open};
    *it = NO_WIRE;
    int wrong = begin(it);
    if (wrong == 0 && (wrong = connect_to(it->fd, socket, &how)) == 0)
        wrong = hear_greeting(it, &how);
    if (wrong != 0)
        wire_hang_up(it);
    return wrong;
}
