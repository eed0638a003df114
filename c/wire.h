/* A connection to a server's socket (docs/PROTOCOL.md): dialled, spoken on and listened to. It is of one thread of one process. Each
 * function gives 0 or the number of an error. */
#ifndef MSGQ_WIRE_H
#define MSGQ_WIRE_H

#include <signal.h>
#include <stdbool.h>
#include <stddef.h>
#include <stdint.h>
#include <sys/types.h>
#include <sys/uio.h>

/* What a server says of itself, first of all. */
struct greeting {
    uint32_t version, mode; /* 0 durable, 1 saved every so many milliseconds, 2 in memory */
    uint64_t instance;      /* another for each start of a server */
    uint32_t most;          /* bytes of a body */
};

struct wire {
    int fd; /* -1 for none */
    /* Which socket it is, since the program may have closed it and opened another of its number; and whose, since the server
     * knows who it was when it was dialled. */
    dev_t device;
    ino_t inode;
    pid_t pid;
    uid_t uid;
    gid_t gid;
    struct greeting greeting;
};

#define NO_WIRE ((struct wire){.fd = -1})

/* What ends a wait early: a moment of CLOCK_MONOTONIC, which is ETIMEDOUT; and the handler of a signal, which is EINTR. Where `open` is
 * not NULL the caller holds all signals back, and those that this mask has not are let through while it waits, and only then: so none
 * comes unseen before a wait. */
struct endings {
    const struct timespec *end; /* NULL for none */
    const sigset_t *open;
};

/* The moment that is so long behind another, and now. */
struct timespec moment_after(struct timespec moment, struct timespec time);
struct timespec moment_now(void);

/* How long it is to a moment: 0 once it is there. */
struct timespec time_until(const struct timespec *moment);
bool is_past(const struct timespec *moment);

/* A nap between two tries. EINTR where a signal has ended it that was held back. */
int wire_nap(const sigset_t *open);

/* Dials a socket, and hears the greeting. ENOENT or ECONNREFUSED where nobody serves, ECONNRESET where the server ended meanwhile,
 * ETIMEDOUT where it does not greet within ten seconds, EPROTO where that is another version's greeting or none, EINTR as of a nap. */
int wire_dial(struct wire *it, const char *socket, const sigset_t *open);

/* Whether it is dialled, by this process with its effective user and group of now, and its number still that socket's. */
bool wire_is_own(const struct wire *it);

/* Whether this process has dialled it, and not the parent that it was forked from. */
bool wire_is_of_process(const struct wire *it);

/* Closes it, but not another file of its number. */
void wire_hang_up(struct wire *it);

/* Sends all of some parts, which it uses up. EPIPE where the server did not read them. */
int wire_send(const struct wire *it, struct iovec *parts, size_t count);

/* Waits for something, receives what is there, and tells how many bytes: 0 at the end. EINTR behind the handler of a signal, also of one
 * that restarts calls. ECONNRESET where the server ended and has not read all that was sent. */
int wire_receive(const struct wire *it, const struct iovec *parts, size_t count, const struct endings *how, size_t *done);

/* Takes so many bytes from the front of some parts, and tells how many parts are behind it. */
size_t parts_skip(struct iovec *parts, size_t count, size_t done, struct iovec **left);

#endif
