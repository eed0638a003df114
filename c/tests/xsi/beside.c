/* Random calls of msgget, msgsnd, msgrcv and msgctl, each made twice: as a program makes it, and of the system itself. What both are
 * answered is compared, call by call: value, error, bytes, and struct msqid_ds. Run by `msgq with`, the first is a served file.
 *
 *     beside CALLS SEED
 *
 * Where the rules of docs/QUEUES.md differ from Linux, the call is of one of the kinds of `enum rule`, and what it is answered here
 * is typed from those rules. Each kind is counted, and there is no other. Bodies, keys and users are drawn so that a call falls
 * under a rule only where the program knows it. */
#include "pairs.h"

#include <errno.h>
#include <grp.h>
#include <limits.h>
#include <signal.h>
#include <stdio.h>
#include <stdlib.h>
#include <string.h>
#include <sys/msg.h>
#include <sys/syscall.h>
#include <sys/time.h>
#include <unistd.h>

/* A queue that has as many is only received from: the limit of messages is a rule. */
enum { MANY = 900 };

struct message {
    long type;
    char body[MOST_BODY + 64];
};

/* Keys from here on have no queue of the system's at the beginning; whether its root raises qbytes as far as here. */
static key_t first_key;
static bool raises_far;

/* ---- the calls */

static void try_get(void) {
    key_t key = one_in(4) ? IPC_PRIVATE : first_key + (key_t)draw(KEYS);
    int flags = (one_in(4) ? 0 : IPC_CREAT) | (one_in(4) ? IPC_EXCL : 0), at = 0;
    int mode = one_in(2) ? 0666 : (int)draw(0777 + 1);
    while (at < run.alive_count && (key == IPC_PRIVATE || run.alive[at].key != key))
        at++;
    if (at == run.alive_count && run.alive_count == MOST)
        return;
    /* That a queue which is there tests no permission is a rule. */
    if (at < run.alive_count && run.user != 0)
        mode = 0;
    run.call = "msgget";
    long theirs = syscall(SYS_msgget, key, flags | mode);
    int their_errno = errno, ours = msgget(key, flags | mode), our_errno = errno;
    judge(ALIKE, ours < 0 ? -1 : 0, our_errno, theirs < 0 ? -1 : 0, their_errno);
    if (ours < 0)
        return;
    if (at < run.alive_count && (run.alive[at].ours != ours || run.alive[at].theirs != (int)theirs))
        fail("key %d leads to %d and %ld in the place of %d and %d", key, ours, theirs, run.alive[at].ours, run.alive[at].theirs);
    for (int other = 0; other < run.alive_count; other++)
        if (at == run.alive_count && run.alive[other].ours == ours)
            fail("id %d is given twice", ours);
    if (at == run.alive_count)
        run.alive[run.alive_count++] =
            (struct pair){ours, (int)theirs, key, 16384, 0, run.user, run.user};
}

static long draw_type(bool receives) {
    static const long sends[] = {1, 2, 3, 4, 5, 1, 2, 3, LONG_MAX, 0, -1, LONG_MIN};
    static const long takes[] = {0, 0, 0, 1, 2, 3, 4, 5, -1, -2, -3, -4, -5, LONG_MAX, LONG_MIN};
    return receives ? takes[draw(sizeof takes / sizeof *takes)] : sends[draw(sizeof sends / sizeof *sends)];
}

static size_t draw_size(const struct pair *it) {
    if (one_in(10))
        return it->qbytes < 1000 ? 1 : 0;
    return one_in(8) ? MOST_BODY - draw(40) : 1 + draw(60);
}

/* A message that is too long here, and would not be for the system. */
static void try_long(const struct pair *it, const struct message *message) {
    size_t size = one_in(2) ? (size_t)-1 : MOST_BODY + 1 + draw(60);
    int ours = msgsnd(it->ours, message, size, IPC_NOWAIT);
    judge(LONG_BODY, ours, errno, -1, EINVAL);
}

static void try_send(void) {
    struct pair it;
    bool is_gone;
    int at = choose(&it, &is_gone);
    size_t size = draw_size(&it);
    struct message message = {.type = draw_type(false)};
    const void *from = one_in(100) ? NULL : one_in(100) ? (void *)8 : &message;
    for (size_t byte = 0; byte < sizeof message.body; byte++)
        message.body[byte] = (char)(run.calls + byte * 7);
    run.call = "msgsnd";
    if (one_in(50)) {
        try_long(&it, &message);
        return;
    }
    if (at >= 0 && it.count >= MANY)
        return;
    long theirs = syscall(SYS_msgsnd, it.theirs, from, size, IPC_NOWAIT);
    int their_errno = errno;
    /* What does not wait there is not to wait here either. */
    bool waits = (theirs == 0 || their_errno != EAGAIN) && one_in(2);
    long ours = msgsnd(it.ours, from, size, waits ? 0 : IPC_NOWAIT);
    judge_id(is_gone && message.type > 0, ours, errno, theirs, their_errno);
    if (ours == 0)
        run.alive[at].count++;
}

/* Flags that are refused here. */
static void try_flags(const struct pair *it, struct message *message) {
    int flags = one_in(2) ? MSG_EXCEPT : MSG_COPY;
    long ours = msgrcv(it->ours, message, MOST_BODY, draw_type(true), flags | (one_in(2) ? IPC_NOWAIT : 0));
    judge(EXCEPT_OR_COPY, ours, errno, -1, EINVAL);
}

static void try_receive(void) {
    struct pair it;
    bool is_gone;
    int at = choose(&it, &is_gone);
    size_t size = one_in(6) ? draw(40) : one_in(20) ? (size_t)-1 : one_in(10) ? (size_t)LONG_MAX : MOST_BODY;
    long type = draw_type(true);
    int flags = one_in(3) ? MSG_NOERROR : 0;
    struct message one, two;
    bool is_bad = one_in(200);
    run.call = "msgrcv";
    memset(&one, 0x55, sizeof one);
    memset(&two, 0x55, sizeof two);
    if (one_in(60)) {
        try_flags(&it, &one);
        return;
    }
    long theirs = syscall(SYS_msgrcv, it.theirs, is_bad ? NULL : &two, size, type, flags | IPC_NOWAIT);
    int their_errno = errno;
    bool waits = (theirs >= 0 || their_errno != ENOMSG) && one_in(2);
    long ours = msgrcv(it.ours, is_bad ? NULL : (void *)&one, size, type, flags | (waits ? 0 : IPC_NOWAIT));
    judge_id(is_gone && size <= LONG_MAX, ours, errno, theirs, their_errno);
    if (memcmp(&one, &two, sizeof one) != 0)
        fail("type %ld and %ld, or bytes that differ", one.type, two.type);
    /* (as it is lost where it can't be told) */
    if (ours >= 0 || (errno == EFAULT && at >= 0))
        run.alive[at].count--;
}

static void compare(const struct msqid_ds *one, const struct msqid_ds *two) {
#define SAME(FIELD)                                                                                   \
    if (one->FIELD != two->FIELD)                                                                    \
    fail(#FIELD " is %lld, and of the system %lld", (long long)one->FIELD, (long long)two->FIELD)
#define NEAR(FIELD)                                                                                   \
    if (llabs((long long)one->FIELD - (long long)two->FIELD) > 2)                                    \
    fail(#FIELD " is %lld, and of the system %lld", (long long)one->FIELD, (long long)two->FIELD)
    SAME(msg_perm.__key);
    SAME(msg_perm.uid);
    SAME(msg_perm.gid);
    SAME(msg_perm.cuid);
    SAME(msg_perm.cgid);
    SAME(msg_perm.mode);
    SAME(msg_qnum);
    SAME(__msg_cbytes);
    SAME(msg_qbytes);
    SAME(msg_lspid);
    SAME(msg_lrpid);
    NEAR(msg_stime);
    NEAR(msg_rtime);
    NEAR(msg_ctime);
}

static void try_stat(void) {
    struct pair it;
    struct msqid_ds one, two;
    bool is_gone, is_bad = one_in(50);
    (void)choose(&it, &is_gone);
    run.call = "IPC_STAT";
    long theirs = syscall(SYS_msgctl, it.theirs, IPC_STAT, is_bad ? NULL : &two);
    int their_errno = errno;
    long ours = msgctl(it.ours, IPC_STAT, is_bad ? NULL : &one);
    judge_id(is_gone, ours, errno, theirs, their_errno);
    if (ours == 0)
        compare(&one, &two);
}

static unsigned long draw_qbytes(void) {
    static const unsigned long some[] = {100, 200, 500, 1000, 3000, 16384};
    return raises_far && one_in(4) ? 16384 + draw(MOST_QBYTES - 16384 + 1) : some[draw(sizeof some / sizeof *some)];
}

static void try_set(void) {
    static const uid_t users[] = {0, 1001, 1002};
    struct pair it;
    struct msqid_ds one = {.msg_qbytes = 0};
    bool is_gone, is_bad = one_in(50);
    int at = choose(&it, &is_gone);
    bool owns = at < 0 || run.user == 0 || run.user == it.uid || run.user == it.cuid;
    one.msg_qbytes = draw_qbytes();
    one.msg_perm.uid = run.is_root ? users[draw(3)] : run.user;
    one.msg_perm.gid = run.is_root ? users[draw(3)] : getegid();
    one.msg_perm.mode = (unsigned short)(one_in(2) ? 0666 : draw(0777 + 1));
    run.call = "IPC_SET";
    if (at >= 0 && owns && run.user != 0 && one.msg_qbytes > it.qbytes) {
        long ours = msgctl(it.ours, IPC_SET, &one);
        judge(RAISES, ours, errno, -1, EPERM);
        return;
    }
    if (at >= 0 && one_in(30)) {
        one.msg_qbytes = one_in(2) ? MOST_QBYTES + 1 + draw(9) : ULONG_MAX;
        long ours = msgctl(it.ours, IPC_SET, &one);
        judge(HIGH_QBYTES, ours, errno, -1, EPERM);
        return;
    }
    if (one_in(40))
        one.msg_perm.gid = (gid_t)-1;
    if (one.msg_perm.gid == (gid_t)-1 && (!owns || is_gone))
        return;
    long theirs = syscall(SYS_msgctl, it.theirs, IPC_SET, is_bad ? NULL : &one);
    int their_errno = errno;
    long ours = msgctl(it.ours, IPC_SET, is_bad ? NULL : &one);
    judge_id(is_gone, ours, errno, theirs, their_errno);
    if (ours == 0) {
        run.alive[at].qbytes = one.msg_qbytes;
        run.alive[at].uid = one.msg_perm.uid;
    }
}

static void try_remove(void) {
    struct pair it;
    bool is_gone;
    int at = choose(&it, &is_gone);
    run.call = "IPC_RMID";
    long theirs = syscall(SYS_msgctl, it.theirs, IPC_RMID, NULL);
    int their_errno = errno;
    long ours = msgctl(it.ours, IPC_RMID, NULL);
    judge_id(is_gone, ours, errno, theirs, their_errno);
    if (ours == 0)
        note_gone(at);
}

static void try_command(void) {
    struct msqid_ds room;
    int command = one_in(2) ? 99 : -1;
    run.call = "msgctl with no command";
    if (run.alive_count == 0)
        return;
    long theirs = syscall(SYS_msgctl, run.alive[0].theirs, command, &room);
    int their_errno = errno;
    long ours = msgctl(run.alive[0].ours, command, &room);
    judge(ALIKE, ours, errno, theirs, their_errno);
}

static void nothing(int number) {
    (void)number;
}

/* A wait on an empty queue, which a handler ends, though it asks for calls to be begun again. */
static void try_wait(void) {
    const struct sigaction action = {.sa_handler = nothing, .sa_flags = SA_RESTART};
    const struct itimerval soon = {{0, 2000}, {0, 2000}}, never = {{0, 0}, {0, 0}};
    struct message one;
    run.call = "a wait";
    become(0);
    if (run.alive_count == 0 || run.alive[0].count > 0 || run.user != 0)
        return;
    if (sigaction(SIGALRM, &action, NULL) != 0 || setitimer(ITIMER_REAL, &soon, NULL) != 0)
        fail("%s", strerror(errno));
    long theirs = syscall(SYS_msgrcv, run.alive[0].theirs, &one, (size_t)MOST_BODY, 0L, 0);
    int their_errno = errno;
    long ours = msgrcv(run.alive[0].ours, &one, MOST_BODY, 0, 0);
    int our_errno = errno;
    if (setitimer(ITIMER_REAL, &never, NULL) != 0)
        fail("%s", strerror(errno));
    judge(ALIKE, ours, our_errno, theirs, their_errno);
}

static void try_one(void) {
    static void (*const calls[])(void) = {
        try_get, try_send, try_send, try_send, try_send, try_send, try_receive, try_receive, try_receive, try_receive, try_receive,
        try_stat, try_set, try_command,
    };
    static const uid_t users[] = {0, 1001, 1002};
    if (one_in(12))
        become(users[draw(3)]);
    if (one_in(100))
        try_remove();
    else if (one_in(400))
        try_wait();
    else
        calls[draw(sizeof calls / sizeof *calls)]();
}

/* ---- beginning and end */

static void remove_all(void) {
    become(0);
    for (int at = 0; at < run.alive_count; at++) {
        (void)syscall(SYS_msgctl, run.alive[at].theirs, IPC_RMID, NULL);
        (void)msgctl(run.alive[at].ours, IPC_RMID, NULL);
    }
}

/* Keys that the system has no queue for, and whether its root may raise qbytes as far as here. */
static void begin(void) {
    run.is_root = geteuid() == 0;
    run.user = geteuid();
    if (run.is_root && setgroups(0, NULL) != 0)
        run.is_root = false;
    for (first_key = 0x6d730000 + getpid() % 1000 * KEYS;; first_key += KEYS) {
        int taken = 0;
        for (int at = 0; at < KEYS; at++)
            taken += syscall(SYS_msgget, first_key + at, 0) >= 0;
        if (taken == 0)
            break;
    }
    struct msqid_ds high = {.msg_qbytes = MOST_QBYTES};
    int id = (int)syscall(SYS_msgget, IPC_PRIVATE, 0600);
    raises_far = run.is_root && id >= 0 && syscall(SYS_msgctl, id, IPC_SET, &high) == 0;
    if (id < 0 || syscall(SYS_msgctl, id, IPC_RMID, NULL) != 0)
        fail("the system has no queues: %s", strerror(errno));
    (void)atexit(remove_all);
}

static unsigned long all_rules(void) {
    unsigned long count = 0;
    for (int rule = 0; rule < RULES; rule++)
        count += run.rules[rule];
    return count;
}

int main(int argc, char **argv) {
    unsigned long calls = argc > 1 ? strtoul(argv[1], NULL, 10) : 0;
    if (argc != 3 || calls == 0)
        return fprintf(stderr, "usage: beside CALLS SEED\n"), 2;
    run.seed = strtoull(argv[2], NULL, 10);
    begin();
    while (all_rules() < calls) {
        run.calls++;
        try_one();
    }
    printf("%lu calls as user %s:", calls, run.is_root ? "0 and two others" : "that it is run by");
    print_rules();
    return 0;
}
