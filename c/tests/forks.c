/* What the child of a fork may do, and what it changes for its parent: nothing. What is expected stands in msgq.h. Run with the path
 * of a new file. */
#include "../msgq.h"

#include <errno.h>
#include <signal.h>
#include <stdbool.h>
#include <stdio.h>
#include <stdlib.h>
#include <sys/syscall.h>
#include <sys/wait.h>
#include <unistd.h>

static int passed, failed;
static const char *path;

static void is(long long found, long long expected, const char *what) {
    if (found == expected) {
        passed++;
        return;
    }
    failed++;
    fprintf(stderr, "%s: %lld, not %lld\n", what, found, expected);
}

/* What an opening is told, which is closed at once. */
static int tried(void) {
    msgq *queues;
    int wrong = msgq_open(path, &queues);
    return wrong != 0 ? wrong : msgq_abandon(queues);
}

/* The same in a process of its own, that nothing was handed to. */
static int tried_elsewhere(void) {
    int status = 0;
    pid_t child = fork();
    if (child == 0)
        _exit(tried());
    waitpid(child, &status, 0);
    return WIFEXITED(status) ? WEXITSTATUS(status) : -1;
}

static msgq *opened(void) {
    msgq *queues = NULL;
    is(msgq_open(path, &queues), 0, "open");
    return queues;
}

/* A child that lives until it is told to end, and then ends with what a function gives. */
struct child {
    pid_t process;
    int tell;
};

static struct child begun(int (*act)(void), bool by_fork) {
    int ends[2];
    char byte;
    if (pipe(ends) != 0)
        exit(2);
#ifdef SYS_fork
    pid_t process = by_fork ? fork() : (pid_t)syscall(SYS_fork);
#else
    pid_t process = by_fork ? fork() : (pid_t)syscall(SYS_clone, SIGCHLD, 0, 0, 0, 0);
#endif
    if (process == 0) {
        close(ends[1]);
        (void)!read(ends[0], &byte, 1);
        _exit(act());
    }
    close(ends[0]);
    return (struct child){process, ends[1]};
}

static int ended(struct child child) {
    int status = 0;
    close(child.tell);
    waitpid(child.process, &status, 0);
    return WIFEXITED(status) ? WEXITSTATUS(status) : -1;
}

static int does_nothing(void) {
    return 0;
}

static msgq *inherited;

static int is_refused(void) {
    uint32_t id;
    return msgq_get(inherited, 7, 0, &id) == ENOTSUP && msgq_save(inherited) == ENOTSUP && msgq_close(inherited) == ENOTSUP
        && msgq_abandon(inherited) == ENOTSUP && tried() == EBUSY ? 0 : 1;
}

/* The parent closes the file while a child lives. */
static void a_parent_closes(bool by_fork) {
    inherited = opened();
    struct child child = begun(by_fork ? tried : does_nothing, by_fork);
    is(msgq_close(inherited), 0, "close");
    is(tried(), 0, "the parent opens it while a child lives");
    is(tried_elsewhere(), 0, "another process opens it while a child lives");
    is(ended(child), 0, "the child opens it");
}

/* A child ends while the parent has the file open. */
static void a_child_ends(void) {
    inherited = opened();
    is(ended(begun(is_refused, true)), 0, "what a child is refused");
    is(tried_elsewhere(), EBUSY, "the file behind the end of a child");
    int status = 0;
    pid_t child = fork();
    if (child == 0) {
        execlp("true", "true", (char *)NULL);
        _exit(1);
    }
    waitpid(child, &status, 0);
    is(status, 0, "a child that becomes another program");
    is(tried_elsewhere(), EBUSY, "the file behind it");
    uint32_t id;
    is(msgq_get(inherited, 7, MSGQ_CREATE | 0600, &id), 0, "get");
    is(msgq_send(inherited, id, 1, "x", 1, 0, NULL), 0, "send");
    is(msgq_close(inherited), 0, "close");
}

/* A process ends without a close, and its child lives on. */
static void a_parent_ends(void) {
    int ends[2], runs[2], status = 0;
    char byte;
    if (pipe(ends) != 0 || pipe(runs) != 0)
        exit(2);
    pid_t parent = fork();
    if (parent == 0) {
        inherited = opened();
        if (fork() == 0) {
            close(ends[1]);
            (void)!write(runs[1], "", 1);
            (void)!read(ends[0], &byte, 1);
            _exit(0);
        }
        /* (a child lets go of the lock before its fork comes back) */
        (void)!read(runs[0], &byte, 1);
        _exit(failed > 0);
    }
    close(ends[0]);
    close(runs[0]);
    close(runs[1]);
    waitpid(parent, &status, 0);
    is(status, 0, "a process that ends");
    is(tried(), 0, "its file while its child lives");
    close(ends[1]);
}

/* A child opens the file and sends; the parent receives it. */
static int sends(void) {
    msgq *queues;
    uint32_t id;
    int wrong = msgq_open(path, &queues);
    if (wrong != 0)
        return wrong;
    wrong = msgq_get(queues, 7, 0, &id);
    if (wrong == 0)
        wrong = msgq_send(queues, id, 2, "of the child", 12, 0, NULL);
    return wrong != 0 ? wrong : msgq_close(queues);
}

static void a_child_sends(void) {
    char body[16];
    uint32_t id;
    inherited = opened();
    struct child child = begun(sends, true);
    is(msgq_close(inherited), 0, "close");
    is(ended(child), 0, "a child that sends");
    msgq *queues = opened();
    is(msgq_get(queues, 7, 0, &id), 0, "get");
    is(msgq_receive(queues, id, 2, body, sizeof body, MSGQ_NOWAIT, NULL, NULL), 0, "what it has sent");
    is(msgq_close(queues), 0, "close");
}

int main(int argc, char **argv) {
    if (argc != 2)
        return 2;
    path = argv[1];
    is(msgq_create(path, 300), 0, "create");
    a_parent_closes(true);
    a_parent_closes(false);
    a_child_ends();
    a_parent_ends();
    a_child_sends();
    printf("%d passed, %d failed\n", passed, failed);
    return failed > 0;
}
