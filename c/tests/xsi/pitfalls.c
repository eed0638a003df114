/* What a program of <sys/msg.h> may do around its calls, and a library in their place must bear: run on the system's own queues and by
 * `msgq with`, it prints the same.
 *
 *     pitfalls [NAME]..
 */
#include <dlfcn.h>
#include <errno.h>
#include <fcntl.h>
#include <pthread.h>
#include <setjmp.h>
#include <signal.h>
#include <stdbool.h>
#include <stdio.h>
#include <stdlib.h>
#include <string.h>
#include <sys/msg.h>
#include <sys/stat.h>
#include <sys/syscall.h>
#include <sys/time.h>
#include <sys/wait.h>
#include <unistd.h>

enum { ROOM = 64 };

struct message {
    long type;
    char body[ROOM];
};

static struct message message = {1, "hello"};

static void must(bool is_done) {
    if (!is_done) {
        perror("pitfalls");
        exit(1);
    }
}

static int make(void) {
    int id = msgget(IPC_PRIVATE, IPC_CREAT | 0600);
    must(id >= 0);
    return id;
}

static void say(const char *what, long value) {
    printf("%s: %ld %s\n", what, value, value < 0 ? strerrorname_np(errno) : "");
    (void)fflush(stdout);
}

static long left(int id) {
    struct msqid_ds found;
    return msgctl(id, IPC_STAT, &found) == 0 ? (long)found.msg_qnum : -1;
}

static void end(int id) {
    must(msgctl(id, IPC_RMID, NULL) == 0);
}

static void handle(int number, void (*handler)(int), int flags) {
    const struct sigaction action = {.sa_handler = handler, .sa_flags = flags};
    must(sigaction(number, &action, NULL) == 0);
}

static void tick(long first, long every) {
    const struct itimerval timer = {{0, every}, {0, first}};
    must(setitimer(ITIMER_REAL, &timer, NULL) == 0);
}

static void nothing(int number) {
    (void)number;
}

/* A receive that waits, and what is to be done about EINTR: it is begun again. */
static long receive(int id) {
    long length;
    while ((length = msgrcv(id, &message, ROOM, 0, 0)) < 0 && errno == EINTR)
        ;
    return length;
}

/* ---- signals */

/* Thousands of messages in a storm of signals on both ends: each once, and in order. */
static void storm(void) {
    enum { COUNT = 5000 };
    int id = make(), wrong = 0;
    pid_t child = fork();
    handle(SIGALRM, nothing, SA_RESTART);
    tick(170, 170);
    if (child == 0) {
        for (int n = 0; n < COUNT; n++) {
            memcpy(message.body, &n, sizeof n);
            while (msgsnd(id, &message, sizeof n, 0) != 0)
                if (errno != EINTR)
                    _exit(1);
        }
        _exit(0);
    }
    for (int n = 0, got; n < COUNT; n++) {
        wrong += receive(id) != sizeof got;
        memcpy(&got, message.body, sizeof got);
        wrong += got != n;
    }
    while (waitpid(child, NULL, 0) < 0 && errno == EINTR)
        ;
    tick(0, 0);
    printf("storm: wrong %d, left %ld\n", wrong, left(id));
    end(id);
}

static void restart(void) {
    int id = make();
    handle(SIGALRM, nothing, SA_RESTART);
    tick(50000, 0);
    say("msgrcv with SA_RESTART", msgrcv(id, &message, ROOM, 0, 0));
    while (msgsnd(id, &message, ROOM, IPC_NOWAIT) == 0)
        ;
    tick(50000, 0);
    say("msgsnd with SA_RESTART", msgsnd(id, &message, ROOM, 0));
    end(id);
}

static sigjmp_buf far_away;

static void leave(int number) {
    siglongjmp(far_away, number);
}

static void leave_plainly(int number) {
    longjmp(far_away, number);
}

/* A wait that a handler leaves takes nothing. */
static void jump(void) {
    int id = make();
    for (volatile int n = 0; n < 20; n++) {
        handle(SIGALRM, n % 2 == 0 ? leave : leave_plainly, SA_NODEFER);
        if (sigsetjmp(far_away, n % 2 == 0) == 0) {
            tick(3000, 0);
            (void)msgrcv(id, &message, ROOM, 0, 0);
        }
    }
    for (int n = 0; n < 3; n++)
        (void)msgsnd(id, &message, 4, 0);
    (void)usleep(20000);
    printf("jump: left %ld of 3\n", left(id));
    end(id);
}

/* One that jumps, and stays in the handler. */
static void jump_inside(int number) {
    jmp_buf near_by;
    if (setjmp(near_by) == 0)
        longjmp(near_by, number);
}

static void stay(void) {
    int id = make();
    handle(SIGALRM, jump_inside, 0);
    tick(20000, 0);
    say("a wait around a jump inside of a handler", msgrcv(id, &message, ROOM, 0, 0));
    say("and behind it", msgsnd(id, &message, 4, 0));
    say("nothing is lost", receive(id));
    end(id);
}

static int other;

static void send_one(int number) {
    struct message one = {number, "handler"};
    (void)msgsnd(other, &one, 7, IPC_NOWAIT);
}

static void handler(void) {
    int id = make();
    other = make();
    handle(SIGALRM, send_one, 0);
    tick(30000, 0);
    say("a wait around a handler that sends", msgrcv(id, &message, ROOM, 0, 0));
    say("what it sent", msgrcv(other, &message, ROOM, SIGALRM, IPC_NOWAIT));
    end(id);
    end(other);
}

/* ---- descriptors */

static void closed(void) {
    struct stat found;
    int id = make(), file;
    char name[] = "/tmp/pitfalls.XXXXXX";
    say("before", msgsnd(id, &message, 5, 0));
    (void)syscall(SYS_close_range, 3U, ~0U, 0U);
    must((file = mkstemp(name)) >= 0 && unlink(name) == 0);
    for (int n = 0; n < 600; n++)
        (void)!dup(file);
    say("all others are closed, and their numbers taken", msgsnd(id, &message, 5, 0));
    say("receive", msgrcv(id, &message, ROOM, 0, 0));
    must(fstat(file, &found) == 0);
    printf("closed: %ld bytes in a stranger\n", (long)found.st_size);
    (void)syscall(SYS_close_range, 3U, ~0U, 0U);
    end(id);
}

/* Closes 0 and 1, and calls: the next number that is free is 0. */
static void daemon_like(void) {
    int id = make(), out = dup(1);
    (void)close(0);
    (void)close(1);
    long sent = msgsnd(id, &message, 5, 0);
    int first = open("/dev/null", O_RDONLY), second = open("/dev/null", O_WRONLY);
    if (dup2(out, 1) < 0)
        _exit(1);
    (void)close(out);
    printf("daemon: %ld, first free %d, second %d\n", sent, first, second);
    end(id);
}

/* ---- processes and threads */

static void forks(void) {
    enum { CHILDREN = 6, COUNT = 200 };
    int id = make(), seen[CHILDREN] = {0}, wrong = 0;
    (void)msgsnd(id, &message, 5, 0);
    (void)receive(id);
    (void)fflush(stdout);
    for (int child = 0; child < CHILDREN; child++)
        if (fork() == 0) {
            struct message one = {child + 1, ""};
            for (int n = 0; n < COUNT; n++) {
                memcpy(one.body, &n, sizeof n);
                if (msgsnd(id, &one, sizeof n, 0) != 0)
                    _exit(1);
            }
            _exit(0);
        }
    for (int n = 0, got; n < CHILDREN * COUNT; n++) {
        wrong += receive(id) != sizeof got;
        memcpy(&got, message.body, sizeof got);
        wrong += message.type < 1 || message.type > CHILDREN || seen[message.type - 1]++ != got;
    }
    while (wait(NULL) > 0)
        ;
    printf("forks: wrong %d, left %ld\n", wrong, left(id));
    end(id);
}

/* Against POSIX, and done. */
static void vforks(void) {
    int id = make();
    message.type = 1;
    (void)msgsnd(id, &message, 5, 0);
    for (int n = 0; n < 3; n++) {
        pid_t child = vfork();
        if (child == 0) {
            (void)msgsnd(id, &message, 5, 0);
            _exit(0);
        }
        (void)waitpid(child, NULL, 0);
    }
    printf("vfork: %ld messages\n", left(id));
    say("its parent", msgrcv(id, &message, ROOM, 0, IPC_NOWAIT));
    end(id);
}

static void *take(void *id) {
    struct message one;
    return (void *)(intptr_t)msgrcv(*(int *)id, &one, ROOM, 0, 0);
}

static void threads(void) {
    enum { THREADS = 16 };
    pthread_t all[THREADS];
    void *got;
    long sum = 0;
    int id = make();
    for (int n = 0; n < THREADS; n++)
        (void)pthread_create(&all[n], NULL, take, &id);
    for (int n = 0; n < THREADS; n++)
        (void)msgsnd(id, &message, (size_t)n, 0);
    for (int n = 0; n < THREADS; n++) {
        (void)pthread_join(all[n], &got);
        sum += (intptr_t)got;
    }
    printf("threads: %ld bytes in all\n", sum);
    end(id);
}

/* A thread that is cancelled while it waits takes nothing. */
static void cancel(void) {
    pthread_t one;
    void *got;
    int id = make(), wrong = 0;
    for (int n = 0; n < 20; n++) {
        (void)pthread_create(&one, NULL, take, &id);
        (void)usleep(2000);
        (void)pthread_cancel(one);
        (void)pthread_join(one, &got);
        wrong += got != PTHREAD_CANCELED;
    }
    (void)msgsnd(id, &message, 5, 0);
    (void)usleep(20000);
    printf("cancel: not cancelled %d, left %ld of 1\n", wrong, left(id));
    end(id);
}

/* A process waits in a thread, has a child that holds its descriptors, and is killed: nobody takes the message. */
static void death(void) {
    int id = make();
    (void)fflush(stdout);
    pid_t child = fork();
    if (child == 0) {
        pthread_t one;
        (void)pthread_create(&one, NULL, take, &id);
        (void)usleep(50000);
        if (fork() == 0) {
            (void)sleep(1);
            _exit(0);
        }
        for (;;)
            (void)pause();
    }
    (void)usleep(150000);
    (void)kill(child, SIGKILL);
    (void)waitpid(child, NULL, 0);
    (void)usleep(50000);
    (void)msgsnd(id, &message, 5, 0);
    (void)usleep(50000);
    printf("death: left %ld of 1\n", left(id));
    end(id);
}

/* What is run by exec inherits nothing. */
static void exec(void) {
    int id = make();
    (void)msgsnd(id, &message, 5, 0);
    (void)fflush(stdout);
    pid_t child = fork();
    if (child == 0) {
        (void)execl("/bin/sh", "sh", "-c", "cd /proc/self/fd && for n in *; do [ $n -lt 3 ] || readlink $n; done | grep -c socket", NULL);
        _exit(1);
    }
    (void)waitpid(child, NULL, 0);
    end(id);
}

static void removed(void) {
    int id = make();
    (void)fflush(stdout);
    pid_t child = fork();
    if (child == 0) {
        (void)usleep(50000);
        _exit(msgctl(id, IPC_RMID, NULL) != 0);
    }
    say("a wait on a queue that is removed", msgrcv(id, &message, ROOM, 0, 0));
    (void)waitpid(child, NULL, 0);
}

/* ---- extensions */

/* An extension that is opened with RTLD_DEEPBIND, as PHP does: DEEP names it. It tells whether it sees the queue. */
static void deep(void) {
    const char *name = getenv("DEEP");
    int id = make();
    void *extension = name == NULL ? NULL : dlopen(name, RTLD_NOW | RTLD_DEEPBIND);
    int (*count)(int) = extension == NULL ? NULL : (int (*)(int))dlsym(extension, "count");
    (void)msgsnd(id, &message, 5, 0);
    printf("deep: %d\n", count == NULL ? -2 : count(id));
    end(id);
}

static const struct {
    const char *name;
    void (*run)(void);
} ALL[] = {
    {"storm", storm},     {"restart", restart}, {"jump", jump},     {"stay", stay},       {"handler", handler}, {"closed", closed},
    {"daemon", daemon_like}, {"forks", forks},  {"vforks", vforks}, {"threads", threads}, {"cancel", cancel},   {"death", death},
    {"exec", exec},       {"removed", removed}, {"deep", deep},
};

int main(int argc, char **argv) {
    for (size_t at = 0; at < sizeof ALL / sizeof *ALL; at++) {
        bool is_asked = argc < 2;
        for (int n = 1; n < argc; n++)
            is_asked |= strcmp(argv[n], ALL[at].name) == 0;
        if (is_asked)
            ALL[at].run();
        (void)fflush(stdout);
    }
    return 0;
}
