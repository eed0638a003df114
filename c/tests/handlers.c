/* What becomes of a wait upon which the handler of a signal asks, forks or jumps, as line.h has it. Run with the path of a new socket. */
#include "scripted.h"

#include <pthread.h>
#include <setjmp.h>

static int told_handler;
static sigjmp_buf place;
static pid_t child_of_handler;

static void handler_asks(int number) {
    int was = errno;
    (void)number;
    told_handler = asks();
    errno = was;
}

static void handler_forks(int number) {
    int was = errno;
    (void)number;
    child_of_handler = fork();
    errno = was;
}

static void handler_jumps(int number) {
    (void)number;
    siglongjmp(place, 1);
}

static void handler_leaves(int number) {
    (void)number;
    server_leave(server);
    siglongjmp(place, 1);
}

static void on_signal(void (*handler)(int), int flags) {
    struct sigaction act = {.sa_handler = handler, .sa_flags = flags};
    sigaction(SIGUSR1, &act, NULL);
}

/* Hears a receive, and interrupts it, until the client says more. Where a handler asks, that is a connection of its own, which ends with
 * it. */
static uint32_t interrupted(int fd) {
    uint32_t number = hear(fd, 3).number;
    struct pollfd at[] = {{.fd = fd, .events = POLLIN}, {.fd = listener, .events = POLLIN}};
    kill(getppid(), SIGUSR1);
    while (poll(at, 2, 10000) > 0 && (at[0].revents & POLLIN) == 0) {
        int other = client();
        answers(other, 1);
        gone(other);
    }
    return number;
}

static void interrupts(int times) {
    for (int n = 0; n < times; n++) {
        int fd = client();
        uint32_t number = interrupted(fd);
        must(hear(fd, 11).id == number, "what is cancelled");
        tell(fd, number, 200, 0, NULL, 0);
        gone(fd);
    }
}

static void interrupts_two(void) {
    interrupts(2);
}

/* A wait of a thread whose handlers have a stack above its own: the first thread's. */
static void *waits_below(void *stack) {
    const stack_t above = {.ss_sp = stack, .ss_size = 1 << 16};
    sigset_t one;
    sigemptyset(&one);
    sigaddset(&one, SIGUSR1);
    is(sigaltstack(&above, NULL), 0, "a stack");
    is(pthread_sigmask(SIG_UNBLOCK, &one, NULL), 0, "a signal");
    is(receives(server, &WAITS), -EINTR, "a wait upon which a handler asks on another stack");
    return NULL;
}

static void handlers(void) {
    char stack[1 << 16];
    pthread_t thread;
    sigset_t one;
    sigemptyset(&one);
    sigaddset(&one, SIGUSR1);
    begin(interrupts_two);
    on_signal(handler_asks, SA_ONSTACK);
    told_handler = -1;
    is(receives(server, &WAITS), -EINTR, "a wait upon which a handler asks");
    is(told_handler, 0, "what the handler asks");
    server_end(server);
    server = begun(1000);
    told_handler = -1;
    /* (a new thread blocks what this one does) */
    is(pthread_sigmask(SIG_BLOCK, &one, NULL), 0, "a signal");
    is(pthread_create(&thread, NULL, waits_below, stack), 0, "a thread");
    pthread_join(thread, NULL);
    is(pthread_sigmask(SIG_UNBLOCK, &one, NULL), 0, "a signal");
    is(told_handler, 0, "what the handler asks");
    end("handlers");
}

static void interrupts_one(void) {
    interrupts(1);
}

static void fork_in_a_handler(void) {
    begin(interrupts_one);
    on_signal(handler_forks, 0);
    int done = receives(server, &WAITS);
    if (child_of_handler == 0)
        _exit(done != -EINTR);
    is(done, -EINTR, "a wait upon which a handler forks");
    is(child_ends(child_of_handler), 0, "the same wait in the child");
    end("a fork in a handler");
}

static void is_left(void) {
    int fd = client();
    (void)hear(fd, 3);
    usleep(50000);
    kill(getppid(), SIGUSR1);
    /* By a jump that is told of at once, else at the next request. */
    gone(fd);
    answers(fd = client(), 1);
    gone(fd);
}

static void jumps(void (*handler)(int), const char *what) {
    begin(is_left);
    on_signal(handler, 0);
    if (sigsetjmp(place, 1) == 0)
        is(receives(server, &WAITS), 1, "a jump goes on");
    if (handler == handler_leaves) {
        is(server_under_way(server), 0, "requests under way");
        is(descriptor(), -1, "the connection of what was left");
    }
    is(asks(), 0, what);
    end(what);
}

static void handler_waits(int number) {
    (void)number;
    (void)receives(server, &WAITS);
}

static void is_left_twice(void) {
    int fd = client(), other;
    (void)hear(fd, 3);
    usleep(50000);
    kill(getppid(), SIGUSR2);
    other = client();
    (void)hear(other, 3);
    usleep(50000);
    kill(getppid(), SIGUSR1);
    gone(other);
    gone(fd);
    answers(fd = client(), 1);
    gone(fd);
}

/* A jump out of a handler that waits itself, upon a wait. */
static void jumps_far(void) {
    struct sigaction act = {.sa_handler = handler_waits};
    sigaction(SIGUSR2, &act, NULL);
    begin(is_left_twice);
    on_signal(handler_jumps, 0);
    if (sigsetjmp(place, 1) == 0)
        is(receives(server, &WAITS), 1, "a jump goes on");
    is(asks(), 0, "a request behind two waits that were left");
    end("two waits that were left");
}

static void handler_jumps_within(int number) {
    static sigjmp_buf within;
    (void)number;
    if (sigsetjmp(within, 1) == 0) {
        server_leave(server);
        siglongjmp(within, 1);
    }
}

static void is_not_left(void) {
    int fd = client();
    (void)interrupted(fd);
    gone(fd);
}

static void jumps_within(void) {
    begin(is_not_left);
    on_signal(handler_jumps_within, 0);
    is(receives(server, &WAITS), -ECONNRESET, "a wait that a jump did not leave after all");
    end("a jump within a handler");
}

int main(int argc, char **argv) {
    if (argc != 2)
        return 2;
    snprintf(path, sizeof path, "%s", argv[1]);
    handlers();
    fork_in_a_handler();
    jumps(handler_leaves, "a jump that is told of");
    jumps(handler_jumps, "a jump that is not told of");
    jumps_far();
    jumps_within();
    unlink(path);
    printf("%d passed, %d failed\n", passed, failed);
    return failed > 0;
}
