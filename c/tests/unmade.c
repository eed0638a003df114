/* Each call of the system that a connection makes fails in turn: a request is told so, and the next one is done. What is expected stands in
 * line.h and wire.h. Run with the path of a new socket. */
#include "failures.h"

/* ---- requests */

/* Answers each client until it goes. */
static void answers_all(void) {
    signal(SIGCHLD, SIG_IGN);
    for (;;) {
        int fd = accepted();
        if (fork() == 0) {
            struct pollfd at = {.fd = fd, .events = POLLIN};
            char byte;
            /* (a client may be gone by now, of which nothing is said) */
            close(2);
            greet(fd, 1);
            while (poll(&at, 1, 10000) == 1 && recv(fd, &byte, 1, MSG_PEEK) == 1) {
                struct heard it = hear(fd, byte == 20 + 4 ? 3 : 7);
                tell(fd, it.number, it.operation == 3 ? 7 : 0, 1, NULL, 0);
            }
            _exit(0);
        }
        close(fd);
    }
}

static struct server *fresh(void) {
    server = begun(2000);
    return server;
}

/* A request for which a call fails, and the one behind it. */
static void fails(enum call call, int at, int count, int wrong, int expected, const char *what) {
    fresh();
    arm(call, at, count, wrong);
    is(asks(), expected, what);
    is(disarm(), true, "it is come to");
    if (expected != 0)
        is(descriptor(), -1, "what is left of it");
    is(asks(), 0, "the request behind it");
    server_end(server);
    is(descriptor(), -1, "what is left");
}

static void dialling(void) {
    fails(SETSPECIFIC, 1, 1, ENOMEM, -ENOMEM, "no memory for a thread's line");
    fails(SIGMASK, 1, 1, EINVAL, -ENOMEM, "signals are not held up");
    fails(SOCKET, 1, 1, EMFILE, -EMFILE, "no socket");
    fails(FCNTL, 1, 1, EINVAL, 0, "no number that is far away");
    fails(FCNTL, 1, 2, EMFILE, -EMFILE, "no number");
    fails(FSTAT, 1, 1, ENOMEM, -ENOMEM, "a socket that is not known");
    fails(CONNECT, 1, 1, EACCES, -EACCES, "a socket that may not be used");
    fails(CONNECT, 1, 1, EINTR, 0, "a signal upon a connect");
    fails(CONNECT, 1, 1, EISCONN, 0, "a connect that was done");
    fails(CONNECT, 1, 3, ECONNREFUSED, 0, "nobody serves yet");
    fails(CONNECT, 1, 3, EAGAIN, 0, "too many are about to connect");
    takes = 11;
    fails(CONNECT, 1, 1, EAGAIN, -ENOTCONN, "too many, for longer than ten seconds");
    takes = 0;
    fails(RECVMSG, 1, 1, EINTR, 0, "a signal upon a greeting");
    fails(RECVMSG, 1, 1, EAGAIN, 0, "a greeting that is not there after all");
    fails(POLL, 1, 1, EINTR, 0, "a signal upon the wait for a greeting");
    fails(POLL, 1, 1, 0, -ENOTCONN, "no greeting in time");
    fails(POLL, 1, 1, ENOMEM, -ENOMEM, "a wait that can't be begun");
    fails(RECVMSG, 1, 1, EIO, -EIO, "no greeting");
    fails(RECVMSG, 1, 1, ECONNRESET, 0, "a server that ends before it greets");
}

static void asking(void) {
    fails(SENDMSG, 1, 1, EINTR, 0, "a signal upon a request");
    fails(SENDMSG, 1, 1, 0, 0, "a request in two pieces");
    fails(SENDMSG, 1, 1, EPIPE, 0, "a server that has ended");
    fails(SENDMSG, 1, 1, ECONNRESET, 0, "a server that has ended with something unread");
    fails(SENDMSG, 1, 1, ENOTCONN, 0, "a socket that is not connected");
    fails(SENDMSG, 1, 1, EFAULT, -EFAULT, "a body that is no memory");
    fails(SENDMSG, 1, 1, EAGAIN, 0, "a socket without room");
    fails(RECVMSG, 2, 1, EAGAIN, 0, "an answer that is not there after all");
    fails(RECVMSG, 2, 1, EINTR, 0, "a signal upon a call that does not wait");
    fails(POLL, 2, 1, EINTR, 0, "a signal upon its wait");
    fails(RECVMSG, 2, 1, ECONNRESET, 0, "a server that has not read the request");
    fails(RECVMSG, 2, 1, EFAULT, -EFAULT, "room that is no memory");
}

/* ---- several at once */

/* Two requests of which nobody needs to know more than that they were made. */
static int asks_two(int *done) {
    const struct request asked = {.operation = NEXT, .how = {.waits = false}}, two[] = {asked, asked};
    uint8_t field;
    const struct iovec nothing = {&field, 0};
    struct answer told[2] = {{.room = &nothing, .parts = 1}, {.room = &nothing, .parts = 1}};
    return server_ask_all(server, two, told, done, 2);
}

static void together(enum call call, int at, int wrong, int first, int second, const char *what) {
    int done[2] = {77, 77};
    fresh();
    is(asks(), 0, "a request");
    arm(call, at, 1, wrong);
    is(asks_two(done), 0, what);
    is(disarm(), true, "it is come to");
    is(done[0], first, what);
    is(done[1], second, what);
    is(asks_two(done), 0, "two behind them");
    is(done[0] == 0 && done[1] == 0, true, "two behind them");
    server_end(server);
    is(descriptor(), -1, "what is left");
}

static void several(void) {
    int done[2];
    together(SENDMSG, 1, EPIPE, -ENOTCONN, -ENOTCONN, "a server that has ended");
    together(SENDMSG, 2, EPIPE, -ECONNRESET, -ENOTCONN, "a server that ends between");
    together(SENDMSG, 2, EFAULT, 0, -EFAULT, "a body that is no memory");
    together(SENDMSG, 2, EAGAIN, 0, 0, "a socket without room");
    together(POLL, 1, EINTR, 0, 0, "a signal upon their answers");
    together(POLL, 1, ENOMEM, -ENOMEM, -ENOMEM, "a wait that can't be begun");
    together(RECVMSG, 1, EIO, -EIO, -EIO, "no answers");
    fresh();
    arm(SOCKET, 1, 1, EMFILE);
    is(asks_two(done), -EMFILE, "no socket");
    is(disarm(), true, "it is come to");
    arm(SETSPECIFIC, 1, 1, ENOMEM);
    is(asks_two(done), 0, "a line that is there");
    disarm();
    server_end(server);
    fresh();
    arm(SETSPECIFIC, 1, 1, ENOMEM);
    is(asks_two(done), -ENOMEM, "no memory for a thread's line");
    is(disarm(), true, "it is come to");
    server_end(server);
}

/* A nap that a signal ends is one of a request that does not wait. */
static void naps(void) {
    fresh();
    unlink(path);
    arm(NAP, 1, 3, EINTR);
    struct server *short_one = begun(30);
    server_end(server);
    server = short_one;
    is(asks(), -ENOTCONN, "nobody serves");
    is(disarm(), true, "it is come to");
    server_end(server);
}

static void a_limit(void) {
    struct timespec soon = {0, 0};
    const struct waiting how = {.waits = true, .end = &soon};
    clock_gettime(CLOCK_MONOTONIC, &soon);
    soon.tv_sec += 10;
    fresh();
    is(asks(), 0, "a request");
    arm(POLL, 1, 1, ENOMEM);
    is(receives(server, &how), -ENOMEM, "a wait that can't be begun");
    is(disarm(), true, "it is come to");
    arm(SIGMASK, 1, 1, EINVAL);
    is(receives(server, &how), -EINVAL, "signals are not held back");
    is(disarm(), true, "it is come to");
    is(receives(server, &how), 7, "the one behind it");
    server_end(server);
}

/* ---- signals that come before a wait */

static volatile sig_atomic_t handled;

static void handles(int which_one) {
    (void)which_one;
    handled++;
}

static bool is_held(void) {
    sigset_t now;
    (void)pthread_sigmask(SIG_SETMASK, NULL, &now);
    return sigismember(&now, SIGUSR1) || sigismember(&now, SIGTERM);
}

/* Answers a receive once it is cancelled. */
static void answers_cancels(void) {
    int fd = client();
    for (int n = 0; n < 2; n++) {
        uint32_t heard = hear(fd, 3).number;
        await(fd);
        must(hear(fd, 11).id == heard, "what is cancelled");
        tell(fd, heard, 200, 0, NULL, 0);
    }
    gone(fd);
}

/* A call that waits is interrupted by a signal from its beginning on, wherever that meets it. */
static void signals(void) {
    static const struct {
        enum call call;
        int expected;
        const char *what;
    } ways[] = {{SENDMSG, -EINTR, "a signal between the request and the wait"}, {CONNECT, -EINTR, "a signal upon a connect"}};
    struct sigaction act = {.sa_handler = handles, .sa_flags = SA_RESTART};
    sigaction(SIGUSR1, &act, NULL);
    for (size_t n = 0; n < sizeof ways / sizeof *ways; n++) {
        begin(answers_cancels);
        handled = 0;
        arm(ways[n].call, 1, 1, SIGNAL);
        is(receives(server, &WAITS), ways[n].expected, ways[n].what);
        is(disarm(), true, "it is come to");
        is(handled, 1, "the handler has run");
        is(is_held(), false, "signals are held back behind it");
        if (ways[n].call == CONNECT) {
            /* Of which the server has not heard. */
            kill(process, SIGKILL);
            waitpid(process, NULL, 0);
            server_end(server);
            continue;
        }
        arm(SENDMSG, 1, 1, SIGNAL);
        is(receives(server, &WAITS), -EINTR, ways[n].what);
        is(disarm(), true, "it is come to");
        end(ways[n].what);
    }
    /* Between two tries: nobody serves. */
    unlink(path);
    server = begun(10000);
    arm(CONNECT, 1, 1, SIGNAL);
    is(receives(server, &WAITS), -EINTR, "a signal while nobody serves");
    is(disarm(), true, "it is come to");
    server_end(server);
}

/* ---- servers */

static void beginnings(void) {
    static const struct {
        enum call call;
        int wrong;
    } ways[] = {{CALLOC, ENOMEM}, {GETCWD, ERANGE}, {KEY_CREATE, EAGAIN}};
    struct server *made;
    for (size_t n = 0; n < sizeof ways / sizeof *ways; n++) {
        arm(ways[n].call, 1, 1, ways[n].wrong);
        is(server_begin("socket", 100, &made), ways[n].wrong, "a server that can't be begun");
        is(disarm(), true, "it is come to");
    }
    char long_one[5000];
    memset(long_one, 'x', sizeof long_one - 1);
    long_one[sizeof long_one - 1] = '\0';
    struct wire wire;
    is(server_begin(long_one, 100, &made), ENAMETOOLONG, "a name that is too long");
    is(wire_dial(&wire, long_one, NULL), ENAMETOOLONG, "a name that is too long");
    snprintf(long_one, 300, "/tmp/%0*d/s", 150, 0);
    struct greeting greeting;
    is(server_begin(long_one, 100, &made), 0, "a name that is long");
    is(server_greeting(made, &greeting), -ENOENT, "its folder is not there");
    arm(OPEN, 1, 1, EACCES);
    is(server_greeting(made, &greeting), -EACCES, "its folder can't be opened");
    is(disarm(), true, "it is come to");
    server_end(made);
    snprintf(long_one, 300, "/tmp/%0*d", 150, 0);
    is(server_begin(long_one, 100, &made), 0, "a name that is long");
    is(server_greeting(made, &greeting), -ENAMETOOLONG, "its last part is too long for a socket");
    server_end(made);
}

/* What a process does once alone is tried in one of its own. */
static void once(void) {
    pid_t child = fork();
    if (child == 0) {
        struct server *made;
        arm(ATFORK, 1, 1, ENOMEM);
        is(server_begin(path, 100, &made), ENOMEM, "a process that can't be told of forks");
        _exit(failed > 0);
    }
    is(child_ends(child), 0, "a process that can't be told of forks");
    child = fork();
    if (child == 0) {
        fresh();
        arm(MMAP, 1, 1, ENOMEM);
        is(asks(), -ENOMEM, "no memory for lines");
        is(disarm(), true, "it is come to");
        is(asks(), 0, "the request behind it");
        _exit(failed > 0);
    }
    is(child_ends(child), 0, "a process without memory");
}

int main(int argc, char **argv) {
    if (argc != 2)
        return 2;
    snprintf(path, sizeof path, "%s", argv[1]);
    serves(answers_all);
    once();
    dialling();
    asking();
    several();
    a_limit();
    naps();
    beginnings();
    kill(process, SIGKILL);
    waitpid(process, NULL, 0);
    signals();
    unlink(path);
    printf("%d passed, %d failed\n", passed, failed);
    return failed > 0;
}
