/* What a client is told by a server that answers, ends or says what is none, as line.h and docs/PROTOCOL.md have it. Run with the path of a
 * new socket. */
#include "scripted.h"

#include <fcntl.h>
#include <pthread.h>
#include <setjmp.h>
#include <sys/time.h>
#include <time.h>

static const struct waiting AGAIN = {.waits = true, .asks_again = true};

static struct timespec in_a_moment(void) {
    struct timespec it;
    clock_gettime(CLOCK_MONOTONIC, &it);
    it.tv_nsec += 50000000;
    if (it.tv_nsec >= 1000000000) {
        it.tv_sec++;
        it.tv_nsec -= 1000000000;
    }
    return it;
}

/* ---- a server that ends */

/* A server that does not read what it is sent, and the next. */
static void does_not_read(void) {
    int fd = client();
    await(fd);
    close(fd);
    fd = client();
    tell(fd, hear(fd, 2).number, 0, 0, "\1\0\0\0\0\0\0\0", 8);
    /* This one goes between two requests. */
    close(fd);
    fd = client();
    tell(fd, hear(fd, 2).number, 201, 0, NULL, 0);
    close(fd);
    fd = client();
    tell(fd, hear(fd, 2).number, 0, 0, "\2\0\0\0\0\0\0\0", 8);
    gone(fd);
}

static void not_read(void) {
    serves(does_not_read);
    struct server *server = begun(2000);
    is(sends(server, &WAITS), 0, "a request that was not read is made again");
    struct timespec nap = {0, 50000000};
    nanosleep(&nap, NULL);
    is(sends(server, &WAITS), 0, "so is one behind the end, and one that is told that the server ends");
    server_end(server);
    has_ended("not read");
}

static void reads_and_ends(void) {
    int fd = client();
    (void)hear(fd, 2);
    close(fd);
    fd = client();
    (void)hear(fd, 2);
    close(fd);
    fd = client();
    tell(fd, hear(fd, 2).number, 0, 0, "\1\0\0\0\0\0\0\0", 8);
    fd = client();
    (void)hear(fd, 3);
    await(fd);
    close(fd);
    fd = client();
    give(fd, "\30\0\0\0", 4 * (hear(fd, 2).number > 0));
    close(fd);
}

static void lost(void) {
    struct timespec end;
    struct waiting limited = {.waits = true, .end = &end};
    serves(reads_and_ends);
    struct server *server = begun(2000);
    is(sends(server, &WAITS), -ECONNRESET, "it is not known whether a request was made");
    is(sends(server, &AGAIN), 0, "one that is to be made again all the same");
    server_end(server);
    server = begun(2000);
    end = in_a_moment();
    is(receives(server, &limited), -ECONNRESET, "so it is where the cancel was not read");
    is(sends(server, &WAITS), -ECONNRESET, "so it is behind half an answer");
    server_end(server);
    has_ended("lost");
}

static void ends_again_and_again(void) {
    for (int n = 0; n < 3; n++) {
        int fd = client();
        tell(fd, hear(fd, 2).number, 201, 0, NULL, 0);
        close(fd);
    }
    unlink(path);
}

static void nobody_serves(void) {
    struct greeting greeting;
    struct timespec end;
    struct waiting limited = {.waits = true, .end = &end};
    serves(ends_again_and_again);
    struct server *server = begun(200);
    is(sends(server, &WAITS), -ENOTCONN, "nobody serves any more");
    has_ended("again and again");
    is(sends(server, &AGAIN), -ENOTCONN, "nobody serves");
    end = in_a_moment();
    is(receives(server, &limited), -ETIMEDOUT, "nobody serves before the limit");
    is(server_greeting(server, &greeting), -ENOENT, "nobody greets");
    server_end(server);
}

/* Servers that end at once, without end. */
static void ends_for_ever(void) {
    for (;;) {
        int fd = client();
        tell(fd, hear(fd, 3).number, 201, 0, NULL, 0);
        close(fd);
    }
}

static void interrupts(int number) {
    (void)number;
}

static void no_server_lasts(void) {
    const struct itimerval often = {{0, 3000}, {0, 3000}}, never = {{0, 0}, {0, 0}};
    struct sigaction act = {.sa_handler = interrupts};
    serves(ends_for_ever);
    struct server *server = begun(300);
    is(receives(server, &WAITS), -ENOTCONN, "no server lasts");
    server_end(server);
    server = begun(10000);
    sigaction(SIGALRM, &act, NULL);
    setitimer(ITIMER_REAL, &often, NULL);
    is(receives(server, &WAITS), -EINTR, "a signal while no server lasts");
    setitimer(ITIMER_REAL, &never, NULL);
    server_end(server);
    kill(process, SIGKILL);
    waitpid(process, NULL, 0);
}

static void end_now_and_then(void) {
    for (int n = 0; n < 3; n++) {
        int fd = client();
        uint32_t number = hear(fd, 3).number;
        usleep(n == 1 ? 500000 : 0);
        tell(fd, number, n < 2 ? 201 : 7, 0, NULL, 0);
        close(fd);
    }
    int fd = client();
    (void)hear(fd, 2);
    unlink(path);
    close(fd);
}

static void now_and_then(void) {
    serves(end_now_and_then);
    struct server *server = begun(200);
    is(receives(server, &WAITS), 7, "a wait outlasts servers that end now and then");
    is(sends(server, &AGAIN), -ECONNRESET, "what a lost server may have done is not known, where there is no other");
    server_end(server);
    has_ended("now and then");
}

/* ---- waits that end */

/* Hears a receive, and interrupts it at once, before the client waits or then: it is cancelled. */
static uint32_t interrupted(int fd) {
    uint32_t number = hear(fd, 3).number;
    kill(getppid(), SIGUSR1);
    await(fd);
    must(hear(fd, 11).id == number, "what is cancelled");
    return number;
}

static void is_cancelled(void) {
    int fd = client();
    uint32_t number = interrupted(fd);
    tell(fd, number, 200, 0, NULL, 0);
    /* The answer was on its way. */
    number = interrupted(fd);
    tell_message(fd, number, 4, "four");
    number = hear(fd, 3).number;
    must(hear(fd, 11).id == number, "what is cancelled");
    tell(fd, number, 200, 0, NULL, 0);
    tell(fd, interrupted(fd), 200, 0, NULL, 0);
    /* A call that does not wait goes on, and so does an answer that has begun. */
    uint8_t frame[64];
    number = hear(fd, 4).number;
    usleep(50000);
    kill(getppid(), SIGUSR1);
    tell(fd, number, 7, 0, NULL, 0);
    (void)answer(frame, hear(fd, 3).number, 0, 0, "\1\0\0\0\0\0\0\0\0\0\0\0\0\0\0\0\0\0\0\0\0\0\0\0", 24);
    give(fd, frame, 1);
    for (int n = 1; n < 40; n++) {
        usleep(2000);
        kill(getppid(), SIGUSR1);
        give(fd, frame + n, 1);
    }
    gone(fd);
}

static void cancelled(void) {
    struct timespec end;
    struct waiting limited = {.waits = true, .end = &end};
    struct known known;
    struct sigaction act = {.sa_handler = interrupts, .sa_flags = SA_RESTART};
    sigaction(SIGUSR1, &act, NULL);
    serves(is_cancelled);
    struct server *server = begun(1000);
    is(receives(server, &WAITS), -EINTR, "a signal, also where it restarts calls");
    is(receives(server, &WAITS), 0, "a message that came with it");
    end = in_a_moment();
    is(receives(server, &limited), -ETIMEDOUT, "a limit");
    end = in_a_moment();
    end.tv_sec += 2000;
    is(receives(server, &limited), -EINTR, "a signal before the limit");
    is(request_stat(server, 3, &known), 7, "what does not wait is not interrupted");
    is(receives(server, &WAITS), 0, "nor is an answer that has begun");
    server_end(server);
    has_ended("cancelled");
}

enum { STORM = 2000 };

static void storms(void) {
    int fd = client();
    for (int n = 0; n < STORM; n++)
        tell(fd, interrupted(fd), 200, 0, NULL, 0);
    gone(fd);
}

/* One signal for each wait, as soon as the server has its request. */
static void a_storm(void) {
    int interrupted = 0;
    serves(storms);
    struct server *server = begun(1000);
    for (int n = 0; n < STORM; n++)
        interrupted += receives(server, &WAITS) == -EINTR;
    is(interrupted, STORM, "waits that a signal has ended");
    server_end(server);
    has_ended("a storm of signals");
}

static void interrupted_away(void) {
    const struct itimerval often = {{0, 20000}, {0, 20000}}, never = {{0, 0}, {0, 0}};
    struct sigaction act = {.sa_handler = interrupts};
    struct server *server = begun(10000);
    sigaction(SIGALRM, &act, NULL);
    setitimer(ITIMER_REAL, &often, NULL);
    is(receives(server, &WAITS), -EINTR, "a signal while nobody serves");
    setitimer(ITIMER_REAL, &never, NULL);
    server_end(server);
}

/* ---- what is none */

static const struct {
    const char *what;
    uint32_t number, code, value; /* how far from what is right */
    size_t count;
} WRONG[] = {
    {"an answer to another request", 1, 0, 0, 24}, {"a wrong frame", 0, 203, 0, 0},
    {"what nobody has cancelled", 0, 200, 0, 0},   {"a code that is none", 0, 100, 0, 0},
    {"another code that is none", 0, 199, 0, 0},   {"a code above all", 0, 204, 0, 0},
    {"a message without a type", 0, 0, 0, 23},     {"more than there is room for", 0, 0, 1025, 24 + 1025},
};
enum { WRONGS = sizeof WRONG / sizeof *WRONG };

static void tells_what_is_none(void) {
    static const uint8_t fields[2000] = {1};
    for (int n = 0; n < WRONGS; n++) {
        int fd = client();
        uint32_t number = hear(fd, 3).number + WRONG[n].number;
        tell(fd, number, WRONG[n].code, WRONG[n].value, fields, WRONG[n].count);
        gone(fd);
    }
    int fd = client();
    (void)hear(fd, 3);
    give(fd, "\10\0\0\0\1\0\0\0\0\0\0\0\0\0\0\0", 16);
    gone(fd);
    fd = client();
    tell(fd, hear(fd, 4).number, 0, 0, fields, 71);
    gone(fd);
    greet(fd = accepted(), 2);
    gone(fd);
    /* Another length, a number and a code. */
    for (int at = 0; at < 12; at += 4) {
        uint8_t greeting[36] = {[0] = 32, [12] = 1};
        greeting[at]++;
        give(fd = accepted(), greeting, sizeof greeting);
        gone(fd);
    }
    fd = accepted();
    give(fd, "\40\0\0\0", 4);
    close(fd);
}

static void none(void) {
    struct known known;
    struct greeting greeting;
    serves(tells_what_is_none);
    struct server *server = begun(1000);
    for (int n = 0; n < WRONGS; n++)
        is(receives(server, &WAITS), -EPROTO, WRONG[n].what);
    is(receives(server, &WAITS), -EPROTO, "an answer without a head");
    is(request_stat(server, 3, &known), -EPROTO, "fields of another length");
    server_end(server);
    server = begun(1000);
    is(server_greeting(server, &greeting), -EPROTO, "another version");
    for (int n = 0; n < 3; n++)
        is(server_greeting(server, &greeting), -EPROTO, "a greeting that is none");
    is(server_greeting(server, &greeting), -ECONNRESET, "half a greeting");
    server_end(server);
    has_ended("what is none");
}

int main(int argc, char **argv) {
    if (argc != 2)
        return 2;
    snprintf(path, sizeof path, "%s", argv[1]);
    not_read();
    lost();
    nobody_serves();
    no_server_lasts();
    now_and_then();
    cancelled();
    a_storm();
    unlink(path);
    interrupted_away();
    none();
    unlink(path);
    printf("%d passed, %d failed\n", passed, failed);
    return failed > 0;
}
