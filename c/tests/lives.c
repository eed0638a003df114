/* What becomes of a connection where threads, processes, users and descriptors come and go, as line.h has it. Run with the path of a
 * new socket. */
#include "scripted.h"

#include <fcntl.h>
#include <pthread.h>
#include <sys/resource.h>
#include <sys/syscall.h>

/* ---- descriptors */

static void one_and_another(void) {
    int fd = client();
    answers(fd, 1);
    gone(fd);
    fd = client();
    answers(fd, 2);
    gone(fd);
}

static void descriptors(void) {
    begin(one_and_another);
    is(asks(), 0, "a request");
    int fd = descriptor();
    is(fd >= 500, 1, "a number that is far away");
    is(fcntl(fd, F_GETFD), FD_CLOEXEC, "another program does not have it");
    close(fd);
    int other = open("/dev/null", O_RDONLY);
    is(dup2(other, fd), fd, "another file gets its number");
    is(asks(), 0, "a request behind it");
    is(fcntl(fd, F_GETFD), 0, "the other file stays open");
    is(asks(), 0, "and the new connection");
    close(fd);
    close(other);
    end("descriptors");
}

/* Where no number is far away it is none of the first three. */
static void few_descriptors(void) {
    struct rlimit before, few;
    begin(one);
    getrlimit(RLIMIT_NOFILE, &before);
    few = before;
    few.rlim_cur = 100;
    setrlimit(RLIMIT_NOFILE, &few);
    int in = dup(0);
    close(0);
    is(asks(), 0, "a request");
    is(descriptor() > 2 && descriptor() < 100, 1, "its number");
    is(fcntl(0, F_GETFD), -1, "the first stays closed");
    dup2(in, 0);
    close(in);
    setrlimit(RLIMIT_NOFILE, &before);
    end("few descriptors");
}

/* ---- users and processes */

static void tells_users(void) {
    for (int n = 0; n < 3; n++) {
        struct ucred who;
        socklen_t size = sizeof who;
        int fd = client();
        must(getsockopt(fd, SOL_SOCKET, SO_PEERCRED, &who, &size) == 0, "its user");
        tell(fd, hear(fd, 7).number, 0, n == 2 ? who.gid : who.uid, NULL, 0);
        gone(fd);
    }
}

static void users(void) {
    uint32_t id;
    if (geteuid() != 0)
        return;
    begin(tells_users);
    is(request_next(server, 0, &id), 0, "a request");
    is(id, 0, "its user");
    chmod(path, 0666);
    is(seteuid(65534), 0, "another user");
    is(request_next(server, 0, &id), 0, "a request");
    is(id, 65534, "its user");
    is(seteuid(0), 0, "back");
    is(setegid(65534), 0, "another group");
    is(seteuid(65534), 0, "another user");
    is(request_next(server, 0, &id), 0, "a request");
    is(id, 65534, "its group");
    is(seteuid(0), 0, "back");
    is(setegid(0), 0, "back");
    end("users");
}

static void parent_and_child(void) {
    int parent = client(), child, thread;
    answers(parent, 1);
    answers(child = client(), 1);
    answers(thread = client(), 1);
    gone(thread);
    gone(child);
    answers(parent, 1);
    gone(parent);
}

static void *asks_once(void *told) {
    *(int *)told = asks();
    return NULL;
}

static void forks(void) {
    begin(parent_and_child);
    is(asks(), 0, "a request of the parent");
    int fd = descriptor();
    fflush(stderr);
    pid_t child = fork();
    if (child == 0) {
        pthread_t thread;
        int told = -1;
        is(fcntl(fd, F_GETFD), -1, "the parent's connection");
        is(asks(), 0, "a request of the child");
        pthread_create(&thread, NULL, asks_once, &told);
        pthread_join(thread, NULL);
        is(told, 0, "a request of its thread");
        _exit(failed > 0);
    }
    is(child_ends(child), 0, "a child");
    is(asks(), 0, "a request of the parent");
    end("forks");
}

static void parent_and_other_child(void) {
    int parent = client(), child;
    answers(parent, 1);
    answers(child = client(), 1);
    gone(child);
    answers(parent, 1);
    gone(parent);
}

/* A child that was made past the library's back, as vfork(2) and clone(2) do. */
static void other_forks(void) {
    begin(parent_and_other_child);
    is(asks(), 0, "a request of the parent");
#ifdef SYS_fork
    pid_t child = (pid_t)syscall(SYS_fork);
#else
    pid_t child = (pid_t)syscall(SYS_clone, SIGCHLD, 0, 0, 0, 0);
#endif
    if (child == 0)
        _exit(asks() != 0);
    is(child_ends(child), 0, "a child");
    is(asks(), 0, "a request of the parent");
    end("other forks");
}

/* ---- threads */

static void each_thread(void) {
    int fds[4];
    for (int n = 0; n < 4; n++)
        fds[n] = client();
    for (int n = 0; n < 4; n++)
        answers(fds[n], 2);
    for (int n = 0; n < 4; n++)
        gone(fds[n]);
    /* The lines of those that have ended are taken again. */
    answers(fds[0] = client(), 1);
    gone(fds[0]);
}

static void *asks_twice(void *failures) {
    *(int *)failures = (asks() != 0) + (asks() != 0);
    return NULL;
}

static void threads(void) {
    pthread_t ids[4];
    int failures[4];
    begin(each_thread);
    for (int n = 0; n < 4; n++)
        pthread_create(&ids[n], NULL, asks_twice, &failures[n]);
    for (int n = 0; n < 4; n++) {
        pthread_join(ids[n], NULL);
        is(failures[n], 0, "requests of a thread");
    }
    is(server_under_way(server), 0, "requests under way");
    is(asks(), 0, "a request");
    end("threads");
}

static void two_of_one(void) {
    int first = client(), second;
    answers(first, 1);
    answers(second = client(), 1);
    gone(first);
    answers(second, 1);
    gone(second);
}

/* The connections of one handle end with it, and not those of another. */
static void two_handles(void) {
    begin(two_of_one);
    struct server *first = server;
    is(asks(), 0, "a request");
    server = begun(1000);
    is(asks(), 0, "a request of another handle");
    server_end(first);
    is(asks(), 0, "a request behind the end of the first");
    end("two handles");
}

/* By this a server tells that it has heard a request. */
static int heard[2];

static void waits_and_goes(void) {
    int fd = client();
    (void)hear(fd, 3);
    must(write(heard[1], "", 1) == 1, "it is told");
    gone(fd);
}

static void *waits(void *told) {
    *(int *)told = receives(server, &WAITS);
    return NULL;
}

static void until_under_way(unsigned count) {
    for (int n = 0; n < 5000 && server_under_way(server) != count; n++)
        usleep(1000);
    usleep(50000);
}

static void cancelled_thread(void) {
    pthread_t thread;
    int told = 1;
    is(pipe(heard), 0, "a pipe");
    begin(waits_and_goes);
    pthread_create(&thread, NULL, waits, &told);
    /* (a thread that is cancelled before that need not have sent it) */
    struct pollfd at = {.fd = heard[0], .events = POLLIN};
    is(poll(&at, 1, 10000), 1, "the server has heard it");
    until_under_way(1);
    is(server_under_way(server), 1, "requests under way");
    pthread_cancel(thread);
    pthread_join(thread, NULL);
    is(told, 1, "a thread that is cancelled");
    has_ended("its connection");
    close(heard[0]);
    close(heard[1]);
    is(server_under_way(server), 0, "requests under way");
    server_end(server);
}

static void answers_late(void) {
    int fd = client();
    uint32_t number = hear(fd, 3).number;
    usleep(500000);
    tell(fd, number, 7, 0, NULL, 0);
    gone(fd);
}

/* A child that is made while another thread waits: it has none of its parent's connections. */
static void fork_beside_a_wait(void) {
    pthread_t thread;
    int told = 1;
    begin(answers_late);
    pthread_create(&thread, NULL, waits, &told);
    until_under_way(1);
    int fd = descriptor();
    pid_t child = fork();
    if (child == 0)
        _exit(fcntl(fd, F_GETFD) != -1 || server_under_way(server) != 0);
    is(child_ends(child), 0, "what a child has of another thread's connection");
    pthread_join(thread, NULL);
    is(told, 7, "the thread's request");
    end("a fork beside a wait");
}

/* ---- paths */

/* The number that the next descriptor gets. */
static int next_descriptor(void) {
    int fd = dup(0);
    close(fd);
    return fd;
}

static void paths(void) {
    char folder[4200], whole[4300], before[4400];
    struct greeting greeting;
    snprintf(folder, sizeof folder, "%s.%0*d", path, 120, 0);
    snprintf(whole, sizeof whole, "%s/s", folder);
    is(mkdir(folder, 0700), 0, "a folder of a long name");
    serves(one);
    is(rename(path, whole), 0, "a socket of a long name");
    is(server_begin(whole, 1000, &server), 0, "begin");
    int next = next_descriptor();
    is(asks(), 0, "a request");
    is(next_descriptor(), next, "what was opened for the name is closed");
    end("a long name");
    if (geteuid() == 0) {
        /* Another user may not list the folder. */
        serves(one);
        is(chmod(path, 0666) == 0 && rename(path, whole) == 0 && chmod(folder, 0711) == 0, true, "a socket for all");
        is(server_begin(whole, 1000, &server), 0, "begin");
        is(seteuid(65534), 0, "another user");
        is(asks(), 0, "a request");
        is(seteuid(0), 0, "back");
        end("a long name, and another user");
    }
    serves(one);
    is(getcwd(before, sizeof before) != NULL, 1, "here");
    char *last = strrchr(path, '/');
    *last = '\0';
    is(chdir(path), 0, "another folder");
    is(server_begin(last + 1, 1000, &server), 0, "begin");
    *last = '/';
    is(chdir("/"), 0, "another folder");
    is(asks(), 0, "a request of a name that began elsewhere");
    is(chdir(before), 0, "back");
    end("a relative name");
    memset(before, 'x', 300);
    snprintf(before + 300, 20, "/s");
    is(server_begin(before, 1000, &server), 0, "begin");
    is(server_greeting(server, &greeting), -ENAMETOOLONG, "a name with a part that is too long");
    server_end(server);
    unlink(whole);
    rmdir(folder);
}

int main(int argc, char **argv) {
    if (argc != 2)
        return 2;
    snprintf(path, sizeof path, "%s", argv[1]);
    descriptors();
    few_descriptors();
    users();
    forks();
    other_forks();
    threads();
    two_handles();
    cancelled_thread();
    fork_beside_a_wait();
    paths();
    unlink(path);
    printf("%d passed, %d failed\n", passed, failed);
    return failed > 0;
}
