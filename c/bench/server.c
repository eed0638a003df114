/* Microseconds a message takes through servers, its send and its receive by turns: server SECONDS RUNS NAME=KIND:ADDRESS .., where KIND is msgq,
 * redis or beanstalkd, and ADDRESS a socket's path or a port of this machine. Each of 1, 4 and 16 clients is a process with a queue of its own
 * and one call under way. The servers are asked by turns, so that what else the machine does meets all of them; a cell is the median of the runs,
 * and behind it the least. */
#include "peers.h"

#include <stdio.h>
#include <stdlib.h>
#include <string.h>
#include <sys/mman.h>
#include <sys/wait.h>
#include <time.h>
#include <unistd.h>

enum { MOST_CLIENTS = 16, MOST_RUNS = 99, MOST_SERVERS = 16, CELLS = 3 };
static const int CLIENTS[CELLS] = {1, 4, MOST_CLIENTS};

static struct shared {
    int ready, go;
    unsigned long done[MOST_CLIENTS];
} *shared;

struct server {
    char *name;
    const char *address;
    const struct peer *peer;
    double times[CELLS][MOST_RUNS]; /* microseconds a message */
};

static double now(void) {
    struct timespec it;
    clock_gettime(CLOCK_MONOTONIC, &it);
    return (double)it.tv_sec + (double)it.tv_nsec / 1e9;
}

static void be_client(const struct server *server, int place, size_t bytes, double seconds) {
    static struct line line;
    char body[MOST_BODY];
    unsigned long done = 0;
    memset(body, 'x', sizeof body);
    dial(&line, server->address);
    server->peer->begin(&line, place);
    __sync_fetch_and_add(&shared->ready, 1);
    while (__sync_fetch_and_add(&shared->go, 0) == 0)
        usleep(200);
    for (double end = now() + seconds; now() < end; done++) {
        server->peer->send(&line, body, bytes);
        server->peer->take(&line);
    }
    shared->done[place] = done;
    server->peer->end(&line);
    exit(0);
}

/* Microseconds a message. */
static double run(const struct server *server, int clients, size_t bytes, double seconds) {
    unsigned long done = 0;
    int status, failed = 0;
    memset(shared, 0, sizeof *shared);
    for (int place = 0; place < clients; place++)
        if (fork() == 0)
            be_client(server, place, bytes, seconds);
    while (__sync_fetch_and_add(&shared->ready, 0) < clients && waitpid(-1, &status, WNOHANG) <= 0)
        usleep(200);
    __sync_fetch_and_add(&shared->go, 1);
    while (wait(&status) > 0)
        failed += status != 0;
    if (failed > 0)
        exit(1);
    for (int place = 0; place < clients; place++)
        done += shared->done[place];
    return done == 0 ? seconds * 1e6 : seconds * 1e6 / (double)done;
}

static int compare(const void *one, const void *other) {
    double a = *(const double *)one, b = *(const double *)other;
    return (a > b) - (a < b);
}

/* Reads NAME=KIND:ADDRESS. */
static int read_server(struct server *it, char *word) {
    char *kind = strchr(word, '='), *address = kind == NULL ? NULL : strchr(kind, ':');
    if (address == NULL)
        return 0;
    *kind++ = *address++ = '\0';
    *it = (struct server){.name = word, .address = address, .peer = PEERS};
    while (it->peer->name != NULL && strcmp(it->peer->name, kind) != 0)
        it->peer++;
    return it->peer->name != NULL;
}

static void print(struct server *it, size_t bytes, int runs) {
    printf("%zu\t%s", bytes, it->name);
    for (int cell = 0; cell < CELLS; cell++) {
        qsort(it->times[cell], (size_t)runs, sizeof(double), compare);
        printf("\t%.1f", it->times[cell][runs / 2]);
    }
    for (int cell = 0; cell < CELLS; cell++)
        printf("\t%.0f", 1e6 / it->times[cell][runs / 2]);
    for (int cell = 0; cell < CELLS; cell++)
        printf("\t%.1f", it->times[cell][0]);
    printf("\n");
    fflush(stdout);
}

int main(int argc, char **argv) {
    static struct server servers[MOST_SERVERS];
    const size_t sizes[] = {64, 1024};
    int count = argc - 3, runs = argc > 2 ? atoi(argv[2]) : 0, right = count >= 1 && count <= MOST_SERVERS && runs >= 1 && runs <= MOST_RUNS;
    double seconds = argc > 1 ? atof(argv[1]) : 0;
    for (int at = 0; right && at < count; at++)
        right = read_server(&servers[at], argv[3 + at]);
    if (!right || seconds <= 0)
        return fprintf(stderr, "usage: server SECONDS RUNS NAME=msgq|redis|beanstalkd:ADDRESS ..\n"), 2;
    shared = mmap(NULL, sizeof *shared, PROT_READ | PROT_WRITE, MAP_SHARED | MAP_ANONYMOUS, -1, 0);
    if (shared == MAP_FAILED)
        fail("mmap");
    printf("bytes\tserver\tus: 1\t4\t16\tmessages/s: 1\t4\t16\tleast us: 1\t4\t16\n");
    fflush(stdout);
    for (size_t size = 0; size < 2; size++) {
        for (int turn = 0; turn < runs; turn++)
            for (int cell = 0; cell < CELLS; cell++)
                for (int at = 0; at < count; at++)
                    servers[at].times[cell][turn] = run(&servers[at], CLIENTS[cell], sizes[size], seconds);
        for (int at = 0; at < count; at++)
            print(&servers[at], sizes[size], runs);
    }
    return 0;
}
