/* What those that wait cost: waits SOCKET RELAY CORE, the processes of a server. Memory of both processes for each of a thousand clients of
 * which a call waits, a message of a client beside them on a queue of its own, and how long after its sender a receiver that waited is told. */
#include "peers.h"
#include "../relay/numbers.h"

#include <stdio.h>
#include <stdlib.h>
#include <string.h>
#include <sys/resource.h>
#include <time.h>
#include <unistd.h>

enum { WAITING = 1000, TURNS = 2000, WAKES = 1000, ROUNDS = 5, RUNS = 3, SEND = 2, RECEIVE = 3 };

static double microseconds(void) {
    struct timespec it;
    clock_gettime(CLOCK_MONOTONIC, &it);
    return (double)it.tv_sec * 1e6 + (double)it.tv_nsec / 1e3;
}

static int compare(const void *one, const void *other) {
    double a = *(const double *)one, b = *(const double *)other;
    return (a > b) - (a < b);
}

static double middle(double *times, size_t count) {
    qsort(times, count, sizeof *times, compare);
    return times[count / 2];
}

/* In units of 1,024 bytes. */
static long memory_of(const char *process) {
    char name[64], line[256];
    long found = 0;
    (void)snprintf(name, sizeof name, "/proc/%.20s/status", process);
    FILE *file = fopen(name, "r");
    if (file == NULL)
        fail(name);
    while (found == 0 && fgets(line, sizeof line, file) != NULL)
        (void)sscanf(line, "VmRSS: %ld", &found);
    (void)fclose(file);
    return found;
}

static void begin(struct line *it, const char *socket) {
    dial(it, socket);
    PEERS[0].begin(it, 0);
}

/* Asks for a message that is not there yet. */
static void wait_for_one(struct line *it, uint32_t queue, uint8_t type) {
    uint8_t frame[28] = {24, 0, 0, 0, 1, 0, 0, 0, RECEIVE};
    put_u32(frame + 12, queue);
    frame[16] = type;
    put_u32(frame + 24, MOST_BODY);
    if (write(it->file, frame, sizeof frame) != (ssize_t)sizeof frame)
        fail("write");
}

/* Microseconds a message takes a client alone, the median of some runs. */
static double message(struct line *it) {
    double times[RUNS];
    char body[64] = {0};
    for (int run = 0; run < RUNS; run++) {
        double from = microseconds();
        for (int turn = 0; turn < TURNS; turn++) {
            PEERS[0].send(it, body, sizeof body);
            PEERS[0].take(it);
        }
        times[run] = (microseconds() - from) / TURNS;
    }
    return middle(times, RUNS);
}

/* Microseconds from the answer of a sender to that of a receiver that has waited: both are of this process, and the receiver's is
 * looked for first, so what is told is an upper bound. */
static double wake(struct line *sender, struct line *waiter) {
    static double times[WAKES];
    uint8_t message[8 + 64] = {1};
    struct timespec moment = {0, 200000};
    for (int turn = 0; turn < WAKES; turn++) {
        wait_for_one(waiter, sender->queue, 1);
        nanosleep(&moment, NULL);
        (void)ask(sender, SEND, sender->queue, message, sizeof message);
        double from = microseconds();
        ssize_t came = read(waiter->file, waiter->room, ROOM);
        if (came < 0)
            fail("read");
        times[turn] = microseconds() - from;
    }
    return middle(times, WAKES);
}

/* Clients of which a call waits, for what is not sent; or they hang up. Once the server has dealt with that. */
static void crowd(struct line *many, const char *socket, uint32_t queue, int waits) {
    for (int at = 0; at < WAITING; at++)
        if (waits) {
            dial(&many[at], socket);
            wait_for_one(&many[at], queue, 9);
        } else
            (void)close(many[at].file);
    sleep(1);
}

int main(int argc, char **argv) {
    static struct line one, two, many[WAITING];
    struct rlimit limit;
    double alone[ROUNDS], beside[ROUNDS];
    if (argc != 4)
        return fprintf(stderr, "usage: waits SOCKET RELAY CORE\n"), 2;
    if (getrlimit(RLIMIT_NOFILE, &limit) == 0) {
        limit.rlim_cur = limit.rlim_max;
        (void)setrlimit(RLIMIT_NOFILE, &limit);
    }
    begin(&one, argv[1]);
    begin(&two, argv[1]);
    /* By turns, so that what else the machine does meets both. */
    for (int round = 0; round < ROUNDS; round++) {
        alone[round] = message(&one);
        long relay = memory_of(argv[2]), core = memory_of(argv[3]);
        crowd(many, argv[1], two.queue, 1);
        if (round == 0)
            printf("a client that waits: %.1f KiB of the relay, %.1f KiB of the core\n", (double)(memory_of(argv[2]) - relay) / WAITING,
                   (double)(memory_of(argv[3]) - core) / WAITING);
        beside[round] = message(&one);
        crowd(many, argv[1], two.queue, 0);
    }
    printf("a message of another queue: %.1f us alone, %.1f us beside %d that wait\n", middle(alone, ROUNDS), middle(beside, ROUNDS), WAITING);
    printf("a receiver that waited is told within %.1f us of the sender's answer\n", wake(&one, &two));
    return 0;
}
