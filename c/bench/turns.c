/* The time of a send and of a receive of 64 bytes by turns, in nanoseconds of the processor a call: by libmsgq, and by its session without
 * the lock. The least of five rounds of each. And that of a digest of 4,068 bytes, by which processors are compared. Other stores are in queues.c.
 *     c/bench/run */
#include "../msgq.h"
#include "../session.h"

#include <stdio.h>
#include <stdlib.h>
#include <time.h>

enum { TURNS = 20000, ROUNDS = 5, BYTES = 64 };

/* So many times the session's a call of libmsgq takes at most. */
static const double MOST = 1.15;

static char body[BYTES];

static void must(int holds, const char *what) {
    if (!holds) {
        fprintf(stderr, "turns: %s\n", what);
        exit(1);
    }
}

static double now(void) {
    struct timespec at;
    clock_gettime(CLOCK_THREAD_CPUTIME_ID, &at);
    return (double)at.tv_sec * 1e9 + (double)at.tv_nsec;
}

/* Tells the time of half a turn. */
static double tell(const char *who, void (*turn)(void *), void *with, double than) {
    double least = 0;
    for (int round = 0; round < ROUNDS; round++) {
        double begun = now();
        for (int n = 0; n < TURNS; n++)
            turn(with);
        double took = (now() - begun) / (2.0 * TURNS);
        if (round == 0 || took < least)
            least = took;
    }
    printf("%-10s %8.0f", who, least);
    if (than > 0)
        printf("   %.2f of the session's", least / than);
    putchar('\n');
    return least;
}

static void by_digest(void *with) {
    static uint8_t bytes[4068];
    for (int n = 0; n < 2; n++)
        msgq_session_digest(bytes, sizeof bytes, with);
}

static uint32_t id;

static void by_session(void *with) {
    struct send_call send = {.mtype = 1, .moment = 1, .id = id, .nowait = true};
    struct receive_call receive = {.moment = 1, .id = id, .nowait = true};
    struct got got;
    uint64_t serial;
    must(msgq_session_send(with, &send, (uint8_t *)body, BYTES, &serial) == DONE, "a send");
    must(msgq_session_receive(with, &receive, (uint8_t *)body, BYTES, &got) == DONE, "a receive");
}

static void by_library(void *with) {
    must(msgq_send(with, id, 1, body, BYTES, 0, NULL) == 0, "msgq_send");
    must(msgq_receive(with, id, 0, body, BYTES, 0, NULL, NULL) == 0, "msgq_receive");
}

int main(int argc, char **argv) {
    struct handle session = {0};
    struct owner owner = {1, 0, 0};
    struct get_call get = {.create = true, .mode = 0600, .moment = 1};
    msgq *queues = NULL;
    uint8_t sum[DIGEST_BYTES];
    must(argc == 2, "usage: turns NEW_FILE");
    must(msgq_session_create(&session, &owner, 352) == DONE, "a session");
    must(msgq_session_get(&session, &get, &id) == DONE, "a queue");
    tell("a digest", by_digest, sum, 0);
    double than = tell("session", by_session, &session, 0);
    msgq_session_close(&session);
    must(msgq_create(argv[1], 352) == 0 && msgq_open(argv[1], &queues) == 0, "a file");
    must(msgq_get(queues, MSGQ_PRIVATE, 0600, &id) == 0, "a queue");
    double library = tell("libmsgq", by_library, queues, than);
    msgq_abandon(queues);
    printf("a call of libmsgq takes %.2f of the session's time; %.2f is the most\n", library / than, MOST);
    return 0;
}
