/* The time of a save and of a note of one message, in microseconds, and the pages that it writes, in files of 352 and of 65,536 pages, beside a
 * save of nothing. After each of these one page of the file is written as it stands, and brought to the disk by fdatasync: so both see the disk as it is
 * at that moment. The same once more by itself. The median of 101 of each, and the least.
 *     c/bench/run */
#include "../msgq.h"

#include <fcntl.h>
#include <stdio.h>
#include <stdlib.h>
#include <string.h>
#include <time.h>
#include <unistd.h>

enum { ROUNDS = 101 };

static void must(int holds, const char *what) {
    if (!holds) {
        fprintf(stderr, "saves: %s\n", what);
        exit(1);
    }
}

static double now(void) {
    struct timespec at;
    clock_gettime(CLOCK_MONOTONIC, &at);
    return (double)at.tv_sec * 1e6 + (double)at.tv_nsec / 1e3;
}

static long long written(void) {
    long long count = 0;
    char line[64];
    FILE *file = fopen("/proc/self/io", "r");
    while (file != NULL && fgets(line, sizeof line, file) != NULL)
        if (sscanf(line, "wchar: %lld", &count) == 1)
            break;
    if (file != NULL)
        fclose(file);
    return count;
}

static double took[ROUNDS];
static double synced[ROUNDS];

static int compare(const void *one, const void *other) {
    double a = *(const double *)one, b = *(const double *)other;
    return (a > b) - (a < b);
}

static void tell(const char *what, double *times, double pages) {
    qsort(times, ROUNDS, sizeof *times, compare);
    printf("  %-34s %6.0f us, at least %6.0f us, %.2f pages\n", what, times[ROUNDS / 2], times[0], pages);
}

/* What it takes to write a page of a file as it stands and to bring it to the disk. */
static double sync_page(int file) {
    char page[4096];
    must(pread(file, page, sizeof page, 0) == sizeof page, "a page");
    double begun = now();
    must(pwrite(file, page, sizeof page, 0) == sizeof page && fdatasync(file) == 0, "a sync");
    return now() - begun;
}

/* Times a save or a note once so many messages are sent, and the sync of a page after it. */
static void time_it(const char *what, int file, msgq *queues, uint32_t id, int (*save)(msgq *), int messages) {
    double pages = 0;
    for (int round = 0; round < ROUNDS; round++) {
        for (int n = 0; n < messages; n++)
            must(msgq_send(queues, id, 1, "one message", 11, 0, NULL) == 0, "a send");
        long long before = written();
        double begun = now();
        must(save(queues) == 0, what);
        took[round] = now() - begun;
        pages = (double)(written() - before) / 4096;
        synced[round] = sync_page(file);
        for (int n = 0; n < messages; n++)
            must(msgq_receive(queues, id, 0, NULL, 0, MSGQ_NOERROR, NULL, NULL) == 0, "a receive");
        must(save(queues) == 0, what);
    }
    tell(what, took, pages);
    tell("  a page and an fdatasync after it", synced, 1);
}

static void time_sync(int file) {
    for (int round = 0; round < ROUNDS; round++)
        synced[round] = sync_page(file);
    tell("a page and an fdatasync", synced, 1);
}

int main(int argc, char **argv) {
    static const uint32_t SIZES[] = {352, 65536};
    must(argc == 2, "usage: saves NEW_FILE");
    for (int n = 0; n < 2; n++) {
        msgq *queues;
        uint32_t id;
        unlink(argv[1]);
        must(msgq_create(argv[1], SIZES[n]) == 0 && msgq_open(argv[1], &queues) == 0, "a file");
        must(msgq_get(queues, 7, MSGQ_CREATE | 0600, &id) == 0 && msgq_save(queues) == 0, "a queue");
        int file = open(argv[1], O_RDWR);
        must(file >= 0, "the file");
        printf("%u pages:\n", SIZES[n]);
        time_it("a save of nothing", file, queues, id, msgq_save, 0);
        time_it("a save of one message", file, queues, id, msgq_save, 1);
        time_it("a note of one message", file, queues, id, msgq_note, 1);
        must(msgq_close(queues) == 0, "a close");
        time_sync(file);
        close(file);
    }
    unlink(argv[1]);
    return 0;
}
