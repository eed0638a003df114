/* How soon a change of a file is seen: by what the system tells, and by looks. Run with the path of a new file. */
#include "../front/watch.h"

#include <fcntl.h>
#include <stdio.h>
#include <stdlib.h>
#include <sys/wait.h>
#include <unistd.h>

/* A machine that has much else to do holds up whoever waits: so of three rounds the quickest counts, by the mean of
 * its waits. */
enum { ROUNDS = 3, WAITS = 10, MOST_LATE = 20 };

static const char *path;

static void must(int is_done, const char *what) {
    if (!is_done) {
        perror(what);
        exit(2);
    }
}

static double milliseconds(void) {
    struct timespec now;
    clock_gettime(CLOCK_MONOTONIC, &now);
    return (double)now.tv_sec * 1e3 + (double)now.tv_nsec / 1e6;
}

static void nap(int length) {
    (void)nanosleep(&(struct timespec){0, length * 1000000L}, NULL);
}

/* Another process writes the file in place, as a save does, and tells when. */
static pid_t begin_writer(int told) {
    pid_t child = fork();
    must(child >= 0, "fork");
    if (child > 0)
        return child;
    int file = open(path, O_WRONLY);
    nap(30);
    double now = milliseconds();
    must(file >= 0 && pwrite(file, &now, sizeof now, 0) == (ssize_t)sizeof now, "write");
    must(write(told, &now, sizeof now) == (ssize_t)sizeof now, "tell");
    _exit(0);
}

/* How late a change is seen, in the mean. */
static double lateness(bool by_looks) {
    double late = 0;
    for (int n = 0; n < WAITS; n++) {
        struct watch watch;
        int ends[2];
        double written;
        must(pipe(ends) == 0 && watch_begin(&watch, path) == 0, "watch");
        if (by_looks)
            watch_end(&watch);
        else
            must(watch.notices >= 0, "inotify");
        nap(120);
        watch_note(&watch);
        pid_t child = begin_writer(ends[1]);
        enum found found;
        while ((found = watch_wait(&watch, NULL)) == PASSED)
            ;
        double seen = milliseconds();
        must(found == CHANGED && read(ends[0], &written, sizeof written) == (ssize_t)sizeof written, "read");
        late += seen - written;
        waitpid(child, NULL, 0);
        watch_end(&watch);
        close(ends[0]);
        close(ends[1]);
    }
    return late / WAITS;
}

static bool is_soon(bool by_looks) {
    double least = 1e9;
    for (int n = 0; n < ROUNDS && least > MOST_LATE; n++) {
        double late = lateness(by_looks);
        least = late < least ? late : least;
    }
    printf("%s: late by %.1f ms\n", by_looks ? "looks" : "told", least);
    return least <= MOST_LATE;
}

/* A file that does not change is not said to; nor is another that does. */
static bool is_quiet(void) {
    struct watch watch;
    struct timespec end;
    char other[4096];
    snprintf(other, sizeof other, "%s.other", path);
    must(watch_begin(&watch, path) == 0, "watch");
    nap(120);
    watch_note(&watch);
    int file = open(other, O_RDWR | O_CREAT, 0600);
    must(file >= 0 && write(file, "x", 1) == 1, "write");
    close(file);
    clock_gettime(CLOCK_MONOTONIC, &end);
    end.tv_sec += 1;
    enum found found;
    while ((found = watch_wait(&watch, &end)) == PASSED)
        ;
    watch_end(&watch);
    unlink(other);
    return found == OVER;
}

int main(int argc, char **argv) {
    if (argc != 2)
        return 2;
    path = argv[1];
    int file = open(path, O_RDWR | O_CREAT, 0600);
    must(file >= 0 && write(file, "12345678", 8) == 8, "make");
    close(file);
    bool is_right = is_soon(false) & is_soon(true) & is_quiet();
    unlink(path);
    return !is_right;
}
