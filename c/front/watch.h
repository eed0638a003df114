/* Waits for another process to change a file, without opening it: by what the system tells of its folder (inotify),
 * else by 50 looks a second at its size and its moments. */
#ifndef MSGQ_WATCH_H
#define MSGQ_WATCH_H

#include <limits.h>
#include <stdbool.h>
#include <sys/stat.h>
#include <time.h>

/* A file as it is known without being opened; zeros where there is none. */
struct traits {
    dev_t device;
    ino_t inode;
    off_t size;
    struct timespec written, changed;
};

struct watch {
    char path[PATH_MAX]; /* in which no link leads on, where the file is there */
    int notices;         /* -1 where the system tells nothing */
    struct traits seen;
    bool is_young; /* what was seen was written so lately that a later change may have the same moment */
};

enum found { CHANGED, PASSED, OVER };

/* 0 or the number of an error. */
int watch_begin(struct watch *it, const char *path);
void watch_end(struct watch *it);

/* From here on a change counts: to be called before a look at the file. */
void watch_note(struct watch *it);

/* Waits until the file has changed, a second has passed, or the moment (of CLOCK_MONOTONIC) is over, where there is
 * one. */
enum found watch_wait(struct watch *it, const struct timespec *end);

#endif
