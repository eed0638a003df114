/* Changes of a file, told by the system or looked for. */
#include "watch.h"

#include <errno.h>
#include <libgen.h>
#include <limits.h>
#include <poll.h>
#include <stdint.h>
#include <stdio.h>
#include <stdlib.h>
#include <string.h>
#include <sys/inotify.h>
#include <unistd.h>

enum { LOOK = 20, TURN = 1000, YOUNG = 100 }; /* in milliseconds */

/* Looks at a file's traits, and how old in milliseconds what it has is. */
static struct traits traits_of(const char *path, int64_t *age) {
    struct stat found;
    struct timespec now;
    *age = INT64_MAX;
    if (stat(path, &found) != 0)
        return (struct traits){0};
    if (clock_gettime(CLOCK_REALTIME, &now) == 0)
        *age = ((int64_t)now.tv_sec - found.st_mtim.tv_sec) * 1000 + (now.tv_nsec - found.st_mtim.tv_nsec) / 1000000;
    return (struct traits){found.st_dev, found.st_ino, found.st_size, found.st_mtim, found.st_ctim};
}

static bool is_same_moment(struct timespec one, struct timespec other) {
    return one.tv_sec == other.tv_sec && one.tv_nsec == other.tv_nsec;
}

static bool is_same(const struct traits *one, const struct traits *other) {
    return one->device == other->device && one->inode == other->inode && one->size == other->size
           && is_same_moment(one->written, other->written) && is_same_moment(one->changed, other->changed);
}

int watch_begin(struct watch *it, const char *path) {
    char folder[PATH_MAX];
    *it = (struct watch){.notices = -1};
    /* A file that is to come has no other name yet. */
    if (realpath(path, it->path) == NULL) {
        if (errno != ENOENT)
            return errno;
        if (strlen(path) >= sizeof it->path)
            return ENAMETOOLONG;
        strcpy(it->path, path);
    }
    strcpy(folder, it->path);
    it->notices = inotify_init1(IN_NONBLOCK | IN_CLOEXEC);
    if (it->notices >= 0 && inotify_add_watch(it->notices, dirname(folder), IN_MODIFY | IN_CREATE | IN_MOVED_TO) < 0)
        watch_end(it);
    watch_note(it);
    return 0;
}

void watch_end(struct watch *it) {
    if (it->notices >= 0)
        (void)close(it->notices);
    it->notices = -1;
}

/* Reads what the system has told, and says whether it is of the file; that it has lost some counts as such. */
static bool read_notices(const struct watch *it) {
    _Alignas(struct inotify_event) char room[4096];
    const char *slash = strrchr(it->path, '/'), *name = slash == NULL ? it->path : slash + 1;
    bool is_its = false;
    ssize_t length;
    while ((length = read(it->notices, room, sizeof room)) > 0)
        for (ssize_t at = 0; at < length;) {
            const struct inotify_event *told = (const struct inotify_event *)(room + at);
            is_its |= (told->mask & IN_Q_OVERFLOW) != 0 || (told->len > 0 && strcmp(told->name, name) == 0);
            at += (ssize_t)(sizeof *told + told->len);
        }
    return is_its;
}

void watch_note(struct watch *it) {
    int64_t age;
    if (it->notices >= 0)
        (void)read_notices(it);
    it->seen = traits_of(it->path, &age);
    it->is_young = age < YOUNG;
}

/* As many milliseconds are left, from 0 to the most. */
static int left_of(const struct timespec *end, int most) {
    struct timespec now;
    if (end == NULL || clock_gettime(CLOCK_MONOTONIC, &now) != 0)
        return most;
    int64_t left = ((int64_t)end->tv_sec - now.tv_sec) * 1000 + (end->tv_nsec - now.tv_nsec + 999999) / 1000000;
    return left < 0 ? 0 : left < most ? (int)left : most;
}

enum found watch_wait(struct watch *it, const struct timespec *end) {
    struct pollfd notices = {.fd = it->notices, .events = POLLIN};
    int64_t age;
    for (int passed = 0; passed < TURN;) {
        int step = left_of(end, it->notices >= 0 ? TURN - passed : LOOK);
        if (step == 0)
            return OVER;
        /* A signal that does not end the process ends a step, and only that. */
        (void)poll(&notices, it->notices >= 0, step);
        passed += step;
        if (it->notices >= 0 && read_notices(it))
            return CHANGED;
        if (it->notices >= 0 && passed < TURN)
            continue;
        struct traits now = traits_of(it->path, &age);
        if (!is_same(&now, &it->seen) || (it->is_young && age >= YOUNG))
            return CHANGED;
    }
    return PASSED;
}
