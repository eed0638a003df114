/* Calls of the system that fail, or end the process, when a test says so, and files that are kept and put back. A test that includes
 * this is linked so that the calls below come here first (tests/wraps). */
#include <errno.h>
#include <fcntl.h>
#include <pthread.h>
#include <stdarg.h>
#include <stdbool.h>
#include <stdio.h>
#include <stdlib.h>
#include <string.h>
#include <sys/file.h>
#include <sys/stat.h>
#include <sys/wait.h>
#include <time.h>
#include <unistd.h>

static int passed, failed;

static void is(long long found, long long expected, const char *what) {
    if (found == expected) {
        passed++;
        return;
    }
    failed++;
    fprintf(stderr, "%s: %lld, not %lld\n", what, found, expected);
}

/* ---- calls that fail */

enum call {
    NONE, PREAD, PWRITE, FSYNC, FDATASYNC, FTRUNCATE, FSTAT, STAT, LSTAT, OPEN, REALPATH, FLOCK, FOPEN, FCHMOD, MALLOC, CALLOC, CLOCK,
    ATTR_INIT, ATTR_CLOCK, COND_INIT, MUTEX_INIT, CALLS, LINK, RENAME, UNLINK
};

static const char *const names[] = {
    "none", "pread", "pwrite", "fsync", "fdatasync", "ftruncate", "fstat", "stat", "lstat", "open", "realpath", "flock", "fopen", "fchmod", "malloc",
    "calloc", "clock_gettime", "pthread_condattr_init", "pthread_condattr_setclock", "pthread_cond_init", "pthread_mutex_init", "",
    "link", "rename", "unlink",
};

static enum call which;
static int when, seen, number, writes;
static bool dies, has_no_links;

/* Whether this call is the one that fails; the process may end at it. */
static bool is_now(enum call call) {
    if (call == PWRITE || call == FTRUNCATE)
        writes++;
    if (call != which || ++seen != when)
        return false;
    if (dies)
        _exit(9);
    errno = number;
    return true;
}

static void arm(enum call call, int at, int wrong) {
    which = call;
    when = at;
    number = wrong;
    seen = writes = 0;
}

/* Whether the call was come to. */
static bool disarm(void) {
    bool was = which != NONE && seen >= when;
    which = NONE;
    return was;
}

#define WRAP(kind, name, call, fails, parameters, arguments) \
    kind __real_##name parameters; \
    kind __wrap_##name parameters; \
    kind __wrap_##name parameters { return is_now(call) ? (fails) : __real_##name arguments; }

/* (a read or a write of nothing, where there is no number) */
WRAP(ssize_t, pread, PREAD, number == 0 ? 0 : -1, (int file, void *to, size_t count, off_t at), (file, to, count, at))
WRAP(ssize_t, pwrite, PWRITE, number == 0 ? 0 : -1, (int file, const void *from, size_t count, off_t at), (file, from, count, at))
WRAP(int, fsync, FSYNC, -1, (int file), (file))
WRAP(int, fdatasync, FDATASYNC, -1, (int file), (file))
WRAP(int, ftruncate, FTRUNCATE, -1, (int file, off_t size), (file, size))
WRAP(int, fstat, FSTAT, -1, (int file, struct stat *to), (file, to))
WRAP(int, stat, STAT, -1, (const char *path, struct stat *to), (path, to))
WRAP(int, lstat, LSTAT, -1, (const char *path, struct stat *to), (path, to))
WRAP(char *, realpath, REALPATH, NULL, (const char *path, char *to), (path, to))
WRAP(int, flock, FLOCK, -1, (int file, int how), (file, how))
WRAP(FILE *, fopen, FOPEN, NULL, (const char *path, const char *how), (path, how))
WRAP(int, fchmod, FCHMOD, -1, (int file, mode_t mode), (file, mode))
WRAP(void *, malloc, MALLOC, NULL, (size_t size), (size))
WRAP(void *, calloc, CALLOC, NULL, (size_t count, size_t size), (count, size))
WRAP(int, clock_gettime, CLOCK, -1, (clockid_t clock, struct timespec *to), (clock, to))
WRAP(int, pthread_condattr_init, ATTR_INIT, number, (pthread_condattr_t *it), (it))
WRAP(int, pthread_condattr_setclock, ATTR_CLOCK, number, (pthread_condattr_t *it, clockid_t clock), (it, clock))
WRAP(int, pthread_cond_init, COND_INIT, number, (pthread_cond_t *it, const pthread_condattr_t *with), (it, with))
WRAP(int, pthread_mutex_init, MUTEX_INIT, number, (pthread_mutex_t *it, const pthread_mutexattr_t *with), (it, with))

WRAP(int, rename, RENAME, -1, (const char *from, const char *to), (from, to))
WRAP(int, unlink, UNLINK, -1, (const char *path), (path))

int __real_link(const char *from, const char *to);
int __wrap_link(const char *from, const char *to);
int __wrap_link(const char *from, const char *to) {
    if (is_now(LINK))
        return -1;
    errno = EPERM;
    return has_no_links ? -1 : __real_link(from, to);
}

int __real_open(const char *path, int flags, ...);
int __wrap_open(const char *path, int flags, ...);
int __wrap_open(const char *path, int flags, ...) {
    va_list rest;
    va_start(rest, flags);
    mode_t mode = (flags & O_CREAT) != 0 ? va_arg(rest, mode_t) : 0;
    va_end(rest);
    return is_now(OPEN) ? -1 : __real_open(path, flags, mode);
}

/* ---- files */

static char path[4000], journal[4096];

struct bytes {
    char *at;
    long count; /* -1 where there is no file */
};

static struct bytes read_all(const char *name) {
    struct bytes it = {NULL, -1};
    FILE *file = fopen(name, "r");
    if (file == NULL)
        return it;
    fseek(file, 0, SEEK_END);
    it.count = ftell(file);
    rewind(file);
    it.at = malloc((size_t)it.count + 1);
    if (it.at == NULL || fread(it.at, 1, (size_t)it.count, file) != (size_t)it.count)
        exit(2);
    fclose(file);
    return it;
}

static void write_all(const char *name, struct bytes it) {
    if (it.count < 0) {
        unlink(name);
        return;
    }
    FILE *file = fopen(name, "w");
    if (file == NULL || fwrite(it.at, 1, (size_t)it.count, file) != (size_t)it.count || fclose(file) != 0)
        exit(2);
}

static bool has_bytes(const char *name, struct bytes it) {
    struct bytes now = read_all(name);
    bool same = now.count == it.count && (now.count < 0 || memcmp(now.at, it.at, (size_t)now.count) == 0);
    free(now.at);
    return same;
}
