/* A file of queues and its journal: opened, locked, read, closed. */
#include "beside.h"
#include "pair.h"
#include "reason.h"

#include <errno.h>
#include <fcntl.h>
#include <stdio.h>
#include <stdlib.h>
#include <string.h>
#include <sys/file.h>
#include <sys/stat.h>
#include <sys/sysmacros.h>
#include <unistd.h>

/* The process that holds a lock, by the system's list, whose lines are as `1: FLOCK  ADVISORY  WRITE 4711 fe:00:1095 0 EOF`; 0
 * where it is not told. */
static unsigned holder_of(const struct opened *locked) {
    char line[256], kind[16];
    unsigned holder = 0, process, major, minor;
    unsigned long inode;
    FILE *locks = fopen("/proc/locks", "re");
    if (locks == NULL)
        return 0;
    while (holder == 0 && fgets(line, sizeof line, locks) != NULL)
        if (sscanf(line, "%*u: %15s %*s %*s %u %x:%x:%lu", kind, &process, &major, &minor, &inode) == 5
            && strcmp(kind, "FLOCK") == 0 && makedev(major, minor) == locked->device && inode == locked->inode)
            holder = process;
    (void)fclose(locks);
    return holder;
}

static int lock(const struct opened *journal) {
    unsigned holder;
    if (flock(journal->file, LOCK_EX | LOCK_NB) == 0)
        return 0;
    if (errno != EWOULDBLOCK)
        return of_journal(errno);
    if ((holder = holder_of(journal)) == 0)
        return why(EBUSY, "it is in use by another process");
    if (holder == (unsigned)getpid())
        return why(EBUSY, "it is open in this process");
    return why(EBUSY, "it is in use by process %u", holder);
}

/* Whether a name is that of another file than was opened. */
static bool is_moved(const char *name, const struct opened *it) {
    struct stat found;
    return stat(name, &found) != 0 || found.st_dev != it->device || found.st_ino != it->inode;
}

/* Opens and locks both. ESTALE where one of them was put in the place of another before it was locked. */
static int open_both(struct pair *pair, const char *path) {
    char name[BESIDE_BYTES];
    struct stat found;
    /* A fifo would wait for a writer. */
    if (stat(path, &found) != 0)
        return errno;
    if (!S_ISREG(found.st_mode))
        return S_ISDIR(found.st_mode) ? EISDIR : why(EINVAL, "it is no file");
    int wrong = open_it(&pair->file, path, O_RDWR, 0);
    if (wrong == 0)
        wrong = of_journal(beside_open(&pair->journal, path, ".journal", &pair->file, name));
    if (wrong == 0)
        wrong = lock(&pair->journal);
    if (wrong == 0 && (is_moved(path, &pair->file) || is_moved(name, &pair->journal)))
        wrong = ESTALE;
    return wrong;
}

int pair_open(struct pair *pair, const char *path) {
    /* More than one that moves the file has to come between, each time. */
    enum { MOST_TRIES = 100 };
    int wrong = ESTALE;
    *pair = (struct pair){.file = NOT_OPENED, .journal = NOT_OPENED};
    for (int tries = 0; wrong == ESTALE && tries < MOST_TRIES; tries++) {
        pair_close(pair);
        wrong = open_both(pair, path);
    }
    if (wrong == 0)
        wrong = pair_recover(pair);
    if (wrong != 0)
        pair_close(pair);
    return wrong;
}

void pair_close(struct pair *pair) {
    /* A child of this process may have what was locked open too: it would hold the lock as long as it lives. */
    if (pair->journal.file >= 0 && test_opened(&pair->journal) != EBADF)
        (void)flock(pair->journal.file, LOCK_UN);
    free(pair->room);
    pair->room = NULL;
    (void)msgq_recovery_end(&pair->recovery);
    pair_leave(pair);
}

void pair_leave(struct pair *pair) {
    close_it(&pair->journal);
    close_it(&pair->file);
}

int pair_read(const struct pair *pair, uint8_t **bytes, size_t *count) {
    uint64_t size = 0;
    int wrong = size_of(&pair->file, &size);
    if (wrong != 0)
        return wrong;
    /* More than a file can have need not be read. */
    *count = size > (uint64_t)65537 * PAGE_BYTES ? (size_t)65537 * PAGE_BYTES : (size_t)size;
    if ((*bytes = malloc(*count + 1)) == NULL)
        return ENOMEM;
    if ((wrong = read_at(&pair->file, *bytes, *count, 0)) != 0)
        free(*bytes);
    return wrong;
}
