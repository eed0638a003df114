/* A file that is being made: it has another name, beside its own, until it is whole and on the disk. The program `msgq` makes files in the same
 * way, so neither takes what the other is making for what a process that was killed has left. */
#include "making.h"
#include "reason.h"
#include "transfers.h"

#include <errno.h>
#include <fcntl.h>
#include <limits.h>
#include <stdio.h>
#include <string.h>
#include <sys/file.h>
#include <sys/stat.h>
#include <unistd.h>

#define SUFFIX ".unmade"

struct unmade {
    const char *path;
    char beside[PATH_MAX];
    struct opened file;
};

static int is_being_made(void) {
    return why(EBUSY, "another process is making it");
}

/* Refuses a name that something has. */
static int expect_none(const char *path) {
    struct stat found;
    if (lstat(path, &found) == 0)
        return EEXIST;
    return errno == ENOENT ? 0 : errno;
}

/* Locks a file, and tells whether it still has this name. Who has it locked is making it, or about to remove it. */
static int lock_it(const struct opened *it, const char *name, bool *is_there) {
    struct stat found;
    *is_there = false;
    if (flock(it->file, LOCK_EX | LOCK_NB) != 0)
        return errno == EWOULDBLOCK ? is_being_made() : errno;
    if (lstat(name, &found) != 0)
        return errno == ENOENT ? 0 : errno;
    *is_there = found.st_dev == it->device && found.st_ino == it->inode;
    return 0;
}

/* Removes what a process that was killed has left by this name. */
static int remove_left(const char *name) {
    struct opened left;
    bool is_there;
    int wrong = open_it(&left, name, O_RDWR | O_NOFOLLOW, 0);
    if (wrong != 0)
        return wrong == ENOENT ? 0 : wrong;
    wrong = lock_it(&left, name, &is_there);
    if (wrong == 0 && is_there && unlink(name) != 0)
        wrong = errno;
    close_it(&left);
    return wrong;
}

/* Begins it once; EAGAIN where a process that took it for one that was left has removed it. */
static int begin_once(struct unmade *it) {
    bool is_there;
    int wrong = expect_none(it->path);
    if (wrong != 0)
        return wrong;
    if ((wrong = open_it(&it->file, it->beside, O_RDWR | O_CREAT | O_EXCL, 0666)) == EEXIST)
        return (wrong = remove_left(it->beside)) != 0 ? wrong : EAGAIN;
    if (wrong != 0)
        return wrong;
    if ((wrong = lock_it(&it->file, it->beside, &is_there)) == 0 && !is_there)
        wrong = EAGAIN;
    /* Another process may have made the file meanwhile. */
    if (wrong == 0)
        wrong = expect_none(it->path);
    /* (who has it locked removes it) */
    if (wrong != 0 && wrong != EAGAIN && wrong != EBUSY)
        (void)unlink(it->beside);
    if (wrong != 0)
        close_it(&it->file);
    return wrong;
}

/* Begins a file without bytes. What a process that was killed has left of such a file is removed. */
static int begin(struct unmade *it, const char *path) {
    /* More than one that begins it at once has to come between, each time. */
    enum { MOST_TRIES = 16 };
    int wrong = EAGAIN;
    *it = (struct unmade){.path = path, .file = NOT_OPENED};
    if ((size_t)snprintf(it->beside, sizeof it->beside, "%s" SUFFIX, path) >= sizeof it->beside)
        return ENAMETOOLONG;
    for (int tries = 0; wrong == EAGAIN && tries < MOST_TRIES; tries++)
        wrong = begin_once(it);
    return wrong == EAGAIN ? is_being_made() : wrong;
}

/* Removes what was made. */
static void drop(struct unmade *it) {
    (void)unlink(it->beside);
    close_it(&it->file);
}

/* Gives it its name by a rename: not every system of files has links. */
static int rename_it(const struct unmade *it) {
    int wrong = expect_none(it->path);
    if (wrong == 0 && rename(it->beside, it->path) != 0)
        wrong = errno;
    return wrong;
}

/* Gives the file its name, once it is whole and synced; EEXIST where something has it by now. Else nothing is left of it. */
static int name_it(struct unmade *it) {
    int wrong = link(it->beside, it->path) == 0 ? 0 : errno;
    if (wrong != 0 && wrong != EEXIST)
        wrong = rename_it(it);
    if (wrong == 0 && (wrong = sync_folder_of(it->path)) != 0)
        (void)unlink(it->path);
    drop(it);
    return wrong;
}

int make_file(const char *path, struct handle *session) {
    uint32_t pages;
    uint8_t bytes[PAGE_BYTES];
    struct unmade made;
    if (msgq_session_pages(session, &pages) != DONE)
        return EIO;
    int wrong = begin(&made, path);
    if (wrong != 0)
        return wrong;
    for (uint32_t page = 0; wrong == 0 && page < pages; page++)
        if ((wrong = msgq_session_page(session, page, bytes) == DONE ? 0 : EIO) == 0)
            wrong = write_at(&made.file, bytes, sizeof bytes, (uint64_t)page * PAGE_BYTES);
    if (wrong == 0)
        wrong = sync_it(&made.file);
    if (wrong == 0)
        return name_it(&made);
    drop(&made);
    return wrong;
}
