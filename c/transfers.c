/* Transfers of files, over the calls of the system. */
#include "transfers.h"

#include <errno.h>
#include <fcntl.h>
#include <libgen.h>
#include <limits.h>
#include <string.h>
#include <sys/stat.h>
#include <unistd.h>

int open_it(struct opened *it, const char *path, int flags, mode_t mode) {
    struct stat found;
    *it = NOT_OPENED;
    int file = open(path, flags | O_CLOEXEC, mode);
    if (file < 0)
        return errno;
    if (fstat(file, &found) != 0) {
        int wrong = errno;
        (void)close(file);
        if ((flags & O_EXCL) != 0)
            (void)unlink(path);
        return wrong;
    }
    *it = (struct opened){file, found.st_dev, found.st_ino};
    return 0;
}

int test_opened(const struct opened *it) {
    struct stat found;
    if (fstat(it->file, &found) != 0)
        return errno;
    return found.st_dev == it->device && found.st_ino == it->inode ? 0 : EBADF;
}

void close_it(struct opened *it) {
    /* What had to outlast it was synced, so that nothing is lost where this fails. */
    if (it->file >= 0 && test_opened(it) != EBADF)
        (void)close(it->file);
    *it = NOT_OPENED;
}

/* How a read or a write went, of which so many bytes are done: a signal may have ended it, and then it goes on. */
static int went(ssize_t more, size_t *done) {
    if (more < 0)
        return errno == EINTR ? 0 : errno;
    *done += (size_t)more;
    return more == 0 ? EIO : 0;
}

int read_at(const struct opened *it, void *bytes, size_t count, uint64_t at) {
    int wrong = 0;
    for (size_t done = 0; wrong == 0 && done < count;)
        wrong = went(pread(it->file, (char *)bytes + done, count - done, (off_t)(at + done)), &done);
    return wrong;
}

int write_at(const struct opened *it, const void *bytes, size_t count, uint64_t at) {
    int wrong = 0;
    for (size_t done = 0; wrong == 0 && done < count;)
        wrong = went(pwrite(it->file, (const char *)bytes + done, count - done, (off_t)(at + done)), &done);
    return wrong;
}

int cut_at(const struct opened *it, uint64_t size) {
    while (ftruncate(it->file, (off_t)size) != 0)
        if (errno != EINTR)
            return errno;
    return 0;
}

int size_of(const struct opened *it, uint64_t *size) {
    struct stat found;
    if (fstat(it->file, &found) != 0)
        return errno;
    *size = (uint64_t)found.st_size;
    return 0;
}

int sync_it(const struct opened *it) {
    while (fsync(it->file) != 0)
        if (errno != EINTR)
            return errno;
    return 0;
}

int sync_bytes(const struct opened *it) {
    while (fdatasync(it->file) != 0)
        if (errno != EINTR)
            return errno;
    return 0;
}

int sync_folder_of(const char *path) {
    char name[PATH_MAX];
    struct opened folder;
    if (strlen(path) >= sizeof name)
        return ENAMETOOLONG;
    strcpy(name, path);
    int wrong = open_it(&folder, dirname(name), O_RDONLY | O_DIRECTORY, 0);
    if (wrong != 0)
        return wrong;
    wrong = sync_it(&folder);
    close_it(&folder);
    return wrong;
}
