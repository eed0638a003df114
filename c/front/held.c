/* The lock file of jobs in hand. */
#include "held.h"
#include "../beside.h"

#include <errno.h>
#include <fcntl.h>
#include <unistd.h>

int held_open(struct held *it, const char *path) {
    char name[BESIDE_BYTES];
    struct opened file;
    it->file = NOT_OPENED;
    int wrong = open_it(&file, path, O_RDONLY | O_NONBLOCK, 0);
    if (wrong != 0)
        return wrong;
    if ((wrong = beside_open(&it->file, path, ".held", &file, name)) != 0)
        held_close(it);
    close_it(&file);
    return wrong;
}

void held_close(struct held *it) {
    close_it(&it->file);
}

/* Locks of a range belong to the process and not to a descriptor: no child has them. */
static int control(const struct held *it, uint32_t queue, short kind, int how) {
    struct flock range = {.l_type = kind, .l_whence = SEEK_SET, .l_start = (off_t)queue, .l_len = 1};
    if (fcntl(it->file.file, how, &range) != 0)
        return errno == EACCES ? EAGAIN : errno;
    return how == F_GETLK && range.l_type != F_UNLCK ? EAGAIN : 0;
}

int held_lock(const struct held *it, uint32_t queue) {
    return control(it, queue, F_WRLCK, F_SETLK);
}

void held_unlock(const struct held *it, uint32_t queue) {
    (void)control(it, queue, F_UNLCK, F_SETLK);
}

bool held_is_locked(const struct held *it, uint32_t queue) {
    return control(it, queue, F_WRLCK, F_GETLK) == EAGAIN;
}
