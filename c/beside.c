/* A file that stands beside another, with its owner, group and mode. */
#include "beside.h"

#include <errno.h>
#include <fcntl.h>
#include <stdbool.h>
#include <stdlib.h>
#include <string.h>
#include <sys/stat.h>
#include <unistd.h>

/* Sees to it that who may not read the other may not read it. */
static int guard(int file, const struct stat *like) {
    struct stat now;
    if (fstat(file, &now) != 0)
        return errno;
    if (now.st_uid != like->st_uid || now.st_gid != like->st_gid) {
        /* Only a superuser gives a file away; where neither works the mode below keeps the group out. */
        if (fchown(file, like->st_uid, like->st_gid) != 0)
            (void)!fchown(file, (uid_t)-1, like->st_gid);
        if (fstat(file, &now) != 0)
            return errno;
    }
    mode_t mode = like->st_mode & (now.st_gid == like->st_gid ? 0666 : 0606);
    if ((now.st_mode & 0777) != mode && fchmod(file, mode) != 0)
        return errno;
    return 0;
}

/* Whether who made it may write the other. */
static bool may_write(const struct stat *made, const struct stat *other) {
    return made->st_uid == other->st_uid || made->st_uid == 0
        || (made->st_gid == other->st_gid && (other->st_mode & 020) != 0) || (other->st_mode & 02) != 0;
}

/* Opens the one that stands there; ENOENT where there is none. */
static int find(struct opened *it, const char *name, const struct stat *other) {
    struct stat found;
    if (lstat(name, &found) != 0)
        return errno;
    if (!S_ISREG(found.st_mode) || !may_write(&found, other))
        return EACCES;
    int wrong = open_it(it, name, O_RDWR | O_NOFOLLOW, 0);
    return wrong != 0 ? wrong : guard(it->file, other);
}

/* Makes it; EEXIST where there is one. */
static int make(struct opened *it, const char *name, const struct stat *other) {
    int wrong = open_it(it, name, O_RDWR | O_CREAT | O_EXCL, 0600);
    if (wrong == 0)
        wrong = guard(it->file, other);
    return wrong != 0 ? wrong : sync_folder_of(name);
}

int beside_open(struct opened *it, const char *path, const char *suffix, const struct opened *other, char *name) {
    struct stat file;
    if (realpath(path, name) == NULL || fstat(other->file, &file) != 0)
        return errno;
    strcat(name, suffix);
    int wrong = find(it, name, &file);
    if (wrong == ENOENT && (wrong = make(it, name, &file)) == EEXIST)
        /* Another process has made it meanwhile. */
        wrong = find(it, name, &file);
    return wrong;
}
