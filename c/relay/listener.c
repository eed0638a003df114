/* The lock of a socket's path, and the socket. */
#include "listener.h"
#include "../front/front.h"

#include <errno.h>
#include <fcntl.h>
#include <limits.h>
#include <signal.h>
#include <stddef.h>
#include <stdio.h>
#include <stdlib.h>
#include <string.h>
#include <sys/file.h>
#include <sys/socket.h>
#include <sys/stat.h>
#include <unistd.h>

enum { HANDED = 3, BACKLOG = 4096 };

static bool fails(const char *path, const char *what) {
    complain("%s: %s: %s", path, what, strerror(errno));
    return false;
}

/* ---- its path, and the lock */

/* That of the command line, or else FILE.socket, where no link leads on. */
static bool find_path(struct listener *it, const struct options *options) {
    char whole[PATH_MAX + 8];
    const char *path = options->socket;
    if (path == NULL) {
        if (realpath(options->file, whole) == NULL)
            return fails(options->file, "it can't be opened");
        path = strcat(whole, ".socket");
    }
    if (strlen(path) < SOCKET_BYTES) {
        strcpy(it->path, path);
        return true;
    }
    complain("%s: the path of a socket has at most %zu bytes: --socket names a shorter one", path, SOCKET_BYTES - 1);
    return false;
}

/* Says which process has the lock: its number stands in the file. */
static bool is_in_use(const struct listener *it) {
    char word[16];
    ssize_t length = pread(it->lock, word, sizeof word - 1, 0);
    word[length < 0 ? 0 : length] = '\0';
    long process = strtol(word, NULL, 10);
    if (process > 0)
        complain("%s: %s: process %ld serves it", it->path, strerror(EADDRINUSE), process);
    else
        complain("%s: %s: another process serves it", it->path, strerror(EADDRINUSE));
    return false;
}

/* Takes the lock, which the system lets go of however this process ends. The file stays: were it removed, two servers
 * could each have the lock of a file of that name. */
static bool take_lock(struct listener *it) {
    char name[sizeof it->path + 8], word[16];
    (void)snprintf(name, sizeof name, "%s.lock", it->path);
    it->lock = open(name, O_RDWR | O_CREAT | O_NOFOLLOW | O_CLOEXEC, 0600);
    if (it->lock < 0)
        return fails(name, "it can't be opened");
    if (flock(it->lock, LOCK_EX | LOCK_NB) != 0)
        return errno == EWOULDBLOCK ? is_in_use(it) : fails(name, "it can't be locked");
    int length = snprintf(word, sizeof word, "%ld\n", (long)getpid());
    if (ftruncate(it->lock, 0) != 0 || pwrite(it->lock, word, (size_t)length, 0) != length)
        return fails(name, "it can't be written");
    return true;
}

/* ---- a socket that was handed over */

static bool has(int file, int option, int value) {
    int found = 0;
    socklen_t size = sizeof found;
    return getsockopt(file, SOL_SOCKET, option, &found, &size) == 0 && found == value;
}

static bool take_handed(struct listener *it) {
    struct sockaddr_un name = {.sun_family = AF_UNIX};
    socklen_t size = sizeof name - 1;
    int flags = fcntl(HANDED, F_GETFL);
    if (!has(HANDED, SO_DOMAIN, AF_UNIX) || !has(HANDED, SO_TYPE, SOCK_STREAM) || !has(HANDED, SO_ACCEPTCONN, 1)) {
        complain("LISTEN_FDS: descriptor %d is no Unix stream socket that listens", HANDED);
        return false;
    }
    if (flags < 0 || fcntl(HANDED, F_SETFL, flags | O_NONBLOCK) != 0
        || getsockname(HANDED, (struct sockaddr *)&name, &size) != 0)
        return fails("LISTEN_FDS", "the socket can't be used");
    it->file = HANDED;
    /* One without a name among the files begins with a zero. */
    bool is_abstract = size > offsetof(struct sockaddr_un, sun_path) && name.sun_path[0] == '\0';
    (void)snprintf(it->path, sizeof it->path, "%s%s", is_abstract ? "@" : "", name.sun_path + is_abstract);
    return true;
}

int listener_begin(struct listener *it, const struct options *options, int handed) {
    *it = (struct listener){.file = -1, .lock = -1};
    if (handed == 0)
        return find_path(it, options) && take_lock(it) ? DONE : FAULT;
    if (handed > 1) {
        complain("LISTEN_FDS: %d sockets were handed over, and one is served", handed);
        return FAULT;
    }
    if (options->socket != NULL || options->has_mode || options->has_group) {
        complain("--socket, --mode and --group are those of a socket that was handed over (LISTEN_FDS)");
        return MISUSE;
    }
    return take_handed(it) ? DONE : FAULT;
}

/* ---- a socket that is bound */

/* Whether somebody listens who has not taken the lock. */
static bool is_served(const struct sockaddr_un *name) {
    int file = socket(AF_UNIX, SOCK_STREAM | SOCK_NONBLOCK | SOCK_CLOEXEC, 0);
    bool is_answered = file >= 0
                    && (connect(file, (const struct sockaddr *)name, sizeof *name) == 0 || errno != ECONNREFUSED);
    if (file >= 0)
        (void)close(file);
    return is_answered;
}

/* Removes what a server left that has ended: nobody has the lock, and nobody listens. */
static bool remove_left(const struct sockaddr_un *name) {
    struct stat found;
    if (lstat(name->sun_path, &found) != 0)
        return errno == ENOENT || fails(name->sun_path, "it can't be looked at");
    if (!S_ISSOCK(found.st_mode)) {
        complain("%s: it is there, and is no socket", name->sun_path);
        return false;
    }
    if (is_served(name)) {
        complain("%s: %s: a process that has no lock of it listens", name->sun_path, strerror(EADDRINUSE));
        return false;
    }
    return unlink(name->sun_path) == 0 || fails(name->sun_path, "a socket that was left can't be removed");
}

/* Binds it with its mode from the first moment on, and notes which file it is, so that no other is removed in its
 * place. What the group may is added once it is the right one. */
static bool bind_it(struct listener *it, const struct sockaddr_un *name, const struct options *options) {
    struct stat found;
    mode_t mode = options->has_group ? options->mode & 0707 : options->mode, before = umask(0777 & ~mode);
    int wrong = bind(it->file, (const struct sockaddr *)name, sizeof *name) == 0 ? 0 : errno;
    (void)umask(before);
    errno = wrong;
    if (wrong != 0)
        return fails(it->path, "it can't be bound");
    if (lstat(it->path, &found) != 0) {
        (void)fails(it->path, "it can't be looked at");
        (void)unlink(it->path);
        return false;
    }
    it->device = found.st_dev;
    it->inode = found.st_ino;
    if (!options->has_group)
        return true;
    if (lchown(it->path, (uid_t)-1, options->group) != 0)
        return fails(it->path, "its group can't be set");
    return chmod(it->path, options->mode) == 0 || fails(it->path, "its mode can't be set");
}

bool listener_open(struct listener *it, const struct options *options) {
    struct sockaddr_un name = {.sun_family = AF_UNIX};
    if (it->file >= 0)
        return true;
    strcpy(name.sun_path, it->path);
    if (!remove_left(&name))
        return false;
    it->file = socket(AF_UNIX, SOCK_STREAM | SOCK_NONBLOCK | SOCK_CLOEXEC, 0);
    if (it->file < 0)
        return fails(it->path, "it can't be made");
    return bind_it(it, &name, options)
        && (listen(it->file, BACKLOG) == 0 || fails(it->path, "it can't be listened to"));
}

void listener_close(struct listener *it) {
    struct stat found;
    if (it->file >= 0)
        (void)close(it->file);
    it->file = -1;
    if (it->inode != 0 && lstat(it->path, &found) == 0 && found.st_dev == it->device && found.st_ino == it->inode)
        (void)unlink(it->path);
    it->inode = 0;
}

void listener_end(struct listener *it) {
    listener_close(it);
    if (it->lock >= 0)
        (void)close(it->lock);
    it->lock = -1;
}
