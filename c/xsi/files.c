/* What `ipcs` reads of queues stands in files of /proc: in their place it gets memory with the same lines. */
#include "xsi.h"

#include <errno.h>
#include <fcntl.h>
#include <inttypes.h>
#include <stdarg.h>
#include <stdio.h>
#include <string.h>
#include <sys/syscall.h>
#include <sys/types.h>
#include <unistd.h>

struct file {
    const char *path;
    int limit; /* what it has, 0 for the list of queues */
};

/* The file of a path that is opened to be read; NULL for any other. */
static const struct file *find(const char *path, bool reads) {
    static const struct file files[] = {
        {"/proc/sysvipc/msg", 0},
        {"/proc/sys/kernel/msgmax", XSI_BODY},
        {"/proc/sys/kernel/msgmnb", XSI_QBYTES_AT_FIRST},
        {"/proc/sys/kernel/msgmni", XSI_QUEUES},
    };
    /* (nobody else pays for more than this) */
    if (path == NULL || !reads || strncmp(path, "/proc/sys", 9) != 0 || !xsi_is_served() || xsi_server() == NULL)
        return NULL;
    for (size_t at = 0; at < sizeof files / sizeof *files; at++)
        if (strcmp(path, files[at].path) == 0)
            return &files[at];
    return NULL;
}

static int write_all(int fd, const char *text, int length) {
    for (int done = 0; done < length;) {
        ssize_t more = write(fd, text + done, (size_t)(length - done));
        if (more <= 0)
            return -1;
        done += (int)more;
    }
    return 0;
}

static int write_queue(int fd, uint32_t id, const struct msqid_ds *it) {
    char line[256];
    int length = snprintf(line, sizeof line,
                          "%10d %10" PRIu32 "  %4o  %10lu %10lu %5d %5d %5u %5u %5u %5u %10jd %10jd %10jd\n",
                          it->msg_perm.__key, id, (unsigned)it->msg_perm.mode, it->__msg_cbytes, it->msg_qnum,
                          it->msg_lspid, it->msg_lrpid, it->msg_perm.uid, it->msg_perm.gid, it->msg_perm.cuid,
                          it->msg_perm.cgid, (intmax_t)it->msg_stime, (intmax_t)it->msg_rtime,
                          (intmax_t)it->msg_ctime);
    return write_all(fd, line, length);
}

/* Each queue that the caller may read. */
static int write_queues(int fd) {
    static const char head[] = "       key      msqid perms      cbytes       qnum lspid lrpid   uid   gid  cuid"
                               "  cgid      stime      rtime      ctime\n";
    struct msqid_ds found;
    uint32_t id = 0;
    int wrong = 0, failed = write_all(fd, head, sizeof head - 1);
    while (failed == 0 && (wrong = request_next(xsi_server(), id, &id)) == 0)
        if (xsi_stat(id, &found) == 0)
            failed = write_queue(fd, id, &found);
    return failed != 0 ? failed : wrong == XSI_EINVAL ? 0 : xsi_refuse(wrong);
}

/* Gives a descriptor of memory that has what the file would have. */
static int copy_of(const struct file *file, int flags) {
    char limit[16];
    int fd = (int)syscall(SYS_memfd_create, "msgq", flags & O_CLOEXEC ? 1U : 0U);
    if (fd < 0)
        return -1;
    int failed = file->limit == 0
        ? write_queues(fd)
        : write_all(fd, limit, snprintf(limit, sizeof limit, "%d\n", file->limit));
    if (failed == 0 && lseek(fd, 0, SEEK_SET) == 0)
        return fd;
    int wrong = errno;
    (void)syscall(SYS_close, fd);
    errno = wrong;
    return -1;
}

#define OPENS_STREAM(NAME)                                                                            \
    FILE *NAME(const char *path, const char *how) {                                                   \
        const struct file *file = find(path, how != NULL && how[0] == 'r' && strchr(how, '+') == NULL); \
        if (file == NULL)                                                                             \
            return BEHIND(NAME)(path, how);                                                           \
        int fd = copy_of(file, O_CLOEXEC);                                                            \
        return fd < 0 ? NULL : fdopen(fd, "r");                                                       \
    }
OPENS_STREAM(fopen)
OPENS_STREAM(fopen64)

static bool has_mode(int flags) {
    return (flags & O_CREAT) != 0 || (flags & O_TMPFILE) == O_TMPFILE;
}

/* A call of a path, and one of a folder and a path: AT names the folder where there is one. */
#define OPENS(NAME, FOLDER, AT)                                                                       \
    int NAME(FOLDER const char *path, int flags, ...) {                                               \
        const struct file *file = find(path, (flags & O_ACCMODE) == O_RDONLY);                        \
        mode_t mode = 0;                                                                              \
        if (has_mode(flags)) {                                                                        \
            va_list more;                                                                             \
            va_start(more, flags);                                                                    \
            mode = va_arg(more, mode_t);                                                              \
            va_end(more);                                                                             \
        }                                                                                             \
        if (file != NULL)                                                                             \
            return copy_of(file, flags);                                                              \
        return BEHIND(NAME)(AT path, flags, mode);                                                    \
    }
/* And those that a program calls which is built with _FORTIFY_SOURCE. */
#define OPENS_SAFELY(NAME, FOLDER, AT)                                                                \
    int NAME(FOLDER const char *path, int flags);                                                     \
    int NAME(FOLDER const char *path, int flags) {                                                    \
        const struct file *file = find(path, (flags & O_ACCMODE) == O_RDONLY);                        \
        if (file != NULL)                                                                             \
            return copy_of(file, flags);                                                              \
        return BEHIND(NAME)(AT path, flags);                                                          \
    }
#define NOTHING
#define A_FOLDER int folder,
#define THE_FOLDER folder,
OPENS(open, NOTHING, NOTHING)
OPENS(open64, NOTHING, NOTHING)
OPENS(openat, A_FOLDER, THE_FOLDER)
OPENS(openat64, A_FOLDER, THE_FOLDER)
OPENS_SAFELY(__open_2, NOTHING, NOTHING)
OPENS_SAFELY(__open64_2, NOTHING, NOTHING)
OPENS_SAFELY(__openat_2, A_FOLDER, THE_FOLDER)
OPENS_SAFELY(__openat64_2, A_FOLDER, THE_FOLDER)
