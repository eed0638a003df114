/* The server that the process is told, and how what it answers is told to a program of <sys/msg.h>. */
#include "xsi.h"

#include <dlfcn.h>
#include <errno.h>
#include <pthread.h>
#include <stdlib.h>
#include <string.h>
#include <sys/syscall.h>
#include <sys/uio.h>
#include <unistd.h>

/* How long a server that is not there is waited for, in seconds, where MSGQ_PATIENCE says nothing. */
enum { PATIENCE = 10, MOST_PATIENCE = 1000000 };

static struct {
    pthread_once_t once;
    bool is_served;
    struct server *server;
} process = {.once = PTHREAD_ONCE_INIT};

static int patience(void) {
    const char *said = secure_getenv("MSGQ_PATIENCE");
    char *end;
    long seconds = said == NULL ? PATIENCE : strtol(said, &end, 10);
    if (said != NULL && (end == said || *end != '\0' || seconds < 0 || seconds > MOST_PATIENCE))
        seconds = PATIENCE;
    return (int)seconds * 1000;
}

static void begin(void) {
    const char *socket = secure_getenv("MSGQ_SOCKET");
    process.is_served = socket != NULL && *socket != '\0';
    if (process.is_served && server_begin(socket, patience(), &process.server) != 0)
        process.server = NULL;
}

/* At once, before the program changes its environment; and for what runs before this library. */
__attribute__((constructor)) static void begin_once(void) {
    (void)pthread_once(&process.once, begin);
}

bool xsi_is_served(void) {
    begin_once();
    return process.is_served;
}

struct server *xsi_server(void) {
    begin_once();
    return process.server;
}

static _Thread_local unsigned jumps;

void xsi_leave(void) {
    jumps++;
    if (process.server != NULL)
        server_leave(process.server);
}

unsigned xsi_jumps(void) {
    return jumps;
}

void *xsi_behind(const char *name, void *_Atomic *known) {
    void *found = *known;
    if (found == NULL)
        *known = found = dlsym(RTLD_NEXT, name);
    return found;
}

/* ---- numbers */

/* Of a code of docs/PROTOCOL.md. */
static int errno_of_code(int code) {
    static const int refusals[] = {0,      E2BIG,  EAGAIN, EEXIST, EIDRM,  EINTR,
                                   EINVAL, ENOENT, ENOMSG, ENOSPC, EACCES, EPERM};
    if (code < (int)(sizeof refusals / sizeof *refusals))
        return refusals[code];
    return code == XSI_FULL || code == XSI_NO_MEMORY ? ENOMEM : EIO;
}

/* Of an error of the system. A queue whose server was lost while it was used is as one that was removed. */
static int errno_of_system(int wrong) {
    switch (wrong) {
    case EINTR:
    case EFAULT:
    case ENOMEM:
    case EACCES:
    case EINVAL:
    case EPERM:
        return wrong;
    case ECONNRESET:
        return EIDRM;
    case EMFILE:
    case ENFILE:
    case ENOBUFS:
        return ENOMEM;
    default:
        return ENOSYS;
    }
}

int xsi_refuse(int wrong) {
    errno = wrong < 0 ? errno_of_system(-wrong) : errno_of_code(wrong);
    return -1;
}

/* ---- the program's memory */

static int copy(int call, void *mine, const void *theirs, size_t count) {
    struct iovec here = {mine, count}, there = {(void *)(uintptr_t)theirs, count};
    int was = errno;
    long done = syscall(call, syscall(SYS_getpid), &here, 1L, &there, 1L, 0L);
    int wrong = done == (long)count ? 0 : done >= 0 ? EFAULT : errno;
    errno = was;
    return wrong;
}

/* Where the system forbids such copies the memory is taken for the program's, as far as it is not NULL. */
int xsi_copy_in(void *mine, const void *theirs, size_t count) {
    int wrong = copy(SYS_process_vm_readv, mine, theirs, count);
    if (wrong == 0 || wrong == EFAULT || theirs == NULL)
        return wrong == 0 ? 0 : -EFAULT;
    memcpy(mine, theirs, count);
    return 0;
}

int xsi_copy_out(const void *mine, void *theirs, size_t count) {
    int wrong = copy(SYS_process_vm_writev, (void *)(uintptr_t)mine, theirs, count);
    if (wrong == 0 || wrong == EFAULT || theirs == NULL)
        return wrong == 0 ? 0 : -EFAULT;
    memcpy(theirs, mine, count);
    return 0;
}
