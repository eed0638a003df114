/* msgget, msgsnd and msgrcv. A call that is refused has changed nothing but errno, and one that is done not even that. */
#include "xsi.h"

#include <errno.h>
#include <limits.h>

int msgget(key_t key, int flags) {
    if (!xsi_is_served())
        return BEHIND(msgget)(key, flags);
    struct server *server = xsi_server();
    int was = errno;
    uint8_t asked = (uint8_t)((flags & IPC_CREAT ? CREATES : 0) | (flags & IPC_EXCL ? IS_EXCLUSIVE : 0)
                              | (key != IPC_PRIVATE ? HAS_KEY : 0));
    uint32_t id;
    int wrong = server == NULL ? -ENOMEM : request_get(server, (uint32_t)key, asked, (uint16_t)(flags & 0777), &id);
    /* No room in the file for one more queue. */
    if (wrong == XSI_FULL || (wrong == 0 && id > INT_MAX))
        wrong = XSI_ENOSPC;
    if (wrong != 0)
        return xsi_refuse(wrong);
    errno = was;
    return (int)id;
}

/* What a call is told that may wait. One that was hung up by a jump, and not left, has been interrupted by a handler. */
static int end_wait(unsigned jumps, int wrong) {
    return wrong == -ECONNRESET && jumps != xsi_jumps() ? -EINTR : wrong;
}

/* EFAULT where there is no type at all, as the system says before it looks at anything else. */
static int refuse_send(const void *message) {
    long type;
    int wrong = xsi_copy_in(&type, message, sizeof type);
    return xsi_refuse(wrong != 0 ? wrong : -EINVAL);
}

int msgsnd(int id, const void *message, size_t size, int flags) {
    if (!xsi_is_served())
        return BEHIND(msgsnd)(id, message, size, flags);
    struct server *server = xsi_server();
    uint64_t serial;
    int was = errno;
    if (id < 0 || size > XSI_BODY)
        return refuse_send(message);
    const struct iovec whole = {(void *)(uintptr_t)message, sizeof(long) + size};
    const struct waiting how = {.waits = (flags & IPC_NOWAIT) == 0};
    unsigned jumps = xsi_jumps();
    int wrong = server == NULL
        ? -ENOMEM
        : request_send(server, (uint32_t)id, flags & IPC_NOWAIT ? NO_WAIT : 0, &whole, 1, &how, &serial);
    if (wrong != 0)
        return xsi_refuse(end_wait(jumps, wrong));
    errno = was;
    return 0;
}

ssize_t msgrcv(int id, void *message, size_t size, long type, int flags) {
    if (!xsi_is_served())
        return BEHIND(msgrcv)(id, message, size, type, flags);
    struct server *server = xsi_server();
    int was = errno;
    if (id < 0 || size > SSIZE_MAX || (flags & (MSG_EXCEPT | MSG_COPY)) != 0)
        return xsi_refuse(-EINVAL);
    uint32_t most = size > XSI_BODY ? XSI_BODY : (uint32_t)size;
    const struct iovec whole = {message, sizeof(long) + most};
    const struct waiting how = {.waits = (flags & IPC_NOWAIT) == 0};
    const struct selection it = {
        .id = (uint32_t)id,
        .flags = (uint8_t)((flags & IPC_NOWAIT ? NO_WAIT : 0) | (flags & MSG_NOERROR ? NO_ERROR : 0)),
        .type = type,
        .size = most,
        .message = &whole,
        .parts = 1,
    };
    struct taken told;
    unsigned jumps = xsi_jumps();
    int wrong = server == NULL ? -ENOMEM : request_receive(server, &it, &how, &told);
    if (wrong != 0)
        return xsi_refuse(end_wait(jumps, wrong));
    errno = was;
    return (ssize_t)told.length;
}
