/* msgctl, with what `ipcs` asks of all queues. */
#include "xsi.h"

#include <errno.h>
#include <string.h>

int xsi_stat(uint32_t id, struct msqid_ds *found) {
    struct known it;
    int wrong = request_stat(xsi_server(), id, &it);
    if (wrong != 0)
        return wrong;
    memset(found, 0, sizeof *found);
    found->msg_perm.__key = it.has_key ? (key_t)it.key : IPC_PRIVATE;
    found->msg_perm.uid = it.uid;
    found->msg_perm.gid = it.gid;
    found->msg_perm.cuid = it.cuid;
    found->msg_perm.cgid = it.cgid;
    found->msg_perm.mode = it.mode;
    found->msg_stime = (time_t)it.stime;
    found->msg_rtime = (time_t)it.rtime;
    found->msg_ctime = (time_t)it.ctime;
    found->msg_qnum = it.qnum;
    found->__msg_cbytes = it.cbytes;
    found->msg_qbytes = it.qbytes;
    found->msg_lspid = (pid_t)it.lspid;
    found->msg_lrpid = (pid_t)it.lrpid;
    return 0;
}

/* IPC_STAT */
static int stat_to(uint32_t id, struct msqid_ds *buffer) {
    struct msqid_ds found;
    int wrong = xsi_stat(id, &found);
    return wrong != 0 ? wrong : xsi_copy_out(&found, buffer, sizeof found);
}

/* MSG_STAT and MSG_STAT_ANY: of the queue at a place among all that are alive. */
static int stat_at(uint32_t place, struct msqid_ds *buffer, uint32_t *id) {
    int wrong = request_nth(xsi_server(), place, id);
    return wrong != 0 ? wrong : stat_to(*id, buffer);
}

/* What nobody may say, of a queue that is there: EPERM, as the system says it. */
static int refuse_qbytes(uint32_t id) {
    struct msqid_ds found;
    int wrong = xsi_stat(id, &found);
    return wrong == 0 || wrong == XSI_EACCES ? -EPERM : wrong;
}

/* IPC_SET */
static int set_from(uint32_t id, const struct msqid_ds *buffer) {
    struct msqid_ds it;
    int wrong = xsi_copy_in(&it, buffer, sizeof it);
    if (wrong != 0)
        return wrong;
    if (it.msg_perm.uid == (uid_t)-1 || it.msg_perm.gid == (gid_t)-1)
        return -EINVAL;
    if (it.msg_qbytes > XSI_QBYTES)
        return refuse_qbytes(id);
    const struct setting change = {
        .flags = HAS_USER | HAS_GROUP | HAS_MODE,
        .mode = it.msg_perm.mode & 0777,
        .qbytes = (uint32_t)it.msg_qbytes,
        .uid = it.msg_perm.uid,
        .gid = it.msg_perm.gid,
    };
    return request_set(xsi_server(), id, &change);
}

/* Counts the messages of all queues, and their bytes; but not of those that the caller may not read. */
static int count_all(struct msginfo *told) {
    struct msqid_ds found;
    uint32_t id = 0;
    int wrong;
    while ((wrong = request_next(xsi_server(), id, &id)) == 0)
        if (xsi_stat(id, &found) == 0) {
            told->msgmap += (int)found.msg_qnum;
            told->msgtql += (int)found.__msg_cbytes;
        }
    /* (as it is told behind the last one) */
    return wrong == XSI_EINVAL ? 0 : wrong;
}

/* IPC_INFO and MSG_INFO: the limits, or how much there is; and the last place that MSG_STAT knows. */
static int inform(bool counts, struct msginfo *buffer, uint32_t *last) {
    struct msginfo it = {
        .msgpool = XSI_QUEUES * XSI_QBYTES_AT_FIRST / 1024,
        .msgmap = XSI_QBYTES_AT_FIRST,
        .msgmax = XSI_BODY,
        .msgmnb = XSI_QBYTES_AT_FIRST,
        .msgmni = XSI_QUEUES,
        .msgssz = 16,
        .msgtql = XSI_QBYTES_AT_FIRST,
        .msgseg = 0xffff,
    };
    struct census all;
    int wrong = request_info(xsi_server(), &all);
    if (wrong != 0)
        return wrong;
    *last = all.queues == 0 ? 0 : all.queues - 1;
    if (counts) {
        it.msgpool = (int)all.queues;
        it.msgmap = it.msgtql = 0;
        if ((wrong = count_all(&it)) != 0)
            return wrong;
    }
    return xsi_copy_out(&it, buffer, sizeof it);
}

/* Does a command, whose value is 0 where it says no other. */
static int control(uint32_t id, int command, struct msqid_ds *buffer, uint32_t *value) {
    switch (command) {
    case IPC_RMID:
        return request_plain(xsi_server(), REMOVE, id);
    case IPC_SET:
        return set_from(id, buffer);
    case IPC_STAT:
        return stat_to(id, buffer);
    case MSG_STAT:
    case MSG_STAT_ANY:
        return stat_at(id, buffer, value);
    case IPC_INFO:
    case MSG_INFO:
        return inform(command == MSG_INFO, (struct msginfo *)(void *)buffer, value);
    default:
        return -EINVAL;
    }
}

int msgctl(int id, int command, struct msqid_ds *buffer) {
    if (!xsi_is_served())
        return BEHIND(msgctl)(id, command, buffer);
    uint32_t value = 0;
    int was = errno, wrong = -EINVAL;
    if (id >= 0)
        wrong = xsi_server() == NULL ? -ENOMEM : control((uint32_t)id, command, buffer, &value);
    if (wrong != 0)
        return xsi_refuse(wrong);
    errno = was;
    return (int)value;
}
