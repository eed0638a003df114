/* An extension that a program opens: how many messages a queue has, or -1. */
#include <sys/msg.h>

int count(int id);

int count(int id) {
    struct msqid_ds found;
    return msgctl(id, IPC_STAT, &found) == 0 ? (int)found.msg_qnum : -1;
}
