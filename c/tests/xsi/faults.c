/* What calls with memory that is none are answered, and others that are wrong: run on the system's own queues and by `msgq with`, it prints
 * the same. */
#include <errno.h>
#include <stdio.h>
#include <string.h>
#include <sys/msg.h>

static struct {
    long type;
    char body[64];
} message = {1, "hello"};

static void say(const char *what, long value) {
    printf("%s: %ld %s\n", what, value, value < 0 ? strerrorname_np(errno) : "");
}

int main(void) {
    struct msqid_ds found = {.msg_qnum = 0};
    int id = msgget(IPC_PRIVATE, IPC_CREAT | 0600);
    void *bad = (void *)8;
    say("msgsnd of NULL", msgsnd(id, NULL, 5, 0));
    say("msgsnd of 8", msgsnd(id, bad, 5, 0));
    say("msgsnd of -1 bytes", msgsnd(id, &message, (size_t)-1, 0));
    say("msgsnd of -1 bytes of NULL", msgsnd(id, NULL, (size_t)-1, 0));
    say("msgsnd to -1", msgsnd(-1, &message, 1, 0));
    message.type = 0;
    say("msgsnd of type 0", msgsnd(id, &message, 1, 0));
    message.type = 1;
    say("IPC_STAT to 8", msgctl(id, IPC_STAT, bad));
    say("IPC_SET of 8", msgctl(id, IPC_SET, bad));
    say("IPC_INFO to 8", msgctl(id, IPC_INFO, bad));
    say("MSG_STAT of -1", msgctl(-1, MSG_STAT, &found));
    say("a command that is none", msgctl(id, 99, &found));
    say("msgsnd", msgsnd(id, &message, 5, 0));
    say("msgrcv to 8", msgrcv(id, bad, 5, 0, 0));
    say("what is left", msgctl(id, IPC_STAT, &found) == 0 ? (long)found.msg_qnum : -1);
    say("msgsnd once more", msgsnd(id, &message, 5, 0));
    say("msgrcv of -1 bytes", msgrcv(id, &message, (size_t)-1, 0, 0));
    say("msgrcv of 4", msgrcv(id, &message, 4, 0, 0));
    say("msgrcv of 4, cut", msgrcv(id, &message, 4, 0, MSG_NOERROR));
    say("IPC_RMID", msgctl(id, IPC_RMID, NULL));
    return 0;
}
