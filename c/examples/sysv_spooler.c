/* A spooler of the system's message queues, which knows nothing of msgq: `spooler put` sends each line of standard input as a job, one
 * that begins with `!` as an urgent one, and `spooler take` prints those that are there, urgent ones first.
 *
 *     cc -o spooler sysv_spooler.c
 *     msgq with jobs -- ./spooler put
 */
#include <stdio.h>
#include <string.h>
#include <sys/msg.h>

enum { KEY = 515, URGENT = 1, USUAL = 2 };

struct job {
    long type;
    char text[1024];
};

static int put(int queue) {
    struct job job;
    while (fgets(job.text, sizeof job.text, stdin) != NULL) {
        job.type = job.text[0] == '!' ? URGENT : USUAL;
        if (msgsnd(queue, &job, strlen(job.text), 0) != 0)
            return perror("msgsnd"), 1;
    }
    return 0;
}

static int take(int queue) {
    struct job job;
    ssize_t length;
    while ((length = msgrcv(queue, &job, sizeof job.text, -USUAL, IPC_NOWAIT)) >= 0)
        printf("%.*s", (int)length, job.text);
    return 0;
}

int main(int argc, char **argv) {
    int queue = msgget(KEY, IPC_CREAT | 0600);
    if (queue < 0)
        return perror("msgget"), 1;
    return argc == 2 && strcmp(argv[1], "put") == 0 ? put(queue) : take(queue);
}
