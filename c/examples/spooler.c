/* A print spooler: each line of standard input is a job, two printers take the urgent ones first. What is not printed when it is
 * interrupted stands in the file for the next run.
 *     printf '!now\nlater\n' | spooler jobs.queues
 */
#include "../msgq.h"

#include <errno.h>
#include <pthread.h>
#include <stdio.h>
#include <string.h>

enum { KEY = 3, URGENT = 1, USUAL = 2, END = 3, PRINTERS = 2, PATIENCE = 10000 };

static msgq *queues;
static uint32_t jobs;

static int tell(int wrong) {
    if (wrong != 0)
        fprintf(stderr, "spooler: %s\n", msgq_reason());
    return wrong;
}

static void *print(void *name) {
    char job[MSGQ_MAX_BODY];
    struct msgq_message got;
    while (tell(msgq_receive(queues, jobs, -END, job, sizeof job, 0, NULL, &got)) == 0 && got.type != END)
        printf("%s: %.*s\n", (const char *)name, (int)got.length, job);
    return NULL;
}

static int spool(void) {
    char line[MSGQ_MAX_BODY];
    int wrong = 0;
    while (wrong == 0 && fgets(line, sizeof line, stdin) != NULL) {
        line[strcspn(line, "\n")] = 0;
        wrong = msgq_send(queues, jobs, line[0] == '!' ? URGENT : USUAL, line, strlen(line), 0, NULL);
        if (wrong == 0)
            wrong = msgq_save(queues);
    }
    for (int n = 0; wrong == 0 && n < PRINTERS; n++)
        wrong = msgq_send(queues, jobs, END, NULL, 0, 0, NULL);
    return tell(wrong);
}

int main(int argc, char **argv) {
    static char *names[PRINTERS] = {"left", "right"};
    pthread_t printers[PRINTERS];
    if (argc != 2)
        return fputs("usage: spooler FILE\n", stderr), 2;
    int wrong = msgq_create(argv[1], 352);
    if ((wrong != 0 && wrong != EEXIST && tell(wrong) != 0)
        || tell(msgq_open_wait(argv[1], msgq_within(PATIENCE), &queues)) != 0
        || tell(msgq_get(queues, KEY, MSGQ_CREATE | 0600, &jobs)) != 0)
        return 1;
    for (int n = 0; n < PRINTERS; n++)
        pthread_create(&printers[n], NULL, print, names[n]);
    if (spool() != 0)
        tell(msgq_stop(queues));
    for (int n = 0; n < PRINTERS; n++)
        pthread_join(printers[n], NULL);
    return tell(msgq_close(queues)) != 0;
}
