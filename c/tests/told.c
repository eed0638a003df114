/* The numbers and sentences of msgq.h where a server refuses, fails, or is none. Run with the path of a new file, beside which the socket
 * stands. */
#include "../msgq.h"
#include "scripted.h"

#include <pthread.h>
#include <sys/resource.h>

static char file[3000];

/* Whether the sentence is that of a name, and these words. */
static void says(int told, int wrong, const char *name, const char *words) {
    char whole[5000];
    snprintf(whole, sizeof whole, "%s: %s", name, words);
    is(told, wrong, words);
    if (strcmp(msgq_reason(), whole) != 0)
        fprintf(stderr, "said: %s\n", msgq_reason());
    is(strcmp(msgq_reason(), whole), 0, whole);
}

/* ---- who is no server */

static void are_none(void) {
    int fd = accepted();
    greet(fd, 2);
    gone(fd);
    close(accepted());
    fd = accepted();
    greet(fd, 2);
    gone(fd);
}

static void no_servers(void) {
    msgq *queues = NULL;
    serves(are_none);
    says(msgq_connect(path, &queues), EPROTO, path,
         "it can't be connected to: who has the socket does not greet as a server of this version");
    says(msgq_connect(path, &queues), ECONNRESET, path,
         "it can't be connected to: it hangs up at once: it has as many clients as it may, or ends");
    says(msgq_attach(file, &queues), EPROTO, file,
         "its server can't be connected to: who has the socket does not greet as a server of this version");
    has_ended("who is no server");
    is(queues == NULL, true, "no handle");
}

/* A file that this process has open is neither opened once more nor served. */
static void a_file_in_use(void) {
    msgq *queues, *again = NULL;
    unlink(path);
    is(msgq_open(file, &queues), 0, "open");
    says(msgq_attach(file, &again), EBUSY, file, "it can't be opened: it is open in this process");
    is(msgq_abandon(queues), 0, "abandon");
}

static void a_socket_of_another(void) {
    msgq *queues;
    if (geteuid() != 0)
        return;
    serves(are_none);
    chmod(path, 0600);
    is(seteuid(65534), 0, "another user");
    says(msgq_attach(file, &queues), EACCES, file, "its server can't be connected to: Permission denied");
    is(seteuid(0), 0, "back");
    kill(process, SIGKILL);
    waitpid(process, NULL, 0);
}

/* ---- what is told of a call */

enum { CODES = 6 };
static const uint32_t codes[CODES] = {50, 60, 62, 9, 10, 11};

static void tells_codes(void) {
    int fd = client();
    for (int n = 0; n < CODES; n++)
        tell(fd, hear(fd, n < 3 ? 1 : n == 3 ? 12 : n == 4 ? 3 : 14).number, codes[n], 0, NULL, 0);
    tell(fd, hear(fd, 4).number, 203, 0, NULL, 0);
    close(fd);
    fd = client();
    (void)hear(fd, 9);
    close(fd);
    /* A reservation is made again. */
    fd = client();
    (void)hear(fd, 12);
    close(fd);
    fd = client();
    tell_message(fd, hear(fd, 12).number, 44, "held");
    gone(fd);
}

static void *without_descriptors(void *with) {
    says(msgq_remove(with, 3), EMFILE, path, "the call is not made: Too many open files");
    return NULL;
}

static void calls(void) {
    char body[MSGQ_MAX_BODY];
    struct rlimit before, none;
    struct msgq_info info;
    struct msgq_message message;
    pthread_t thread;
    uint32_t id = 0, holding = 0;
    msgq *queues;
    serves(tells_codes);
    is(msgq_connect(path, &queues), 0, "connect");
    says(msgq_get(queues, 7, 0, &id), ENOSPC, path,
         "queue 7: ENOSPC (fault 50): the file has no room for a record: 'msgq grow' makes it larger");
    is(msgq_last_fault(), 50, "its fault");
    says(msgq_get(queues, 7, 0, &id), ENOMEM, path, "queue 7: ENOMEM (fault 60): out of memory");
    says(msgq_get(queues, 7, 0, &id), EIO, path, "queue 7: EIO (fault 62): the file has failed: it is to be opened anew");
    says(msgq_reserve(queues, 3, 0, body, sizeof body, 0, NULL, NULL, &holding), ENOSPC, path,
         "queue @3: ENOSPC: 256 queues are alive, and what is held is one more");
    says(msgq_receive(queues, 3, 0, body, sizeof body, 0, NULL, NULL), EACCES, path,
         "queue @3: EACCES: its mode does not let the caller read");
    says(msgq_release(queues, 3), EPERM, path, "queue @3: EPERM: the caller is neither its owner, its creator nor user 0");
    says(msgq_stat(queues, 3, &info), EPROTO, path, "it is not known whether the call was made: its server's answer is none");
    says(msgq_save(queues), ECONNRESET, path, "it is not known whether the call was made: its server was lost");
    getrlimit(RLIMIT_NOFILE, &before);
    none = before;
    none.rlim_cur = 0;
    setrlimit(RLIMIT_NOFILE, &none);
    pthread_create(&thread, NULL, without_descriptors, queues);
    pthread_join(thread, NULL);
    setrlimit(RLIMIT_NOFILE, &before);
    is(msgq_reserve(queues, 3, 0, body, sizeof body, 0, NULL, &message, &holding), 0, "a reservation is made again");
    is(holding == 44 && message.length == 4 && message.type == 5 && message.serial == 9 && message.sender == 77, true, "what it is");
    is(msgq_abandon(queues), 0, "abandon");
    has_ended("what is told");
}

int main(int argc, char **argv) {
    if (argc != 2)
        return 2;
    snprintf(file, sizeof file, "%s", argv[1]);
    snprintf(path, sizeof path, "%s.socket", argv[1]);
    is(msgq_create(file, 300), 0, "create");
    no_servers();
    a_file_in_use();
    a_socket_of_another();
    calls();
    unlink(path);
    printf("%d passed, %d failed\n", passed, failed);
    return failed > 0;
}
