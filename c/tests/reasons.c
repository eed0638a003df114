/* The sentence of each error, as msgq.h and docs/FAULTS.md have it. Run with the name of a new file, in the folder where it is to be. */
#include "../msgq.h"

#include <errno.h>
#include <pthread.h>
#include <signal.h>
#include <stdio.h>
#include <stdlib.h>
#include <string.h>
#include <sys/resource.h>
#include <sys/stat.h>
#include <sys/wait.h>
#include <unistd.h>

static int passed, failed;
static const char *path;

static void is(long long found, long long expected, const char *what) {
    if (found == expected) {
        passed++;
        return;
    }
    failed++;
    fprintf(stderr, "%s: %lld, not %lld\n", what, found, expected);
}

/* Whether the sentence is `PATH: ` and these words. */
static void says(int told, int wrong, const char *words) {
    char whole[1200];
    snprintf(whole, sizeof whole, "%s: %s", path, words);
    const char *said = msgq_reason();
    is(told, wrong, words);
    if (strcmp(said, whole) == 0) {
        passed++;
        return;
    }
    failed++;
    fprintf(stderr, "said:     %s\nexpected: %s\n", said, whole);
}

static msgq *opened(void) {
    msgq *queues = NULL;
    is(msgq_open(path, &queues), 0, "open");
    is(strlen(msgq_reason()), 0, "nothing is said");
    return queues;
}

/* ---- refusals */

static void of_keys(msgq *queues, uint32_t *id) {
    uint32_t other;
    is(msgq_get(queues, 7, MSGQ_CREATE | 0600, id), 0, "get");
    says(msgq_get(queues, 77, 0, &other), ENOENT, "queue 77: ENOENT: no queue has this key");
    is(msgq_get(queues, 7, 0, &other), 0, "get");
    is(strlen(msgq_reason()), 0, "nothing is said behind a call that is done");
    says(msgq_get(queues, 7, MSGQ_CREATE | MSGQ_EXCLUSIVE, &other), EEXIST, "queue 7: EEXIST: the key has a queue");
    says(msgq_get(queues, (int64_t)1 << 32, 0, &other), EINVAL,
         "queue 4294967296: EINVAL: a key is 0 to 4294967295, or MSGQ_PRIVATE");
    says(msgq_get(queues, -2, 0, &other), EINVAL, "queue -2: EINVAL: a key is 0 to 4294967295, or MSGQ_PRIVATE");
    says(msgq_get(queues, 7, 1 << 20, &other), EINVAL, "queue 7: EINVAL: 04000000 has flags that are none");
    says(msgq_get(queues, 7, 0, NULL), EINVAL, "queue 7: EINVAL: there is no room for the id");
}

static void of_sends(msgq *queues, uint32_t id) {
    static char body[1025];
    struct timespec wrong = {0, 1000000000};
    for (int n = 0; n < 16; n++)
        is(msgq_send(queues, id, 1, body, 1000, 0, NULL), 0, "send");
    says(msgq_send(queues, id, 1, body, 1000, MSGQ_NOWAIT, NULL), EAGAIN,
         "queue @1: EAGAIN: there is no room on it: its messages have 16000 of 16384 bytes, and this one 1000; msgq_set raises the "
         "limit, up to 65536");
    says(msgq_send(queues, id, 1, body, 1000, 0, msgq_within(10)), ETIMEDOUT,
         "queue @1: ETIMEDOUT: there was no room on it in time: its messages have 16000 of 16384 bytes, and this one 1000; msgq_set "
         "raises the limit, up to 65536");
    says(msgq_send(queues, id, 1, body, 1025, 0, NULL), EINVAL,
         "queue @1: EINVAL: the body has 1025 bytes, and a message 1024 at most");
    says(msgq_send(queues, id, 0, body, 1, 0, NULL), EINVAL, "queue @1: EINVAL: the type of a message is at least 1");
    says(msgq_send(queues, 99, 1, body, 1, 0, NULL), EINVAL, "queue @99: EINVAL: no queue ever had this id");
    says(msgq_send(queues, id, 1, NULL, 1, 0, NULL), EINVAL, "queue @1: EINVAL: there is no body");
    says(msgq_send(queues, id, 1, body, 1, MSGQ_NOERROR, NULL), EINVAL, "queue @1: EINVAL: 010000 has flags that are none");
    says(msgq_send(queues, id, 1, body, 1, 0, &wrong), EINVAL, "queue @1: EINVAL: the limit is none");
    is(msgq_send(NULL, id, 1, body, 1025, 0, NULL), EINVAL, "no file");
    is(strcmp(msgq_reason(), "the file: queue @1: EINVAL: the body has 1025 bytes, and a message 1024 at most"), 0, msgq_reason());
}

/* A queue of the most bytes, and one of the most messages. */
static void of_full_queues(msgq *queues, uint32_t id) {
    static char body[1024];
    struct msgq_change change = {65536, -1, -1, -1};
    uint32_t other;
    is(msgq_set(queues, id, &change), 0, "set");
    while (msgq_send(queues, id, 1, body, sizeof body, MSGQ_NOWAIT, NULL) == 0)
        ;
    says(msgq_send(queues, id, 1, body, sizeof body, MSGQ_NOWAIT, NULL), EAGAIN,
         "queue @1: EAGAIN: there is no room on it: its messages have 65152 of 65536 bytes, and this one 1024; that is the most of a "
         "queue");
    is(msgq_get(queues, 8, MSGQ_CREATE | 0600, &other), 0, "get");
    for (int n = 0; n < 1024; n++)
        is(msgq_send(queues, other, 1, NULL, 0, 0, NULL), 0, "send");
    says(msgq_send(queues, other, 1, NULL, 0, MSGQ_NOWAIT, NULL), EAGAIN,
         "queue @2: EAGAIN: there is no room on it: it has 1024 messages, the most of a queue");
    is(msgq_remove(queues, other), 0, "remove");
    says(msgq_send(queues, other, 1, NULL, 0, 0, NULL), EIDRM, "queue @2: EIDRM: it was removed");
    says(msgq_remove(queues, other), EIDRM, "queue @2: EIDRM: it was removed");
}

static void of_receives(msgq *queues, uint32_t id) {
    char room[3];
    struct timespec wrong = {-1, 0};
    says(msgq_receive(queues, id, 0, room, sizeof room, 0, NULL, NULL), E2BIG,
         "queue @1: E2BIG: the message is longer than 3 bytes, and MSGQ_NOERROR is not given; it stays");
    says(msgq_receive(queues, id, 5, room, sizeof room, MSGQ_NOWAIT, NULL, NULL), ENOMSG,
         "queue @1: ENOMSG: there is no message that the type selects");
    says(msgq_receive(queues, id, 5, room, sizeof room, 0, msgq_within(1), NULL), ETIMEDOUT,
         "queue @1: ETIMEDOUT: no message that the type selects came in time");
    says(msgq_receive(queues, id, 0, NULL, 1, 0, NULL, NULL), EINVAL, "queue @1: EINVAL: there is no room");
    says(msgq_receive(queues, id, 0, room, 1, MSGQ_CREATE, NULL, NULL), EINVAL, "queue @1: EINVAL: 01000 has flags that are none");
    says(msgq_receive(queues, id, 0, room, 1, 0, &wrong, NULL), EINVAL, "queue @1: EINVAL: the limit is none");
}

static void of_others(msgq *queues, uint32_t id) {
    struct msgq_change change = {65537, -1, -1, -1};
    uint32_t next;
    says(msgq_stat(queues, id, NULL), EINVAL, "queue @1: EINVAL: there is no room for what is known");
    says(msgq_set(queues, id, NULL), EINVAL, "queue @1: EINVAL: there is no change");
    says(msgq_set(queues, id, &change), EINVAL, "queue @1: EINVAL: a limit is at most 65536 bytes");
    change = (struct msgq_change){1, -7, -1, -1};
    says(msgq_set(queues, id, &change), EINVAL, "queue @1: EINVAL: a user and a group are 0 to 4294967295, or -1");
    change = (struct msgq_change){1, -1, (int64_t)1 << 32, -1};
    says(msgq_set(queues, id, &change), EINVAL, "queue @1: EINVAL: a user and a group are 0 to 4294967295, or -1");
    change = (struct msgq_change){1, -1, -1, 01000};
    says(msgq_set(queues, id, &change), EINVAL, "queue @1: EINVAL: a mode is 0 to 0777, or -1");
    change = (struct msgq_change){1, -1, -1, -2};
    says(msgq_set(queues, id, &change), EINVAL, "queue @1: EINVAL: a mode is 0 to 0777, or -1");
    says(msgq_list(queues, 7, &next), ENOENT, "queue @7: ENOENT: no queue is alive behind it");
    says(msgq_list(queues, 7, NULL), EINVAL, "queue @7: EINVAL: there is no room for the id");
    is(msgq_stop(queues), 0, "stop");
    says(msgq_receive(queues, id, 9, NULL, 0, 0, NULL, NULL), EINTR,
         "queue @1: EINTR: the call would wait, and msgq_stop has ended all waits");
}

/* ---- files */

static void write_file(const char *bytes, size_t count) {
    FILE *file = fopen(path, "w");
    if (file == NULL || fwrite(bytes, 1, count, file) != count || fclose(file) != 0)
        exit(2);
}

static void of_no_files(void) {
    static char pages[3 * 4096];
    msgq *queues;
    says(msgq_open(path, &queues), ENOENT, "it can't be opened: No such file or directory");
    says(msgq_create(path, 3), EINVAL, "it can't be made: a file has 258 to 65536 pages");
    write_file("no pages", 8);
    says(msgq_create(path, 300), EEXIST, "it can't be made: File exists");
    says(msgq_open(path, &queues), EBADMSG,
         "it can't be opened (fault 22): its length is no multiple of 4096, the bytes of a page; it is no file of message queues");
    write_file(pages, 0);
    says(msgq_open(path, &queues), EBADMSG, "it can't be opened (fault 22): the file is cut; it is no file of message queues");
    write_file(pages, sizeof pages);
    says(msgq_open(path, &queues), EBADMSG,
         "it can't be opened (fault 21): page 0 has a wrong digest; it is no file of message queues");
    is(unlink(path), 0, "unlink");
    is(mkdir(path, 0700), 0, "a folder");
    says(msgq_open(path, &queues), EISDIR, "it can't be opened: Is a directory");
    is(rmdir(path), 0, "no folder");
    is(mkfifo(path, 0600), 0, "a fifo");
    says(msgq_open(path, &queues), EINVAL, "it can't be opened: it is no file");
    is(unlink(path), 0, "unlink");
}

/* Page 100 of a file has another byte, and then it has no such page. */
static void of_wrong_pages(void) {
    char byte = 'x';
    msgq *queues;
    is(msgq_create(path, 300), 0, "create");
    FILE *file = fopen(path, "r+");
    is(file != NULL && fseek(file, 100 * 4096 + 7, SEEK_SET) == 0 && fwrite(&byte, 1, 1, file) == 1 && fclose(file) == 0, 1, "a page");
    says(msgq_open(path, &queues), EBADMSG, "it can't be opened (fault 21): page 100 has a wrong digest");
    is(msgq_last_fault(), 21, "its fault");
    is(truncate(path, 100 * 4096), 0, "a cut");
    says(msgq_open(path, &queues), EBADMSG, "it can't be opened (fault 22): the file is cut");
    is(unlink(path), 0, "unlink");
}

/* The journal of another file, and one that may not be read. */
static void of_journals(void) {
    char journal[300];
    msgq *queues;
    snprintf(journal, sizeof journal, "%s.journal", path);
    unlink(journal);
    is(msgq_create(path, 600), 0, "create");
    is(mkdir(journal, 0700), 0, "a folder in its place");
    says(msgq_open(path, &queues), EACCES, "it can't be opened: its journal: Permission denied");
    is(rmdir(journal), 0, "no folder");
}

static void of_turns(void) {
    char words[80];
    msgq *queues = opened(), *other;
    struct timespec wrong = {0, -1};
    int status = 0;
    says(msgq_open(path, &other), EBUSY, "it can't be opened: it is open in this process");
    says(msgq_open_wait(path, msgq_within(20), &other), ETIMEDOUT, "it can't be opened: it is open in this process");
    says(msgq_open_wait(path, &wrong, &other), EINVAL, "it can't be opened: the limit is none");
    snprintf(words, sizeof words, "it can't be opened: it is in use by process %d", (int)getpid());
    pid_t child = fork();
    if (child == 0) {
        int before = failed;
        uint32_t id;
        says(msgq_open(path, &other), EBUSY, words);
        says(msgq_get(queues, 7, 0, &id), ENOTSUP,
             "the call is not made: a parent of this process has opened it: the child opens it anew");
        _exit(failed > before);
    }
    waitpid(child, &status, 0);
    is(status, 0, "what a child is told");
    is(msgq_abandon(queues), 0, "abandon");
}

/* It comes to its turn once the other closes the file. */
static void *closes_soon(void *with) {
    struct timespec soon = {0, 30000000};
    nanosleep(&soon, NULL);
    return (void *)(size_t)msgq_close(with);
}

static void a_turn_comes(void) {
    pthread_t thread;
    void *told;
    for (int n = 0; n < 2; n++) {
        msgq *queues = opened(), *other;
        if (pthread_create(&thread, NULL, closes_soon, queues) != 0)
            exit(2);
        is(msgq_open_wait(path, n == 0 ? NULL : msgq_within(60000), &other), 0, "an opening that waits for its turn");
        pthread_join(thread, &told);
        is((long long)(size_t)told, 0, "close");
        is(msgq_close(other), 0, "close");
    }
}

/* While an opening waits another file gets the name: that is opened. */
static void *moves_soon(void *with) {
    struct timespec soon = {0, 30000000};
    nanosleep(&soon, NULL);
    int wrong = rename("moved", path);
    return (void *)(size_t)(wrong != 0 ? wrong : msgq_close(with));
}

static void a_file_is_moved(void) {
    pthread_t thread;
    void *told;
    uint32_t id;
    msgq *queues, *other;
    is(msgq_create("moved", 300), 0, "create");
    is(msgq_open("moved", &queues), 0, "open");
    is(msgq_get(queues, 4711, MSGQ_CREATE | 0600, &id), 0, "get");
    is(msgq_close(queues), 0, "close");
    queues = opened();
    if (pthread_create(&thread, NULL, moves_soon, queues) != 0)
        exit(2);
    is(msgq_open_wait(path, msgq_within(60000), &other), 0, "an opening that waits");
    pthread_join(thread, &told);
    is((long long)(size_t)told, 0, "close");
    is(msgq_get(other, 4711, 0, &id), 0, "the file that was put there");
    is(msgq_close(other), 0, "close");
    unlink("moved.journal");
}

/* ---- saves */

/* No byte may be written. */
static void of_saves(void) {
    struct rlimit limit, none;
    uint32_t id;
    msgq *queues = opened();
    is(msgq_get(queues, 12, MSGQ_CREATE | 0600, &id), 0, "get");
    signal(SIGXFSZ, SIG_IGN);
    getrlimit(RLIMIT_FSIZE, &limit);
    none = (struct rlimit){0, limit.rlim_max};
    setrlimit(RLIMIT_FSIZE, &none);
    int told = msgq_save(queues);
    setrlimit(RLIMIT_FSIZE, &limit);
    says(told, EFBIG, "it can't be saved, and is to be opened anew: its journal: File too large");
    says(msgq_save(queues), EIO, "it can't be saved: an earlier save has failed: it is to be opened anew");
    says(msgq_close(queues), EIO, "it can't be saved: an earlier save has failed: it is to be opened anew");
    is(msgq_abandon(queues), 0, "abandon");
}

/* The program has closed the descriptors of a file, and opens another by their numbers: nothing is written to that. */
static void of_descriptors(void) {
    uint32_t id;
    struct stat found;
    msgq *queues = opened();
    is(msgq_get(queues, 13, MSGQ_CREATE | 0600, &id), 0, "get");
    for (int file = 3; file < 20; file++)
        close(file);
    FILE *other[4];
    for (int n = 0; n < 4; n++)
        other[n] = fopen("other", "w+");
    says(msgq_save(queues), EBADF, "it can't be saved, and is to be opened anew: the program has closed its descriptor");
    is(msgq_abandon(queues), 0, "abandon");
    is(stat("other", &found) == 0 && found.st_size == 0, 1, "the other file");
    for (int n = 0; n < 4; n++)
        is(other[n] != NULL && fclose(other[n]) == 0, 1, "it is open");
    is(unlink("other"), 0, "unlink");
}

/* A name that is long, and one with a byte of control. */
static void of_names(void) {
    char name[600], words[700];
    msgq *queues;
    memset(name, 'n', sizeof name);
    name[sizeof name - 1] = '\0';
    is(msgq_open(name, &queues), ENAMETOOLONG, "a long name");
    snprintf(words, sizeof words, "...%s: it can't be opened: File name too long", name + sizeof name - 1 - 252);
    is(strcmp(msgq_reason(), words), 0, msgq_reason());
    is(msgq_open("no\nsuch", &queues), ENOENT, "a name with a line end");
    is(strcmp(msgq_reason(), "no?such: it can't be opened: No such file or directory"), 0, msgq_reason());
    is(msgq_open(NULL, &queues), EINVAL, "no name");
    is(strcmp(msgq_reason(), "the file: it can't be opened: Invalid argument"), 0, msgq_reason());
    is(msgq_create(NULL, 300), EINVAL, "no name");
    is(strcmp(msgq_reason(), "the file: it can't be made: there is no name"), 0, msgq_reason());
    is(msgq_stop(NULL), EINVAL, "no file");
    is(strcmp(msgq_reason(), "the file: the call is not made: there is none"), 0, msgq_reason());
}

/* Of each thread. */
static void *hears(void *with) {
    (void)with;
    return (void *)strlen(msgq_reason());
}

static void of_threads(void) {
    pthread_t thread;
    void *told;
    is(msgq_stop(NULL), EINVAL, "no file");
    if (pthread_create(&thread, NULL, hears, NULL) != 0)
        exit(2);
    pthread_join(thread, &told);
    is((long long)(size_t)told, 0, "another thread is told nothing");
}

int main(int argc, char **argv) {
    uint32_t id = 0;
    if (argc != 2)
        return 2;
    path = argv[1];
    of_no_files();
    of_wrong_pages();
    of_journals();
    msgq *queues = opened();
    of_keys(queues, &id);
    of_sends(queues, id);
    of_full_queues(queues, id);
    of_receives(queues, id);
    of_others(queues, id);
    is(msgq_close(queues), 0, "close");
    of_turns();
    a_turn_comes();
    a_file_is_moved();
    of_saves();
    of_descriptors();
    of_names();
    of_threads();
    printf("%d passed, %d failed\n", passed, failed);
    return failed > 0;
}
