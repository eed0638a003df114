/* The errors of msgq.h that need a file, a user or a limit of their own; what is expected stands in docs/QUEUES.md, docs/FAULTS.md
 * and msgq.h. Run with the path of a new file, in a folder that every user may enter. */
#include "../msgq.h"

#include <errno.h>
#include <signal.h>
#include <stdio.h>
#include <string.h>
#include <sys/resource.h>
#include <sys/stat.h>
#include <unistd.h>

enum { NOBODY = 65534, MOST_QUEUES = 256 };

static int passed, failed;

static void is(long long found, long long expected, const char *what) {
    if (found == expected) {
        passed++;
        return;
    }
    failed++;
    fprintf(stderr, "%s: %lld, not %lld\n", what, found, expected);
}

static msgq *opened(const char *path) {
    msgq *queues = NULL;
    is(msgq_open(path, &queues), 0, "open");
    return queues;
}

/* A file of 258 pages has one bucket for all records, which holds three messages of 1,000 bytes and no fourth. */
static void no_room(const char *path) {
    char body[1000] = "";
    uint32_t id;
    is(msgq_create(path, 258), 0, "create");
    msgq *queues = opened(path);
    is(msgq_get(queues, 1, MSGQ_CREATE | 0600, &id), 0, "get");
    for (int n = 0; n < 3; n++)
        is(msgq_send(queues, id, 1, body, sizeof body, 0, NULL), 0, "a message for which there is room");
    is(msgq_send(queues, id, 1, body, sizeof body, 0, NULL), ENOSPC, "one for which there is none");
    is(msgq_last_fault(), 50, "its fault");
    is(msgq_receive(queues, id, 0, body, sizeof body, 0, NULL, NULL), 0, "a message that is there");
    is(msgq_close(queues), 0, "close");
    unlink(path);
}

static void no_queue_more(const char *path) {
    uint32_t id;
    is(msgq_create(path, 352), 0, "create");
    msgq *queues = opened(path);
    for (int n = 0; n < MOST_QUEUES; n++)
        is(msgq_get(queues, MSGQ_PRIVATE, 0600, &id), 0, "a queue");
    is(msgq_get(queues, MSGQ_PRIVATE, 0600, &id), ENOSPC, "one more than may be alive");
    is(msgq_last_fault(), 0, "no fault");
    is(msgq_abandon(queues), 0, "abandon");
}

/* The queue is user 0's, of mode 600, and the caller another. */
static void another_user(const char *path) {
    struct msgq_info info;
    struct msgq_change change = {.qbytes = 16384, .uid = -1, .gid = -1, .mode = -1};
    struct msgq_change none = {.qbytes = 0, .uid = -1, .gid = -1, .mode = -1};
    uint32_t id, own, full;
    if (geteuid() != 0) {
        puts("refusals: who runs this is not user 0, so no other user is tried");
        return;
    }
    is(chmod(path, 0666), 0, "a file for all");
    msgq *queues = opened(path);
    is(msgq_get(queues, 7, MSGQ_CREATE | 0600, &id), 0, "get");
    /* Another user may write to it, and not read it; it holds no byte. */
    is(msgq_get(queues, 9, MSGQ_CREATE | 0622, &full), 0, "get");
    is(msgq_set(queues, full, &none), 0, "set");
    is(msgq_close(queues), 0, "close");
    is(seteuid(NOBODY), 0, "another user");
    queues = opened(path);
    is(msgq_get(queues, 7, 0, &id), 0, "the queue of a key");
    is(msgq_stat(queues, id, &info), EACCES, "stat");
    is(msgq_send(queues, full, 1, "x", 1, MSGQ_NOWAIT, NULL), EAGAIN, "a full queue that may not be read");
    is(strstr(msgq_reason(), "EAGAIN: there is no room on it") != NULL && strstr(msgq_reason(), "bytes") == NULL, 1, msgq_reason());
    is(msgq_send(queues, id, 1, "x", 1, 0, NULL), EACCES, "send");
    is(msgq_receive(queues, id, 0, NULL, 0, 0, NULL, NULL), EACCES, "receive");
    is(msgq_set(queues, id, &change), EPERM, "set");
    is(msgq_remove(queues, id), EPERM, "remove");
    is(msgq_get(queues, 8, MSGQ_CREATE | 0600, &own), 0, "a queue of its own");
    change.qbytes = 16385;
    is(msgq_set(queues, own, &change), EPERM, "more bytes than it has");
    is(msgq_abandon(queues), 0, "abandon");
    is(seteuid(0), 0, "user 0 again");
}

/* The file is given to another user, with his group: its journal follows. One who can't give his own away lets the group have it. */
static void a_file_is_given(const char *path) {
    char name[300];
    struct stat found;
    if (geteuid() != 0)
        return;
    snprintf(name, sizeof name, "%s.journal", path);
    is(chown(path, NOBODY, NOBODY), 0, "a file that is given away");
    is(chmod(path, 0660), 0, "its mode");
    is(msgq_abandon(opened(path)), 0, "abandon");
    is(stat(name, &found), 0, "its journal");
    is(found.st_uid, NOBODY, "its user");
    is(found.st_gid, NOBODY, "its group");
    is(found.st_mode & 0777, 0660, "its mode");
    is(chown(path, 0, 0), 0, "it is given back");
    is(chmod(path, 0666), 0, "its mode");
    is(seteuid(NOBODY), 0, "another user");
    is(msgq_abandon(opened(path)), 0, "abandon");
    is(seteuid(0), 0, "user 0 again");
    is(stat(name, &found), 0, "its journal");
    is(found.st_uid, NOBODY, "its user");
    is(found.st_mode & 0777, found.st_gid == 0 ? 0666 : 0606, "its mode");
    is(chown(name, 0, 0), 0, "it is given back");
}

static void set_limit(int which, rlim_t soft) {
    struct rlimit limit;
    getrlimit(which, &limit);
    limit.rlim_cur = soft;
    setrlimit(which, &limit);
}

/* No byte may be written: the save fails, and the file is to be opened anew. */
static void no_save(const char *path) {
    uint32_t id;
    struct rlimit before;
    signal(SIGXFSZ, SIG_IGN);
    getrlimit(RLIMIT_FSIZE, &before);
    msgq *queues = opened(path);
    is(msgq_get(queues, 11, MSGQ_CREATE | 0600, &id), 0, "get");
    set_limit(RLIMIT_FSIZE, 0);
    is(msgq_save(queues), EFBIG, "a save that the system refuses");
    set_limit(RLIMIT_FSIZE, before.rlim_cur);
    is(msgq_save(queues), EIO, "a save behind it");
    is(msgq_close(queues), EIO, "a close behind it");
    is(msgq_abandon(queues), 0, "abandon");
    queues = opened(path);
    is(msgq_get(queues, 11, 0, &id), ENOENT, "what was not saved");
    is(msgq_abandon(queues), 0, "abandon");
}

#if defined(__SANITIZE_ADDRESS__) || defined(__SANITIZE_THREAD__)
static void no_memory(const char *path) {
    (void)path;
}
#else
/* There is no memory for the bytes of the file. */
static void no_memory(const char *path) {
    msgq *queues;
    struct rlimit before;
    unsigned long pages = 0;
    FILE *sizes = fopen("/proc/self/statm", "r");
    if (sizes == NULL || fscanf(sizes, "%lu", &pages) != 1)
        pages = 0;
    if (sizes != NULL)
        fclose(sizes);
    if (pages == 0)
        return;
    getrlimit(RLIMIT_AS, &before);
    set_limit(RLIMIT_AS, pages * (rlim_t)sysconf(_SC_PAGESIZE) + 262144);
    int told = msgq_open(path, &queues);
    set_limit(RLIMIT_AS, before.rlim_cur);
    is(told, ENOMEM, "no memory");
}
#endif

int main(int argc, char **argv) {
    if (argc != 2)
        return 2;
    no_room(argv[1]);
    no_queue_more(argv[1]);
    no_save(argv[1]);
    no_memory(argv[1]);
    another_user(argv[1]);
    a_file_is_given(argv[1]);
    printf("%d passed, %d failed\n", passed, failed);
    return failed > 0;
}
