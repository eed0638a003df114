/* Each call of the system that the library makes fails in turn while a file is made, or ends the process: then there is no file by
 * its name, or a whole one. Run with the path of a new file. */
#include "../msgq.h"
#include "faults.h"

static char unmade[4096];

/* ---- files are made */

static void forget(void) {
    unlink(path);
    unlink(journal);
    unlink(unmade);
}

/* Makes a file, while each call of a kind fails in turn: then there is none, and nothing beside it. */
static void making_fails(enum call call, int wrong) {
    bool was_come_to = true;
    /* It has 300 pages, of which some do. */
    for (int at = 1; was_come_to && at < 400; at += at > 4 && at < 290 ? 40 : 1) {
        char what[80];
        snprintf(what, sizeof what, "a making where call %d of %s fails", at, names[call]);
        forget();
        arm(call, at, wrong);
        int told = msgq_create(path, 300);
        was_come_to = disarm();
        /* What is closed was synced. */
        if (call != FSTAT || at < 3)
            is(told, was_come_to ? wrong : 0, what);
        is(access(path, F_OK), told == 0 ? 0 : -1, what);
        is(access(unmade, F_OK), -1, what);
    }
}

/* Makes a file in a process that ends at a call: then there is none by its name, or a whole one, and it can be made. */
static void making_is_cut_off(enum call call, int at, bool is_named) {
    int status = 0;
    forget();
    pid_t child = fork();
    if (child == 0) {
        dies = true;
        arm(call, at, EIO);
        _exit(msgq_create(path, 300) == 0 ? 0 : 1);
    }
    waitpid(child, &status, 0);
    is(WIFEXITED(status) && WEXITSTATUS(status) == 9, true, "a making is cut off");
    is(access(path, F_OK), is_named ? 0 : -1, "it has its name once it is whole");
    is(access(unmade, F_OK), 0, "what was made is left beside it");
    if (is_named) {
        msgq *queues = NULL;
        is(msgq_open(path, &queues), 0, "the file is whole");
        is(msgq_abandon(queues), 0, "abandon");
        is(msgq_create(path, 300), EEXIST, "it is made again");
    } else {
        is(msgq_create(path, 300), 0, "it is made again");
        is(access(unmade, F_OK), -1, "what was left is gone");
    }
}

/* Makes a file where something is by the name that it has before its own. */
static void making_finds(void) {
    struct bytes left = {"half a file", 11};
    forget();
    write_all(unmade, left);
    arm(UNLINK, 1, EACCES);
    is(msgq_create(path, 300), EACCES, "what was left can't be removed");
    (void)disarm();
    arm(OPEN, 2, EACCES);
    is(msgq_create(path, 300), EACCES, "what was left can't be opened");
    (void)disarm();
    int other = open(unmade, O_RDWR);
    is(flock(other, LOCK_EX), 0, "another process is making it");
    is(msgq_create(path, 300), EBUSY, "it is being made");
    is(strstr(msgq_reason(), "it can't be made: another process is making it") != NULL, true, msgq_reason());
    close(other);
    is(access(path, F_OK), -1, "none is made");
    is(has_bytes(unmade, left), true, "what is being made stays");
    /* It is removed between two looks. */
    arm(OPEN, 1, EEXIST);
    unlink(unmade);
    is(msgq_create(path, 300), 0, "what was left is gone by itself");
    (void)disarm();
    forget();
    arm(LINK, 1, EEXIST);
    is(msgq_create(path, 300), EEXIST, "another has made it meanwhile");
    is(disarm(), true, "it is named");
    is(access(unmade, F_OK), -1, "nothing is left beside it");
    char name[5000];
    memset(name, 'x', sizeof name - 1);
    name[sizeof name - 1] = 0;
    is(msgq_create(name, 300), ENAMETOOLONG, "a long name");
}

int main(int argc, char **argv) {
    if (argc != 2)
        return 2;
    snprintf(path, sizeof path, "%s", argv[1]);
    snprintf(journal, sizeof journal, "%s.journal", path);
    snprintf(unmade, sizeof unmade, "%s.unmade", path);
    making_fails(OPEN, EMFILE);
    making_fails(PWRITE, ENOSPC);
    making_fails(FSYNC, EIO);
    making_fails(FSTAT, EIO);
    making_fails(MALLOC, ENOMEM);
    making_fails(LSTAT, EACCES);
    making_fails(FLOCK, ENOLCK);
    has_no_links = true;
    making_fails(LSTAT, EACCES);
    making_fails(RENAME, EIO);
    has_no_links = false;
    making_is_cut_off(PWRITE, 1, false);
    making_is_cut_off(PWRITE, 258, false);
    making_is_cut_off(FSYNC, 1, false);
    making_is_cut_off(LINK, 1, false);
    making_is_cut_off(FSYNC, 2, true);
    making_finds();
    printf("%d passed, %d failed\n", passed, failed);
    return failed > 0;
}
