/* Each call of the system that the library makes fails in turn, while a file is recovered, opened, saved and noted; what is expected stands in
 * msgq.h: the number of the failure, and at the next opening the file as before or as after. Run with the path of a new file. */
#include "../msgq.h"
#include "faults.h"
#include "sha256.h"

#include <limits.h>

/* A file and its journal. */
struct both {
    struct bytes file, journal;
};

static struct both keep(void) {
    return (struct both){read_all(path), read_all(journal)};
}

static void put(struct both it) {
    write_all(path, it.file);
    write_all(journal, it.journal);
}

/* What is on all queues of a file, by a clean opening; 0 where it is not opened. */
static unsigned long long state(void) {
    unsigned long long sum = 1469598103934665603ull;
    char body[MSGQ_MAX_BODY];
    struct msgq_message got;
    msgq *queues;
    int wrong = msgq_open(path, &queues);
    if (wrong != 0) {
        fprintf(stderr, "a clean opening: %s\n", strerror(wrong));
        return 0;
    }
    for (uint32_t id = 0; msgq_list(queues, id, &id) == 0;)
        while (msgq_receive(queues, id, 0, body, sizeof body, MSGQ_NOWAIT, NULL, &got) == 0) {
            sum = (sum ^ id ^ (unsigned long long)got.type << 8 ^ got.length << 16) * 1099511628211ull;
            for (size_t n = 0; n < got.length; n++)
                sum = (sum ^ (unsigned char)body[n]) * 1099511628211ull;
        }
    is(msgq_abandon(queues), 0, "abandon");
    return sum;
}

/* What the save changes. */
static void change(msgq *queues) {
    char body[1000];
    uint32_t id;
    memset(body, 'b', sizeof body);
    is(msgq_receive(queues, 1, 0, NULL, 0, MSGQ_NOERROR, NULL, NULL), 0, "receive");
    is(msgq_remove(queues, 2), 0, "remove");
    is(msgq_get(queues, 3, MSGQ_CREATE | 0600, &id), 0, "get");
    for (int n = 0; n < 9; n++)
        is(msgq_send(queues, id, 1 + n, body, sizeof body, 0, NULL), 0, "send");
}

static msgq *opened(void) {
    msgq *queues = NULL;
    int wrong = msgq_open(path, &queues);
    is(wrong, 0, "open");
    if (wrong != 0)
        exit(1);
    return queues;
}

/* The file before all saves that are tried. */
static struct both first_file(void) {
    uint32_t id;
    is(msgq_create(path, 300), 0, "create");
    msgq *queues = opened();
    for (int key = 1; key < 3; key++) {
        is(msgq_get(queues, key, MSGQ_CREATE | 0600, &id), 0, "get");
        for (int n = 0; n < 4; n++)
            is(msgq_send(queues, id, 1, "first", 5, 0, NULL), 0, "send");
    }
    is(msgq_close(queues), 0, "close");
    return keep();
}

/* A save in another process that ends at a call; whether it came to it. */
static bool cut_off(struct both start, enum call call, int at) {
    int status = 0;
    put(start);
    pid_t child = fork();
    if (child == 0) {
        msgq *queues = opened();
        change(queues);
        dies = true;
        arm(call, at, EIO);
        _exit(msgq_save(queues) == 0 ? 0 : 1);
    }
    waitpid(child, &status, 0);
    return WIFEXITED(status) && WEXITSTATUS(status) == 9;
}

/* ---- each call in turn */

static unsigned long long before, after;

static void is_whole(const char *what) {
    unsigned long long now = state();
    bool whole = now != 0 && (now == before || now == after);
    if (!whole)
        fprintf(stderr, "%s: call %d of %s fails: ", what, when, names[which == NONE ? 0 : which]);
    is(whole, true, "the file is whole");
}

/* Opens a file with a journal, of which each call of a kind fails in turn. */
static void recovery_fails(struct both left, enum call call, int wrong) {
    bool was_come_to = true;
    for (int at = 1; was_come_to; at++) {
        char what[80];
        msgq *queues = NULL;
        snprintf(what, sizeof what, "an opening where call %d of %s fails", at, names[call]);
        put(left);
        arm(call, at, wrong);
        int told = msgq_open(path, &queues);
        int wrote = writes;
        was_come_to = disarm();
        if (told == 0)
            is(msgq_abandon(queues), 0, "abandon");
        /* Where it is not known whether the file was moved meanwhile, it is opened once more; the folder that a new journal's
         * name was brought to needs no look before it is closed. */
        bool matters = call == STAT ? at == 1 : call != FSTAT || left.journal.count >= 0 || told != 0;
        /* What the session asks for last only spares it later work: where that is refused it opens without. */
        bool is_spared = told == 0 && at > 1 && (call == MALLOC || call == CALLOC);
        if (was_come_to && matters && !is_spared)
            is(told, wrong, what);
        if (told != 0 && wrote == 0)
            is(has_bytes(path, left.file) && (left.journal.count < 0 || has_bytes(journal, left.journal)), true, what);
        is_whole(what);
    }
}

/* Saves or notes, while each call of a kind fails in turn. */
static void save_fails(struct both start, int (*save)(msgq *), enum call call, int wrong) {
    bool was_come_to = true;
    for (int at = 1; was_come_to; at++) {
        char what[80];
        snprintf(what, sizeof what, "a %s where call %d of %s fails", save == msgq_save ? "save" : "note", at, names[call]);
        put(start);
        msgq *queues = opened();
        change(queues);
        arm(call, at, wrong);
        int told = save(queues);
        was_come_to = disarm();
        is(told, was_come_to ? wrong : 0, what);
        if (told != 0) {
            is(msgq_save(queues), EIO, "a save behind it");
            is(msgq_note(queues), EIO, "a note behind it");
            is(msgq_close(queues), EIO, "a close behind it");
        }
        is(msgq_abandon(queues), 0, "abandon");
        is_whole(what);
        if (told == 0)
            is(state() == after, true, "what was saved");
    }
}

/* An opening that finds no journal may not know that this is on the disk, nor the file: it syncs both before it tells anything. */
static void emptiness_is_synced(struct both left) {
    msgq *queues;
    put(left);
    arm(FSYNC, INT_MAX, 0);
    is(msgq_open(path, &queues), 0, "open");
    is(seen, 2, "syncs of an opening without a journal");
    (void)disarm();
    is(msgq_abandon(queues), 0, "abandon");
}

/* A transfer that is interrupted goes on, and one of nothing is none. */
static void transfers(struct both start, struct both left) {
    /* (the journal that is left is as long as that of the save, which so syncs bytes alone) */
    static const enum call of_opening[] = {PREAD, PWRITE, FSYNC, FTRUNCATE, FDATASYNC}, of_save[] = {PREAD, PWRITE, FDATASYNC};
    msgq *queues;
    for (int n = 0; n < 5; n++) {
        put(left);
        arm(of_opening[n], 1, EINTR);
        is(msgq_open(path, &queues), 0, "a recovery that is interrupted");
        is(disarm(), true, "it is interrupted");
        change(queues);
        arm(of_save[n % 3], 1, EINTR);
        is(msgq_save(queues), 0, "a save that is interrupted");
        is(disarm(), true, "it is interrupted");
        is(msgq_abandon(queues), 0, "abandon");
        is(state() == after, true, "what was saved");
    }
    put(left);
    arm(PREAD, 1, 0);
    is(msgq_open(path, &queues), EIO, "a journal that ends before its length");
    (void)disarm();
    put(start);
    queues = opened();
    change(queues);
    arm(PWRITE, 1, 0);
    is(msgq_save(queues), EIO, "a write of nothing");
    (void)disarm();
    is(msgq_abandon(queues), 0, "abandon");
    is_whole("a write of nothing");
}

/* What is told of who has the file, and of a journal that another is said to have made. */
static void others(struct both start) {
    msgq *queues, *again;
    put(start);
    queues = opened();
    arm(FOPEN, 1, ENOENT);
    is(msgq_open(path, &again), EBUSY, "a file that is open, where the system has no list of locks");
    is(disarm(), true, "it is asked");
    is(strstr(msgq_reason(), ": it can't be opened: it is in use by another process") != NULL, true, msgq_reason());
    is(msgq_abandon(queues), 0, "abandon");
    unlink(journal);
    arm(OPEN, 2, EEXIST);
    is(msgq_open(path, &again), ENOENT, "a journal that was made and is gone");
    is(disarm(), true, "it is opened");
}

/* A wait whose clock can't be read. */
static void clock_fails(struct both start) {
    put(start);
    msgq *queues = opened(), *other;
    uint32_t id;
    is(msgq_get(queues, 5, MSGQ_CREATE | 0600, &id), 0, "get");
    for (int at = 1; at < 3; at++) {
        arm(CLOCK, at, EINVAL);
        is(msgq_receive(queues, id, 0, NULL, 0, 0, msgq_within(1), NULL), EINVAL, "a wait without a clock");
        is(disarm(), true, "it is asked");
        arm(CLOCK, at, EINVAL);
        is(msgq_open_wait(path, msgq_within(1), &other), EINVAL, "an opening without a clock");
        is(disarm(), true, "it is asked");
    }
    is(msgq_abandon(queues), 0, "abandon");
}

/* ---- calls in a journal */

/* A journal of version 3 for a file of 300 pages, with the call by which this process sent two bytes to queue 1, and was told the serial 5. */
static struct bytes calls(struct bytes file) {
    enum { CALL = 62 };
    static unsigned char made[80 + 4 + CALL + 32] = "msgqundo\0\0\0\3\0\0\1\54\0\0\0\0\0\0\0\1", all[32 + 4 + CALL];
    static const unsigned char sent[CALL] = {[0] = 5, [8] = 42, [36] = 2, [37] = 1, [40] = 1, [44] = 7, [52] = 'a', 'b', [54] = 5};
    const unsigned caller[3] = {(unsigned)getpid(), (unsigned)geteuid(), (unsigned)getegid()};
    memcpy(made + 24, file.at + 4064, 24);
    digest(made, 48, made + 48);
    memcpy(made + 80, "\200\0\0\76", 4);
    memcpy(made + 84, sent, CALL);
    for (int n = 0; n < 12; n++)
        made[84 + 20 + n] = (unsigned char)(caller[n / 4] >> (n % 4 * 8));
    memcpy(all, made + 48, sizeof all);
    digest(all, sizeof all, made + 84 + CALL);
    return (struct bytes){(char *)made, sizeof made};
}

/* An opening in another process that ends at a call; whether it came to it. */
static bool opening_cut_off(struct both left, enum call call, int at) {
    int status = 0;
    put(left);
    pid_t child = fork();
    if (child == 0) {
        msgq *queues;
        dies = true;
        arm(call, at, EIO);
        _exit(msgq_open(path, &queues) == 0 ? 0 : 1);
    }
    waitpid(child, &status, 0);
    return WIFEXITED(status) && WEXITSTATUS(status) == 9;
}

/* Calls in a journal are brought in, where each call of the system fails in turn: alone, and behind an opening that was cut off. */
static void calls_are_brought_in(struct bytes file) {
    const struct both first = {file, calls(file)};
    static const struct {
        enum call call;
        int at;
    } ends[] = {{PREAD, 1}, {PWRITE, 1}, {FSYNC, 2}, {PWRITE, 2}, {FDATASYNC, 1}, {PWRITE, 3}, {FDATASYNC, 2}};
    put(first);
    before = after = state();
    for (size_t n = 0; n < sizeof ends / sizeof *ends; n++) {
        is(opening_cut_off(first, ends[n].call, ends[n].at), true, "an opening is cut off");
        struct both left = keep();
        for (enum call call = PREAD; call < CALLS; call++)
            if (call != CLOCK && call != FOPEN)
                recovery_fails(left, call, call == MALLOC || call == CALLOC ? ENOMEM : call == FSTAT ? ENOSPC : EIO);
        free(left.file.at);
        free(left.journal.at);
    }
}

/* Notes, on a journal that was ended and on one that says nothing; without memory the file is saved. */
static void notes_fail(struct both start) {
    struct both torn = {start.file, {"no head", 7}};
    for (enum call call = PREAD; call <= FSTAT; call++) {
        save_fails(start, msgq_note, call, ENOSPC);
        save_fails(torn, msgq_note, call, ENOSPC);
    }
    put(start);
    msgq *queues = opened();
    change(queues);
    arm(CALLOC, 1, ENOMEM);
    is(msgq_note(queues), 0, "a note without memory");
    is(disarm(), true, "it is asked for");
    is(has_bytes(path, start.file), false, "it is a save");
    is(msgq_abandon(queues), 0, "abandon");
    is(state() == after, true, "what was noted");
}

int main(int argc, char **argv) {
    if (argc != 2)
        return 2;
    snprintf(path, sizeof path, "%s", argv[1]);
    snprintf(journal, sizeof journal, "%s.journal", path);
    struct both start = first_file();
    before = state();
    put(start);
    msgq *queues = opened();
    change(queues);
    arm(PWRITE, INT_MAX, 0);
    is(msgq_close(queues), 0, "close");
    (void)disarm();
    /* A head, the images, as many pages, and what takes the place of the head. */
    int pages = (seen - 2) / 2;
    after = state();
    is(before != after, true, "the save changes the file");
    const struct {
        enum call call;
        int at;
    } ends[] = {{PWRITE, 3}, {FSYNC, 1}, {PWRITE, pages + 2}, {PWRITE, 2 * pages + 1}, {FDATASYNC, 1}, {PWRITE, 2 * pages + 2},
              {FDATASYNC, 2}};
    for (size_t n = 0; n < sizeof ends / sizeof *ends; n++) {
        is(cut_off(start, ends[n].call, ends[n].at), true, "a save is cut off");
        struct both left = keep();
        if (n == 6)
            emptiness_is_synced(left);
        if (n == 3)
            transfers(start, left);
        for (enum call call = PREAD; call < CALLS; call++)
            if (call != CLOCK && call != FOPEN)
                recovery_fails(left, call, call == MALLOC || call == CALLOC ? ENOMEM : call == FSTAT ? ENOSPC : EIO);
        free(left.file.at);
        free(left.journal.at);
    }
    /* There is no journal yet. */
    struct both alone = {start.file, {NULL, -1}};
    for (enum call call = FSYNC; call < CALLS; call++)
        if (call != CLOCK && call != FLOCK && call != FOPEN)
            recovery_fails(alone, call, call == MALLOC || call == CALLOC ? ENOMEM : EIO);
    for (enum call call = PREAD; call <= FSTAT; call++)
        save_fails(start, msgq_save, call, ENOSPC);
    notes_fail(start);
    others(start);
    clock_fails(start);
    calls_are_brought_in(start.file);
    free(start.file.at);
    free(start.journal.at);
    printf("%d passed, %d failed\n", passed, failed);
    return failed > 0;
}
