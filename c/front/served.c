/* Calls of a shell on a file that a server has open. Owners and modes hold: the system tells the server who calls. */
#include "served.h"
#include "ends.h"
#include "errand.h"
#include "front.h"
#include "inputs.h"
#include "telling.h"
#include "../msgq.h"

#include <errno.h>
#include <inttypes.h>
#include <limits.h>
#include <stdio.h>
#include <stdlib.h>
#include <string.h>
#include <sys/stat.h>
#include <unistd.h>

/* ---- the server */

/* The socket beside a file, which need not be there. */
static bool spell_socket(const char *file, char path[PATH_MAX]) {
    static const char SUFFIX[] = ".socket";
    if (realpath(file, path) == NULL) {
        if (errno != ENOENT || strlen(file) >= PATH_MAX)
            return false;
        strcpy(path, file);
    }
    size_t length = strlen(path);
    if (length == 0 || length + sizeof SUFFIX > PATH_MAX)
        return false;
    memcpy(path + length, SUFFIX, sizeof SUFFIX);
    return true;
}

bool connect_beside(const char *file, msgq **queues) {
    char path[PATH_MAX];
    struct stat found;
    if (!spell_socket(file, path) || stat(path, &found) != 0 || !S_ISSOCK(found.st_mode) || msgq_connect(path, queues) != 0)
        return false;
    (void)msgq_abandon(*queues);
    /* So that sentences name the file. */
    return msgq_attach(file, queues) == 0;
}

/* ---- waits */

/* When a wait ends that begins now. */
static bool begin_wait(struct errand *it) {
    if (!it->has_limit || end_after(&it->limit))
        return true;
    complain("the clock: it can't be read: %s", strerror(errno));
    return false;
}

/* What is left of it; NULL for no end. */
static const struct timespec *left_of(const struct errand *it) {
    static struct timespec left;
    left = time_left(&it->limit);
    return it->has_limit ? &left : NULL;
}

/* ---- queues */

/* Sets what is given; what a limit of none keeps is asked for. */
static int change(msgq *queues, uint32_t id, const struct settings *to) {
    struct msgq_info info = {.qbytes = 0};
    int wrong = to->qbytes < 0 ? msgq_stat(queues, id, &info) : 0;
    struct msgq_change change = {
        .qbytes = to->qbytes < 0 ? info.qbytes : (uint32_t)to->qbytes,
        .uid = to->owner,
        .gid = to->group,
        .mode = to->mode,
    };
    return wrong == 0 ? msgq_set(queues, id, &change) : wrong;
}

/* Makes a queue that its key may not have yet. One whose settings are refused is removed again. */
static int make(msgq *queues, const struct errand *it, uint32_t *id) {
    struct settings more = it->settings;
    int mode = it->settings.mode < 0 ? 0600 : (int)it->settings.mode;
    more.mode = -1;
    int wrong = msgq_get(queues, it->is_private ? MSGQ_PRIVATE : (int64_t)it->queue.number,
                         MSGQ_CREATE | MSGQ_EXCLUSIVE | mode, id);
    if (wrong != 0 || (more.qbytes < 0 && more.owner < 0 && more.group < 0))
        return wrong;
    if ((wrong = change(queues, *id, &more)) != 0) {
        complain_of(it->file, &it->queue, wrong);
        (void)msgq_remove(queues, *id);
    }
    return wrong;
}

/* The id of the queue that is named, which is made where that is asked for. */
static int find(msgq *queues, const struct errand *it, uint32_t *id) {
    *id = it->queue.number;
    if (it->queue.is_id)
        return 0;
    int wrong = msgq_get(queues, it->queue.number, 0, id);
    if (wrong == ENOENT && it->creates && (wrong = make(queues, it, id)) == EEXIST)
        wrong = msgq_get(queues, it->queue.number, 0, id);
    return wrong;
}

/* The same, and waits for a queue that is not there yet where that is asked for. */
static int find_in_time(msgq *queues, const struct errand *it, uint32_t *id) {
    static const struct timespec nap = {0, 20000000};
    bool is_said = false;
    for (;;) {
        int wrong = find(queues, it, id);
        if (wrong != ENOENT || !it->waits || (it->has_limit && is_over(&it->limit)))
            return wrong;
        if (!is_said)
            complain("%s: queue %" PRIu32 ": it is not there yet, and is waited for", it->file, it->queue.number);
        is_said = true;
        /* A signal ends the command. */
        (void)nanosleep(&nap, NULL);
    }
}

/* ---- what is printed */

/* Flushes what was printed; where standard output refuses it this is said. */
static bool is_out(const char *file, const char *what) {
    if (fflush(stdout) == 0 && !ferror(stdout))
        return true;
    complain("standard output: %s; %s: %s", strerror(errno), file, what);
    return false;
}

/* ---- the verbs */

static int refused(const struct errand *it, int wrong) {
    complain_of(it->file, &it->queue, wrong == ETIMEDOUT && it->deed == SENDS ? EAGAIN : wrong);
    return wrong == ETIMEDOUT ? NOTHING : status_of(wrong);
}

/* Which lines were not sent, where some of them were, as `lines 3, 5 to 9`. */
static void spell_unsent(const struct msgq_outgoing *all, size_t count, char *text, size_t room) {
    size_t used = 0, end;
    *text = '\0';
    for (size_t at = 0; at < count; at = end) {
        for (end = at; end < count && all[end].serial == 0; end++)
            ;
        /* (what has no room any more is left out) */
        if (end > at && used < room)
            used += (size_t)snprintf(text + used, room - used, end - at > 1 ? "%s%zu to %zu" : "%s%zu", used > 0 ? ", " : "",
                                     at + 1, end);
        else if (end == at)
            end++;
    }
}

/* Puts all as far as there is room, and then waits with each that is left, in their order, where that is asked for. */
static int put(msgq *queues, const struct errand *it, uint32_t id, struct msgq_outgoing *all, size_t count) {
    int wrong = it->waits && count == 1 ? EAGAIN : msgq_send_all(queues, id, all, count);
    if (wrong != EAGAIN || !it->waits)
        return wrong;
    for (size_t at = 0; at < count; at++) {
        if (all[at].serial != 0)
            continue;
        wrong = msgq_send(queues, id, it->type, all[at].body, all[at].length, 0, left_of(it));
        if (wrong != 0)
            return wrong;
        all[at].serial = msgq_last_serial();
    }
    return 0;
}

/* Says what was sent of what is refused, and prints the serials. */
static int tell_sent(const struct errand *it, int wrong, const struct msgq_outgoing *all, size_t count) {
    char unsent[512];
    size_t sent = 0;
    for (size_t at = 0; at < count; at++) {
        sent += all[at].serial != 0;
        if (all[at].serial != 0 && it->tells_serials)
            printf("%" PRIu64 "\n", all[at].serial);
    }
    spell_unsent(all, count, unsent, sizeof unsent);
    if (wrong != 0 && sent > 0)
        complain("%s: %zu of %zu lines were sent, all but %s", it->file, sent, count, unsent);
    bool is_told = is_out(it->file, "what was to be sent is sent");
    return wrong != 0 ? refused(it, wrong) : is_told ? DONE : FAULT;
}

/* Sends each body, a call each. */
static int send_all(msgq *queues, const struct errand *it, const struct bodies *bodies) {
    uint32_t id;
    struct msgq_outgoing *all = calloc(bodies->number + 1, sizeof *all);
    if (all == NULL) {
        complain("%s: nothing is sent: out of memory", it->file);
        return FAULT;
    }
    for (size_t at = 0, begin = 0; at < bodies->number; begin = bodies->ends[at++])
        all[at] = (struct msgq_outgoing){
            .type = it->type, .body = bodies->bytes + begin, .length = bodies->ends[at] - begin};
    int wrong = find_in_time(queues, it, &id);
    if (wrong == 0)
        wrong = put(queues, it, id, all, bodies->number);
    int status = tell_sent(it, wrong, all, bodies->number);
    free(all);
    return status;
}

static int do_send(msgq *queues, const struct errand *it) {
    struct bodies bodies;
    if (!it->names_input && isatty(STDIN_FILENO)) {
        complain("standard input: it is not read: it is a terminal: hand the body by < or |, or say - to type it");
        return MISUSE;
    }
    int status = read_bodies(&bodies, it->has_lines, it->file);
    if (status == DONE)
        status = send_all(queues, it, &bodies);
    free_bodies(&bodies);
    return status;
}

static void print_message(const struct errand *it, const struct msgq_message *got, const uint8_t *room) {
    size_t length = got->length < it->size ? got->length : it->size;
    if (it->has_header)
        printf("%" PRIu64 " %" PRIu32 " %" PRId64 " %zu\n", got->serial, got->sender, got->type, length);
    (void)fwrite(room, 1, length, stdout);
}

/* A message that is longer than may be taken goes back. */
static int give_back(msgq *queues, const struct errand *it, uint32_t holding, size_t length) {
    int wrong = msgq_release(queues, holding);
    if (wrong != 0)
        return wrong;
    complain("%s: queue %s%" PRIu32 ": E2BIG: the message has %zu bytes, more than %" PRIu32
             ": it is back, last of its queue; --noerror cuts it",
             it->file, it->queue.is_id ? "@" : "", it->queue.number, length, it->size);
    return E2BIG;
}

/* Takes one message in hand, prints it, and takes it out for good once standard output took it. */
static int receive_one(msgq *queues, const struct errand *it, uint32_t id, bool waits) {
    uint8_t room[MSGQ_MAX_BODY];
    struct msgq_message got;
    uint32_t holding;
    int wrong = msgq_reserve(queues, id, it->type, room, sizeof room, waits ? 0 : MSGQ_NOWAIT, waits ? left_of(it) : NULL,
                             &got, &holding);
    if (wrong != 0)
        return wrong;
    if (got.length > it->size && !it->may_cut)
        return give_back(queues, it, holding, got.length);
    print_message(it, &got, room);
    if (!is_out(it->file, "the message is back, last of its queue")) {
        (void)msgq_release(queues, holding);
        return EIO;
    }
    return msgq_acknowledge(queues, holding);
}

static int do_receive(msgq *queues, const struct errand *it) {
    uint32_t id;
    unsigned taken = 0;
    int wrong = find_in_time(queues, it, &id);
    while (wrong == 0) {
        if ((wrong = receive_one(queues, it, id, it->waits && taken == 0)) == 0)
            taken++;
        if (!it->takes_all)
            break;
    }
    if (wrong == EIO)
        return FAULT;
    /* (which was said) */
    if (wrong == E2BIG)
        return REFUSED;
    if (wrong == 0 || (wrong == ENOMSG && taken > 0))
        return DONE;
    return refused(it, wrong);
}

static int do_make(msgq *queues, const struct errand *it) {
    uint32_t id;
    int wrong = make(queues, it, &id);
    if (wrong != 0)
        return refused(it, wrong);
    printf("%" PRIu32 "\n", id);
    return is_out(it->file, "the queue is made") ? DONE : FAULT;
}

static int do_set(msgq *queues, const struct errand *it) {
    uint32_t id;
    int wrong = find(queues, it, &id);
    if (wrong == 0)
        wrong = change(queues, id, &it->settings);
    return wrong != 0 ? refused(it, wrong) : DONE;
}

static int do_remove(msgq *queues, const struct errand *it) {
    uint32_t id;
    int wrong = find(queues, it, &id);
    if (wrong == 0)
        wrong = msgq_remove(queues, id);
    return wrong != 0 ? refused(it, wrong) : DONE;
}

bool served_run(int count, char **words, int *status) {
    static int (*const deeds[])(msgq *, const struct errand *) = {
        [SENDS] = do_send, [RECEIVES] = do_receive, [MAKES] = do_make, [REMOVES] = do_remove, [SETS] = do_set,
    };
    struct errand it;
    msgq *queues;
    if (!read_errand(&it, count, words) || !connect_beside(it.file, &queues))
        return false;
    if (it.refused != NULL) {
        complain("%s: it is served, and there is no %s there: %s", it.file, it.refused,
                 strcmp(it.refused, "--serial") == 0 ? "the server gives out the message that --type selects"
                                                     : "the system tells the server who calls");
        *status = MISUSE;
    } else {
        *status = begin_wait(&it) ? deeds[it.deed](queues, &it) : FAULT;
    }
    /* Where the server has ended meanwhile the file was opened in its place. */
    int wrong = msgq_close(queues);
    if (wrong != 0) {
        complain_of(it.file, &it.queue, wrong);
        *status = FAULT;
    }
    return true;
}
