/* Requests to a server and their answers. */
#include "line.h"
#include "lines.h"

#include <errno.h>
#include <limits.h>
#include <pthread.h>
#include <stdlib.h>
#include <string.h>
#include <unistd.h>

struct server {
    struct lines lines;
    struct timespec patience; /* with what ends, until the next serves */
    char socket[PATH_MAX];
};

/* ---- servers */

/* Spells a path so that it stays the same where the program goes to another folder. */
static int spell(char *into, const char *path) {
    size_t before = 0;
    if (path[0] != '/') {
        if (getcwd(into, PATH_MAX - 1) == NULL)
            return errno;
        before = strlen(into);
        into[before++] = '/';
    }
    if (before + strlen(path) >= PATH_MAX)
        return ENAMETOOLONG;
    strcpy(into + before, path);
    return 0;
}

int server_begin(const char *socket, int patience, struct server **made) {
    struct server *server = calloc(1, sizeof *server);
    if (server == NULL)
        return ENOMEM;
    server->patience = (struct timespec){patience / 1000, (long)(patience % 1000) * 1000000};
    int wrong = spell(server->socket, socket);
    if (wrong == 0)
        wrong = lines_begin(&server->lines);
    if (wrong != 0)
        free(server);
    else
        *made = server;
    return wrong;
}

void server_end(struct server *server) {
    lines_end(&server->lines);
    free(server);
}

unsigned server_under_way(struct server *server) {
    return lines_under_way(&server->lines);
}

void server_leave(struct server *server) {
    lines_leave(&server->lines);
}

/* ---- a request and its answer */

/* A request that is made. Signals that may end it are held back from its beginning on, and let through where it waits: those that
 * `open` has not. It is NULL for one that does not wait, upon which handlers run whenever they are due. */
struct making {
    const struct request *asked;
    struct answer *told;
    const sigset_t *open;
};

/* What becomes of a request, beside the numbers that it gives. */
enum { NOT_READ = -10001, LOST = -10002 };

enum { DONE = 0, FAULTS_END = 100, CANCELLED = 200, ENDS = 201, HEAD_BYTES = 16 };

/* Whether it is one that a request can be answered. */
static bool is_code(uint32_t code) {
    return code < FAULTS_END || code == CANCELLED || code == ENDS;
}

static void put_head(uint8_t *head, uint32_t number, const struct request *it, size_t length) {
    put_number(head, HEAD_BYTES - 4 + length, 4);
    put_number(head + 4, number, 4);
    head[8] = it->operation;
    head[9] = it->flags;
    put_number(head + 10, it->mode, 2);
    put_number(head + 12, it->id, 4);
}

static int speak(struct line *line, uint32_t number, const struct request *asked) {
    uint8_t head[HEAD_BYTES];
    struct iovec parts[1 + MOST_PARTS] = {{head, sizeof head}};
    size_t length = 0;
    for (size_t n = 0; n < asked->parts; n++) {
        parts[1 + n] = asked->fields[n];
        length += asked->fields[n].iov_len;
    }
    put_head(head, number, asked, length);
    int wrong = wire_send(&line->wire, parts, 1 + asked->parts);
    return wrong == EPIPE ? NOT_READ : -wrong;
}

/* Has no answer of its own. Where it can't be sent the server is gone, which the answer tells. */
static void cancel(struct line *line) {
    uint8_t head[HEAD_BYTES];
    put_head(head, 0, &(struct request){.operation = CANCEL, .id = line->number}, 0);
    (void)wire_send(&line->wire, &(struct iovec){head, sizeof head}, 1);
}

/* An answer that is read. */
struct reading {
    uint8_t head[HEAD_BYTES];
    struct iovec parts[1 + MOST_PARTS], *at;
    size_t count, got, whole;
    uint32_t number;
    int why; /* EINTR or ETIMEDOUT, once the request was cancelled */
};

static void begin_reading(struct reading *it, uint32_t number, const struct answer *told) {
    *it = (struct reading){.at = it->parts, .count = 1 + told->parts, .whole = HEAD_BYTES, .number = number};
    it->parts[0] = (struct iovec){it->head, HEAD_BYTES};
    for (size_t n = 0; n < told->parts; n++)
        it->parts[1 + n] = told->room[n];
}

/* What stands behind a receive that gives nothing: of the end, of a signal, or of something that is wrong. */
static int without_more(struct reading *it, struct line *line, bool may_end, int wrong) {
    /* In the child of a fork that a handler has made: the request is its parent's. */
    if (!wire_is_of_process(&line->wire))
        return -EINTR;
    /* Behind a jump that did not leave it. */
    if (line->number != it->number || line->wire.fd < 0 || wrong == 0)
        return LOST;
    if (wrong == ECONNRESET)
        /* Something was not read: the request, or what cancels it. */
        return it->why == 0 ? NOT_READ : LOST;
    if (wrong != EINTR && wrong != ETIMEDOUT)
        return -wrong;
    if (may_end) {
        it->why = wrong;
        cancel(line);
    }
    return 0;
}

/* Reads more of an answer. The first wait for it is the one that a signal ends. */
static int read_more(struct reading *it, struct line *line, const struct making *what) {
    size_t more = 0;
    bool may_end = what->asked->how.waits && it->got == 0 && it->why == 0;
    const struct endings endings = {may_end ? what->asked->how.end : NULL, what->open};
    int wrong = wire_receive(&line->wire, it->at, it->count, &endings, &more);
    if (more == 0)
        return without_more(it, line, may_end, wrong);
    it->got += more;
    it->count = parts_skip(it->at, it->count, more, &it->at);
    if (it->got >= HEAD_BYTES)
        it->whole = 4 + (size_t)number_at(it->head, 4);
    return it->got < it->whole && it->count == 0 ? -EPROTO : 0;
}

/* Reads the one answer to its end: a request that is cancelled has one too, and the server decides which. */
static int listen_to(struct line *line, const struct making *what) {
    struct answer *told = what->told;
    struct reading it;
    begin_reading(&it, line->number, told);
    while (it.got < it.whole) {
        int wrong = read_more(&it, line, what);
        if (wrong != 0)
            return wrong;
    }
    uint32_t code = (uint32_t)number_at(it.head + 8, 4);
    told->length = it.whole - HEAD_BYTES;
    if (it.whole != it.got || number_at(it.head + 4, 4) != it.number || (code == DONE && told->length < told->least)
        || !is_code(code) || (code == CANCELLED && it.why == 0))
        return -EPROTO;
    told->value = (uint32_t)number_at(it.head + 12, 4);
    return code == CANCELLED ? -it.why : code == ENDS ? NOT_READ : (int)code;
}

/* Dials until somebody serves, or for as long as the patience and the request's end let it. */
static int dial(struct server *server, struct line *line, const struct making *what) {
    const struct timespec *end = what->asked->how.end;
    struct timespec until = moment_after(moment_now(), server->patience);
    for (;;) {
        int wrong = wire_dial(&line->wire, server->socket, what->open);
        if (wrong == ETIMEDOUT)
            /* (a limit has not ended: who has the socket does not greet) */
            return -ENOTCONN;
        if (wrong != ENOENT && wrong != ECONNREFUSED && wrong != ECONNRESET)
            return -wrong;
        if (is_past(&until))
            return -ENOTCONN;
        if (end != NULL && is_past(end))
            return -ETIMEDOUT;
        if (wire_nap(what->open) != 0)
            return -EINTR;
    }
}

/* Sees to it that the thread's line is dialled, and to the numbers of so many requests: 0 is that of what has no answer. */
static int be_ready(struct server *server, struct line *line, const struct making *what, uint32_t count) {
    if (!wire_is_own(&line->wire)) {
        wire_hang_up(&line->wire);
        int wrong = dial(server, line, what);
        if (wrong != 0)
            return wrong;
    }
    if (line->number > UINT32_MAX - count)
        line->number = 0;
    line->number += count;
    return 0;
}

/* One try of a request, on the thread's line. */
static int try_once(struct server *server, struct line *line, const struct making *what) {
    int done = be_ready(server, line, what, 1);
    if (done != 0)
        return done;
    if ((done = speak(line, line->number, what->asked)) == 0)
        done = listen_to(line, what);
    if (done < 0 && done != -EINTR && done != -ETIMEDOUT)
        wire_hang_up(&line->wire);
    return done;
}

/* Tries that met the end of a server. Those that end one soon after another are as one that is not there. */
struct ends {
    struct timespec last, until;
    bool has_last, is_known; /* else one of them may have done it */
};

/* Whether the request is made again, at the next server; else what it gives. */
static bool asks_again(struct server *server, struct ends *it, const struct making *what, int *done) {
    bool is_lost = *done == LOST;
    if (*done != NOT_READ && !(is_lost && what->asked->how.asks_again)) {
        if (is_lost || (*done == -ENOTCONN && !it->is_known))
            *done = -ECONNRESET;
        return false;
    }
    struct timespec calm = moment_after(it->last, server->patience);
    if (!it->has_last || is_past(&calm))
        it->until = moment_after(moment_now(), server->patience);
    it->last = moment_now();
    it->has_last = true;
    it->is_known = it->is_known && !is_lost;
    if (is_past(&it->until))
        *done = it->is_known ? -ENOTCONN : -ECONNRESET;
    else if (wire_nap(what->open) != 0)
        *done = it->is_known ? -EINTR : -ECONNRESET;
    else
        return true;
    return false;
}

int server_ask(struct server *server, const struct request *asked, struct answer *told) {
    sigset_t all, before;
    struct making what = {asked, told, NULL};
    struct ends ends = {.is_known = true};
    int done = -ENOMEM;
    (void)sigfillset(&all);
    if (asked->how.waits) {
        if (pthread_sigmask(SIG_SETMASK, &all, &before) != 0)
            return -EINVAL;
        what.open = &before;
    }
    struct line *line = line_begin(&server->lines, __builtin_frame_address(0));
    if (line != NULL) {
        do
            done = try_once(server, line, &what);
        while (asks_again(server, &ends, &what, &done));
        line_end(&server->lines, line);
    }
    if (what.open != NULL)
        (void)pthread_sigmask(SIG_SETMASK, &before, NULL);
    return done;
}

/* ---- several at once */

/* Requests under way, by their numbers from the first on, and their answers. */
struct flight {
    uint32_t first;
    size_t count, left; /* how many there are, and are not answered */
    struct answer *told;
    int *done;
};

enum { UNDER_WAY = 1000000 };

/* Takes one answer of so many bytes. */
static bool take_answer(struct flight *it, const uint8_t *bytes, size_t whole) {
    size_t place = (uint32_t)number_at(bytes + 4, 4) - it->first;
    uint32_t code = (uint32_t)number_at(bytes + 8, 4);
    if (place >= it->count || it->done[place] != UNDER_WAY || !is_code(code) || code == CANCELLED)
        return false;
    struct answer *told = &it->told[place];
    told->length = whole - HEAD_BYTES;
    if (code == DONE && told->length != told->least)
        return false;
    if (code == DONE)
        memcpy(told->room->iov_base, bytes + HEAD_BYTES, told->length);
    told->value = (uint32_t)number_at(bytes + 12, 4);
    it->done[place] = code == ENDS ? -ENOTCONN : (int)code;
    it->left--;
    return true;
}

/* Hears answers until each request has one. */
static int hear_all(struct line *line, struct flight *it) {
    static const struct endings NEVER = {NULL, NULL};
    uint8_t bytes[1024];
    uint32_t number = line->number;
    size_t count = 0, more, at, whole;
    while (it->left > 0) {
        const struct iovec rest = {bytes + count, sizeof bytes - count};
        int wrong = wire_receive(&line->wire, &rest, 1, &NEVER, &more);
        /* Behind a jump of a handler's that did not leave this, or in the child that it has made. */
        if (line->number != number || line->wire.fd < 0 || !wire_is_of_process(&line->wire))
            return -ECONNRESET;
        if (wrong == EINTR)
            continue;
        if (wrong != 0 || more == 0)
            return wrong == 0 ? -ECONNRESET : -wrong;
        count += more;
        for (at = 0; count - at >= HEAD_BYTES; at += whole) {
            whole = 4 + (size_t)number_at(bytes + at, 4);
            if (whole < HEAD_BYTES || whole > sizeof bytes)
                return -EPROTO;
            if (whole > count - at)
                break;
            if (!take_answer(it, bytes + at, whole))
                return -EPROTO;
        }
        memmove(bytes, bytes + at, count - at);
        count -= at;
    }
    return 0;
}

/* Sends all, and hears what is told of them. Where one can't be sent, neither is one behind it. */
static int fly(struct line *line, const struct request *asked, struct flight *it) {
    size_t sent = 0;
    int wrong = 0, heard = -ECONNRESET;
    for (; wrong == 0 && sent < it->count; sent += wrong == 0)
        wrong = speak(line, it->first + (uint32_t)sent, &asked[sent]);
    for (size_t n = 0; n < it->count; n++)
        it->done[n] = n < sent ? UNDER_WAY : wrong == NOT_READ ? -ENOTCONN : wrong;
    it->left = sent;
    if (wrong != NOT_READ)
        heard = hear_all(line, it);
    for (size_t n = 0; n < it->count; n++)
        if (it->done[n] == UNDER_WAY)
            it->done[n] = heard;
    return wrong != 0 ? wrong : heard;
}

int server_ask_all(struct server *server, const struct request *asked, struct answer *told, int *done, size_t count) {
    const struct making what = {asked, told, NULL};
    struct flight flight = {.count = count, .told = told, .done = done};
    struct line *line = line_begin(&server->lines, __builtin_frame_address(0));
    if (line == NULL)
        return -ENOMEM;
    int wrong = be_ready(server, line, &what, (uint32_t)count);
    if (wrong == 0) {
        flight.first = line->number - (uint32_t)count + 1;
        if (fly(line, asked, &flight) != 0)
            wire_hang_up(&line->wire);
    }
    line_end(&server->lines, line);
    return wrong;
}

int server_greeting(struct server *server, struct greeting *greeting) {
    struct line *line = line_begin(&server->lines, __builtin_frame_address(0));
    int wrong = 0;
    if (line == NULL)
        return -ENOMEM;
    if (!wire_is_own(&line->wire)) {
        wire_hang_up(&line->wire);
        wrong = wire_dial(&line->wire, server->socket, NULL);
    }
    *greeting = line->wire.greeting;
    line_end(&server->lines, line);
    return -wrong;
}
