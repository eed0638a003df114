/* The core's process and its two pipes. */
#include "core.h"
#include "../front/front.h"
#include "numbers.h"

#include <errno.h>
#include <fcntl.h>
#include <signal.h>
#include <stdio.h>
#include <stdlib.h>
#include <string.h>
#include <sys/wait.h>
#include <unistd.h>

enum {
    PIPE_BYTES = 1 << 20,
    MOST_TOLD = 1 << 20, /* as many bytes wait to be told where no request is added */
    HEAD = 24,           /* of a record to the core, with its length */
    ANSWER_HEAD = 16,    /* of one from it, without */
    MOST_FRAME = 1044,
    MOST_ANSWER = 4096,
    HEARD_BYTES = 1 << 18,
};

/* ---- the process */

/* Becomes the core, in the child. What ends the relay, or a whole terminal, is not to end the core: it has decided
 * what is not yet on the disk, and ends as its input does. */
static void become(const char *program, const char *const *words, const int *files) {
    static const int ignored[] = {SIGHUP, SIGINT, SIGQUIT, SIGTERM, SIGPIPE};
    sigset_t none;
    for (size_t at = 0; at < sizeof ignored / sizeof *ignored; at++)
        (void)signal(ignored[at], SIG_IGN);
    (void)sigemptyset(&none);
    (void)sigprocmask(SIG_SETMASK, &none, NULL);
    if (dup2(files[0], STDIN_FILENO) >= 0 && dup2(files[3], STDOUT_FILENO) >= 0)
        (void)execv(program, (char *const *)(uintptr_t)words);
    complain("%s: it can't be run: %s", program, strerror(errno));
    _exit(127);
}

static void close_all(const int *files) {
    for (int at = 0; at < 4; at++)
        if (files[at] >= 0)
            (void)close(files[at]);
}

/* Makes the pipes and the process. 0 or the number of an error. */
static int begin(struct core *it, const char *program, const char *const *words) {
    int files[4] = {-1, -1, -1, -1}; /* of what it is told, and of what it answers: where each is read and written */
    int wrong = pipe2(files, O_CLOEXEC) == 0 && pipe2(files + 2, O_CLOEXEC) == 0 ? 0 : errno;
    if (wrong == 0) {
        /* A user may have so much in pipes and no more: then they are as short as they were made. */
        (void)fcntl(files[1], F_SETPIPE_SZ, PIPE_BYTES);
        (void)fcntl(files[2], F_SETPIPE_SZ, PIPE_BYTES);
        it->process = fork();
        wrong = it->process < 0 ? errno : 0;
    }
    if (wrong == 0 && it->process == 0)
        become(program, words, files);
    if (wrong != 0) {
        it->process = 0;
        close_all(files);
        return wrong;
    }
    (void)close(files[3]);
    it->far = files[0];
    it->in = files[1];
    it->out = files[2];
    return 0;
}

static bool make_room(struct pipe_room *it, size_t size) {
    *it = (struct pipe_room){malloc(size), 0, 0, size};
    return it->bytes != NULL;
}

/* Reads on to the end of the first record. False where the core ends before. */
static bool read_first(struct core *it) {
    struct pipe_room *heard = &it->heard;
    while (heard->end < 4 || heard->end < 4 + (size_t)get_u32(heard->bytes)) {
        ssize_t more = read(it->out, heard->bytes + heard->end, heard->size - heard->end);
        if (more < 0 && errno == EINTR)
            continue;
        if (more <= 0 || (heard->end += (size_t)more) == heard->size)
            return false;
    }
    heard->begin = 4 + (size_t)get_u32(heard->bytes);
    return heard->begin >= 4 + ANSWER_HEAD;
}

static void close_end(int *file) {
    if (*file >= 0)
        (void)close(*file);
    *file = -1;
}

/* Closes all, and waits for the process: its status, as of waitpid(2). */
static int reap(struct core *it) {
    int status = 0;
    close_end(&it->far);
    close_end(&it->in);
    close_end(&it->out);
    free(it->told.bytes);
    free(it->heard.bytes);
    it->told = it->heard = (struct pipe_room){NULL, 0, 0, 0};
    while (it->process > 0 && waitpid(it->process, &status, 0) < 0 && errno == EINTR)
        ;
    it->process = 0;
    return status;
}

static void tell_end(const char *file, int status) {
    if (WIFSIGNALED(status))
        complain("%s: the core was ended by signal %d", file, WTERMSIG(status));
    else
        complain("%s: the core ended with status %d", file, WEXITSTATUS(status));
}

/* Waits until the file is open. */
static bool wait_for_file(struct core *it, const char *file) {
    if (!read_first(it)) {
        tell_end(file, reap(it));
        return false;
    }
    uint32_t code = get_u32(it->heard.bytes + 12);
    if (code != 0)
        complain("%s: the core can't open it (fault %u)", file, code);
    else if (fcntl(it->in, F_SETFL, O_NONBLOCK) == 0 && fcntl(it->out, F_SETFL, O_NONBLOCK) == 0)
        return true;
    else
        complain("%s: the core's pipes: %s", file, strerror(errno));
    (void)reap(it);
    return false;
}

bool core_start(struct core *it, const char *program, const char *const *words, uint32_t clients) {
    *it = (struct core){.far = -1, .in = -1, .out = -1};
    /* Behind the most that is waited for: a request, and a record for each client that goes. */
    size_t most = MOST_TOLD + 2 * (HEAD + MOST_FRAME) + (size_t)clients * HEAD;
    int wrong = make_room(&it->told, most) && make_room(&it->heard, HEARD_BYTES) ? begin(it, program, words) : ENOMEM;
    if (wrong == 0)
        return wait_for_file(it, words[1]);
    complain("%s: the core can't be started: %s", words[1], strerror(wrong));
    (void)reap(it);
    return false;
}

bool core_end(struct core *it, const char *file) {
    int status = reap(it);
    if (status != 0)
        tell_end(file, status);
    return status == 0;
}

/* ---- what it is told */

static size_t count_of(const struct pipe_room *it) {
    return it->end - it->begin;
}

/* Moves what is there to the front. */
static void close_up(struct pipe_room *it) {
    if (it->begin > 0)
        memmove(it->bytes, it->bytes + it->begin, count_of(it));
    it->end -= it->begin;
    it->begin = 0;
}

bool core_is_busy(const struct core *it) {
    return count_of(&it->told) > MOST_TOLD;
}

bool core_is_free(const struct core *it) {
    return count_of(&it->told) <= MOST_TOLD / 2;
}

void core_tell(struct core *it, const struct record *record) {
    struct pipe_room *told = &it->told;
    /* Where it is busy one save is behind all requests that wait, since no more are added. */
    bool is_late_save = record->kind == SAVE && core_is_busy(it);
    if (is_late_save && it->has_late_save)
        return;
    it->has_late_save = is_late_save || (it->has_late_save && core_is_busy(it));
    if (told->size - told->end < HEAD + record->count)
        close_up(told);
    uint8_t *at = told->bytes + told->end;
    put_u32(at, (uint32_t)(HEAD - 4 + record->count));
    put_u32(at + 4, record->connection);
    put_u32(at + 8, record->kind);
    put_u32(at + 12, record->caller.process);
    put_u32(at + 16, record->caller.user);
    put_u32(at + 20, record->caller.group);
    if (record->count > 0)
        memcpy(at + HEAD, record->request, record->count);
    told->end += HEAD + record->count;
}

void core_look(struct core *it, bool looks) {
    if (it->is_looking != looks && fcntl(it->far, F_SETFL, looks ? O_NONBLOCK : 0) == 0)
        it->is_looking = looks;
}

bool core_flush(struct core *it) {
    struct pipe_room *told = &it->told;
    while (count_of(told) > 0) {
        ssize_t done = write(it->in, told->bytes + told->begin, count_of(told));
        if (done < 0 && errno == EINTR)
            continue;
        if (done < 0)
            return errno == EAGAIN;
        told->begin += (size_t)done;
    }
    told->begin = told->end = 0;
    return true;
}

/* ---- what it answers */

/* Hands on the whole answers that are there. False where one is none. */
static bool take_answers(struct pipe_room *heard, void (*act)(void *, const struct core_answer *), void *with) {
    while (count_of(heard) >= 4) {
        const uint8_t *at = heard->bytes + heard->begin;
        size_t length = get_u32(at);
        if (length < ANSWER_HEAD || length > MOST_ANSWER)
            return false;
        if (count_of(heard) < 4 + length)
            break;
        act(with, &(struct core_answer){get_u32(at + 4), at + 8, length - 4});
        heard->begin += 4 + length;
    }
    return true;
}

enum heard core_hear(struct core *it, void (*act)(void *with, const struct core_answer *answer), void *with) {
    struct pipe_room *heard = &it->heard;
    close_up(heard);
    ssize_t more = read(it->out, heard->bytes + heard->end, heard->size - heard->end);
    if (more == 0)
        return CORE_ENDED;
    if (more < 0)
        return errno == EAGAIN || errno == EINTR ? NOTHING_HEARD : CORE_ENDED;
    heard->end += (size_t)more;
    return take_answers(heard, act, with) ? HEARD : CORE_IS_WRONG;
}
