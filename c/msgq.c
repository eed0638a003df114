/* The file and the lock: a handle is opened, saved and closed. */
#include "making.h"
#include "opened.h"

#include <errno.h>
#include <stdio.h>
#include <stdlib.h>
#include <string.h>
#include <unistd.h>

static const char UNOPENED[] = "it can't be opened";

/* ---- the lock */

int enter(struct opened_file *file, const struct timespec *end) {
    if (!is_own(file))
        return fails(why(ENOTSUP, "a parent of this process has opened it: the child opens it anew"), file->handle.name,
                     "the call is not made");
    lock_take(&file->lock, end);
    return 0;
}

/* ---- files */

static struct owner own(void) {
    return (struct owner){(uint32_t)getpid(), (uint32_t)geteuid(), (uint32_t)getegid()};
}

int msgq_create(const char *path, uint32_t pages) {
    struct handle session = {0};
    struct owner owner = own();
    char name[NAME_BYTES];
    nothing_is_wrong();
    if (path == NULL)
        return fails(why(EINVAL, "there is no name"), "the file", "it can't be made");
    spell_name(name, path);
    int wrong = error_of(msgq_session_create(&session, &owner, pages));
    if (wrong == 0) {
        wrong = make_file(path, &session);
        (void)msgq_session_close(&session);
    }
    return fails(wrong, name, "it can't be made");
}

static int open_session(struct opened_file *it) {
    uint8_t *bytes;
    size_t count;
    struct owner owner = own();
    int wrong = pair_read(&it->pair, &bytes, &count);
    if (wrong != 0)
        return wrong;
    uint32_t code = msgq_session_open(&it->session, &owner, bytes, count);
    if ((wrong = error_of(code)) == EBADMSG)
        tell_fault(code, bytes, count);
    free(bytes);
    if (wrong == 0 && (wrong = pair_bring_in(&it->pair, &it->session)) != 0)
        (void)msgq_session_close(&it->session);
    return wrong;
}

/* Opens a file in a handle of zeros. */
static int open_file(struct opened_file *it, const char *path) {
    int wrong = pair_open(&it->pair, path);
    if (wrong != 0)
        return wrong;
    if ((wrong = open_session(it)) == 0 && (wrong = lock_begin(&it->lock)) != 0)
        (void)msgq_session_close(&it->session);
    if (wrong != 0)
        pair_close(&it->pair);
    else
        note_open(it);
    return wrong;
}

/* Opens a file once nobody else has it open, up to the end that there may be. */
static int open_in_turn(struct opened_file *it, const char *path, const struct timespec *end) {
    static const struct timespec nap = {0, 5000000};
    struct timespec left = nap;
    for (;;) {
        int wrong = open_file(it, path);
        if (wrong != EBUSY)
            return wrong;
        if (end != NULL && (wrong = left_until(end, &left)) != 0)
            return wrong;
        if (left.tv_sec == 0 && left.tv_nsec == 0)
            return ETIMEDOUT;
        /* A signal ends a nap, and only that. */
        (void)nanosleep(left.tv_sec > 0 || left.tv_nsec > nap.tv_nsec ? &nap : &left, NULL);
        nothing_is_wrong();
    }
}

/* Opens a file, at once or in its turn. */
static int open_as(const char *path, msgq **queues, bool waits, const struct timespec *limit) {
    char name[NAME_BYTES] = "the file";
    struct timespec end;
    nothing_is_wrong();
    if (path == NULL || queues == NULL || msgq_session_handle_size() != sizeof(struct handle))
        return fails(EINVAL, name, UNOPENED);
    spell_name(name, path);
    if (waits && is_wrong_limit(limit))
        return fails(why(EINVAL, "the limit is none"), name, UNOPENED);
    int wrong = begin_process();
    if (wrong == 0 && waits && limit != NULL)
        wrong = end_of(limit, &end);
    if (wrong != 0)
        return fails(wrong, name, UNOPENED);
    struct opened_file *made = calloc(1, sizeof *made);
    if (made == NULL)
        return fails(ENOMEM, name, UNOPENED);
    made->handle.calls = &OPENED_CALLS;
    memcpy(made->handle.name, name, sizeof name);
    wrong = waits ? open_in_turn(made, path, limit == NULL ? NULL : &end) : open_file(made, path);
    if (wrong != 0)
        free(made);
    else
        *queues = &made->handle;
    return fails(wrong, name, UNOPENED);
}

int msgq_open(const char *path, msgq **queues) {
    return open_as(path, queues, false, NULL);
}

int msgq_open_wait(const char *path, const struct timespec *limit, msgq **queues) {
    return open_as(path, queues, true, limit);
}

/* Saves, or notes, under the lock. */
static int save_by(struct opened_file *file, int (*save)(struct pair *, struct handle *)) {
    const char *name = file->handle.name;
    if (file->is_half_saved)
        return fails(why(EIO, "an earlier save has failed: it is to be opened anew"), name, "it can't be saved");
    int wrong = save(&file->pair, &file->session);
    file->is_half_saved = wrong != 0;
    return fails(wrong, name, "it can't be saved, and is to be opened anew");
}

int opened_save(msgq *queues) {
    struct opened_file *file = opened_of(queues);
    int wrong = enter(file, NULL);
    return wrong != 0 ? wrong : leave(file, save_by(file, pair_save));
}

int opened_note(msgq *queues) {
    struct opened_file *file = opened_of(queues);
    int wrong = enter(file, NULL);
    return wrong != 0 ? wrong : leave(file, save_by(file, pair_note));
}

/* Lets a file go, unless a call waits. */
static int let_go(struct opened_file *file, bool saves) {
    int wrong = enter(file, NULL);
    if (wrong != 0)
        return wrong;
    if (file->lock.waiting > 0)
        wrong = fails(why(EBUSY, "%u of its calls wait: msgq_stop ends them", file->lock.waiting), file->handle.name,
                      "it can't be closed");
    if (wrong != 0 || (saves && (wrong = save_by(file, pair_save)) != 0))
        return leave(file, wrong);
    note_closed(file);
    (void)msgq_session_close(&file->session);
    pair_close(&file->pair);
    lock_give(&file->lock, false);
    lock_end(&file->lock);
    free(file);
    return 0;
}

int opened_close(msgq *queues) {
    return let_go(opened_of(queues), true);
}

int opened_abandon(msgq *queues) {
    return let_go(opened_of(queues), false);
}

int opened_stop(msgq *queues) {
    struct opened_file *file = opened_of(queues);
    int wrong = enter(file, NULL);
    if (wrong != 0)
        return wrong;
    wrong = error_of(msgq_session_stop(&file->session));
    return leave_changed(file, fails(wrong, queues->name, "it can't be stopped"));
}
