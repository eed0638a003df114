/* What the loop waits for, and what it does then. */
#include "loop.h"
#include "../front/front.h"
#include "numbers.h"
#include "service.h"

#include <errno.h>
#include <fcntl.h>
#include <signal.h>
#include <stddef.h>
#include <string.h>
#include <sys/epoll.h>
#include <sys/random.h>
#include <sys/signalfd.h>
#include <sys/socket.h>
#include <sys/timerfd.h>
#include <time.h>
#include <unistd.h>

enum { MOST_EVENTS = 256, MOST_ACCEPTS = 64, MUTED = 100, DRAINED = 2000 }; /* the last two in milliseconds */
enum { PROMPT = 2 }; /* events */
enum { MOST_BODY = 1024, VERSION = 1, OPERATION_SAVE = 9 };

static uint64_t nanoseconds(void) {
    struct timespec now;
    return clock_gettime(CLOCK_MONOTONIC, &now) != 0 ? 0 : (uint64_t)now.tv_sec * 1000000000 + (uint64_t)now.tv_nsec;
}

static int64_t milliseconds(void) {
    return (int64_t)(nanoseconds() / 1000000);
}

/* ---- it begins */

/* Another for each start of a server: what was answered before may be gone with a server that did not save it. */
static uint64_t draw_instance(void) {
    uint64_t instance;
    struct timespec now = {0, 0};
    if (getrandom(&instance, sizeof instance, 0) == (ssize_t)sizeof instance)
        return instance;
    (void)clock_gettime(CLOCK_REALTIME, &now);
    return (uint64_t)now.tv_sec * 1000000000 + (uint64_t)now.tv_nsec;
}

static void write_greeting(struct relay *it) {
    uint8_t *at = it->clients.greeting;
    memset(at, 0, GREETING_BYTES);
    put_u32(at, GREETING_BYTES - 4);
    put_u32(at + 12, VERSION);
    put_u32(at + 16, it->options->durability);
    put_u64(at + 20, draw_instance());
    put_u32(at + 28, MOST_BODY);
}

/* The signals that are waited for, but for those that this process was told to ignore. */
static int open_signals(void) {
    static const int all[] = {SIGHUP, SIGINT, SIGTERM};
    struct sigaction now;
    sigset_t set;
    (void)sigemptyset(&set);
    for (size_t at = 0; at < sizeof all / sizeof *all; at++)
        if (sigaction(all[at], NULL, &now) == 0 && now.sa_handler != SIG_IGN)
            (void)sigaddset(&set, all[at]);
    if (sigprocmask(SIG_BLOCK, &set, NULL) != 0)
        return -1;
    return signalfd(-1, &set, SFD_NONBLOCK | SFD_CLOEXEC);
}

static bool look_for(struct relay *it, struct watch *watch, enum watched what, int file, uint32_t events) {
    struct epoll_event event = {.events = events, .data.ptr = watch};
    *watch = (struct watch){what, file};
    return file >= 0 && epoll_ctl(it->epoll, EPOLL_CTL_ADD, file, &event) == 0;
}

static bool change(struct relay *it, struct watch *watch, uint32_t events) {
    struct epoll_event event = {.events = events, .data.ptr = watch};
    return epoll_ctl(it->epoll, EPOLL_CTL_MOD, watch->file, &event) == 0;
}

bool relay_begin(struct relay *it) {
    it->spare = open("/dev/null", O_RDONLY | O_CLOEXEC);
    it->epoll = epoll_create1(EPOLL_CLOEXEC);
    bool has_table = clients_begin(&it->clients, &it->options->most);
    lookout_begin(&it->lookout);
    it->clients.epoll = it->epoll;
    it->clients.core = &it->core;
    write_greeting(it);
    /* (all of them are tried, so that each is closed) */
    bool is_right = look_for(it, &it->signals, SIGNALS, open_signals(), EPOLLIN);
    is_right &= look_for(it, &it->timer, TIMER, timerfd_create(CLOCK_MONOTONIC, TFD_NONBLOCK | TFD_CLOEXEC), EPOLLIN);
    is_right &= look_for(it, &it->listens, LISTENER, it->listener.file, EPOLLIN);
    is_right &= look_for(it, &it->core_in, CORE_IN, it->core.in, 0);
    is_right &= look_for(it, &it->core_out, CORE_OUT, it->core.out, EPOLLIN);
    if (!is_right || !has_table || it->spare < 0)
        complain("%s: it can't be served: %s", it->options->file, strerror(has_table ? errno : ENOMEM));
    return is_right && has_table && it->spare >= 0;
}

static void close_one(int file) {
    if (file >= 0)
        (void)close(file);
}

void relay_end(struct relay *it) {
    clients_end(&it->clients);
    close_one(it->signals.file);
    close_one(it->timer.file);
    close_one(it->epoll);
    close_one(it->spare);
}

/* ---- it ends */

/* Takes no more clients. (Who handed a socket over has it too, so that it would still be looked for.) */
static void close_listener(struct relay *it) {
    if (it->listener.file < 0)
        return;
    (void)epoll_ctl(it->epoll, EPOLL_CTL_DEL, it->listener.file, NULL);
    listener_close(&it->listener);
    it->muted_until = 0;
}

/* Hands nothing more to the core: what it was told is answered, and the rest can be asked again of the next server. */
static void begin_end(struct relay *it) {
    if (it->phase != SERVING)
        return;
    it->phase = ENDING;
    (void)service_tell("STOPPING=1\n");
    close_listener(it);
    clients_stop(&it->clients);
    core_tell(&it->core, &(struct record){.kind = END});
}

/* The core answers no more. */
static void lose_core(struct relay *it, const char *why) {
    if (it->phase == SERVING)
        complain("%s: %s: all clients are hung up on", it->options->file, why);
    if (it->phase == SERVING)
        it->status = FAULT;
    close_listener(it);
    clients_stop(&it->clients);
    (void)epoll_ctl(it->epoll, EPOLL_CTL_DEL, it->core.out, NULL);
    it->phase = DRAINING;
    it->drained_until = milliseconds() + DRAINED;
}

/* ---- clients come */

/* No client can be taken now: those that wait are looked for again in a moment. */
static void mute(struct relay *it) {
    if (!it->is_told)
        complain("%s: no client can be taken: %s", it->listener.path, strerror(errno));
    it->is_told = true;
    if (change(it, &it->listens, 0))
        it->muted_until = milliseconds() + MUTED;
}

/* Where there is no descriptor for it a client is hung up on, by the one that was spared: else it would be told of
 * again and again. */
static bool refuse(struct relay *it) {
    close_one(it->spare);
    int file = accept4(it->listener.file, NULL, NULL, SOCK_CLOEXEC);
    int wrong = errno;
    close_one(file);
    it->clients.counts.turned_away[LACKS_ROOM] += file >= 0;
    it->spare = open("/dev/null", O_RDONLY | O_CLOEXEC);
    errno = wrong;
    return file >= 0;
}

static void accept_some(struct relay *it) {
    for (int count = 0; count < MOST_ACCEPTS; count++) {
        int file = accept4(it->listener.file, NULL, NULL, SOCK_NONBLOCK | SOCK_CLOEXEC);
        if (file < 0 && (errno == EAGAIN || errno == EINTR || errno == ECONNABORTED))
            return;
        if (file < 0) {
            if ((errno != EMFILE && errno != ENFILE) || !refuse(it))
                mute(it);
            return;
        }
        it->is_told = false;
        if (!clients_admit(&it->clients, file)) {
            complain("%s: the numbers of connections are used up: it is to be started anew", it->listener.path);
            it->status = FAULT;
            begin_end(it);
            return;
        }
    }
}

/* ---- signals and moments */

/* Asks for a save, whatever the core was started for, once it has time to be asked. */
static void ask_to_save(struct relay *it) {
    static const uint8_t save[12] = {0, 0, 0, 0, OPERATION_SAVE};
    if (!it->wants_save || it->phase != SERVING || core_is_busy(&it->core))
        return;
    struct caller own = {(uint32_t)getpid(), geteuid(), getegid()};
    core_tell(&it->core, &(struct record){OWN_CONNECTION, REQUEST, own, save, sizeof save});
    it->wants_save = false;
}

static void take_signals(struct relay *it) {
    struct signalfd_siginfo told;
    while (read(it->signals.file, &told, sizeof told) == (ssize_t)sizeof told) {
        if (told.ssi_signo == SIGHUP)
            it->wants_save = true;
        else
            begin_end(it);
    }
}

/* Sees to it that what is asked from now on is saved in time. */
static void arm(struct relay *it) {
    uint32_t every = it->options->every;
    struct itimerspec in = {.it_value = {every / 1000, (long)(every % 1000) * 1000000}};
    if (it->options->durability != EVERY || it->is_armed || !it->clients.has_traffic)
        return;
    it->clients.has_traffic = false;
    it->is_armed = timerfd_settime(it->timer.file, 0, &in, NULL) == 0;
}

static void take_moment(struct relay *it) {
    uint64_t count;
    if (read(it->timer.file, &count, sizeof count) != (ssize_t)sizeof count)
        return;
    it->is_armed = false;
    if (it->phase == SERVING)
        core_tell(&it->core, &(struct record){.kind = SAVE});
}

/* ---- the core */

static void answer(void *with, const struct core_answer *answer) {
    clients_answer(&((struct relay *)with)->clients, answer);
}

/* Hears what the core has answered: whether it has. */
static bool hear_core(struct relay *it) {
    enum heard heard = it->phase == DRAINING ? NOTHING_HEARD : core_hear(&it->core, answer, it);
    if (heard == HEARD)
        counts_group(&it->clients.counts, it->clients.now);
    else if (heard != NOTHING_HEARD)
        lose_core(it, heard == CORE_ENDED ? "the core has ended" : "the core answers what is none");
    return heard != NOTHING_HEARD;
}

/* Whether something waits to be told to the core. */
static bool has_told(const struct relay *it) {
    return it->core.told.begin < it->core.told.end;
}

/* Writes to the core, and reads the clients again that were not read for its sake. */
static void tell_core(struct relay *it) {
    bool is_there = it->phase != DRAINING && core_flush(&it->core);
    if (is_there && it->clients.has_paused && core_is_free(&it->core))
        clients_resume(&it->clients);
    bool is_writing = is_there && has_told(it);
    if (it->is_writing != is_writing && change(it, &it->core_in, is_writing ? EPOLLOUT : 0))
        it->is_writing = is_writing;
}

/* ---- the loop */

static void act(struct relay *it, struct watch *watch, uint32_t events) {
    switch (watch->what) {
    case LISTENER:
        if (it->phase == SERVING)
            accept_some(it);
        break;
    case SIGNALS:
        take_signals(it);
        break;
    case TIMER:
        take_moment(it);
        break;
    case CORE_IN:
        /* (what waits for it is written in any case) */
        break;
    case CORE_OUT:
        (void)hear_core(it);
        break;
    case CLIENT:
        clients_hear(&it->clients, (struct client *)((char *)watch - offsetof(struct client, socket)), events);
        break;
    case PROCESS:
        clients_lose(&it->clients, (struct client *)((char *)watch - offsetof(struct client, process)));
        break;
    }
}

/* How long may be waited, in milliseconds; below 0 for as long as it takes. */
static int patience(const struct relay *it) {
    int64_t until = it->phase == DRAINING ? it->drained_until : it->muted_until;
    if (until == 0)
        return -1;
    int64_t left = until - milliseconds();
    return left < 0 ? 0 : (int)left;
}

/* What is due by now. */
static void go_on(struct relay *it) {
    ask_to_save(it);
    tell_core(it);
    clients_flush(&it->clients);
    /* Somebody may have gone meanwhile. */
    if (has_told(it) && !it->is_writing)
        tell_core(it);
    arm(it);
    if (it->muted_until != 0 && milliseconds() >= it->muted_until && change(it, &it->listens, EPOLLIN))
        it->muted_until = 0;
    if (it->phase == DRAINING && (!clients_wait(&it->clients) || milliseconds() >= it->drained_until))
        it->phase = OVER;
}

/* Looks for what comes, a little while: whether something came, events or answers of the core, which are heard. */
static bool look(struct relay *it, struct epoll_event *events, int *count) {
    bool is_found = false;
    core_look(&it->core, lookout_is_for_two(&it->lookout));
    do {
        it->clients.now = nanoseconds();
        is_found = hear_core(it);
        *count = epoll_wait(it->epoll, events, MOST_EVENTS, 0);
        is_found |= *count != 0;
    } while (!is_found && lookout_goes_on(&it->lookout, it->clients.now));
    lookout_closes(&it->lookout, is_found, it->clients.now);
    return is_found;
}

/* Waits for what comes, and tells how many events. Where this sleeps the core does too. */
static int wait_for_some(struct relay *it, struct epoll_event *events) {
    int count = 0, most = patience(it);
    if (most != 0 && lookout_opens(&it->lookout) && look(it, events, &count))
        return count;
    core_look(&it->core, false);
    count = epoll_wait(it->epoll, events, MOST_EVENTS, most);
    it->clients.now = nanoseconds();
    return count;
}

/* Whether what some clients ask is told while others are read. Where each group is saved they are one group; and a core
 * that sleeps is woken once. */
static bool is_prompt(const struct relay *it, int place) {
    return place % PROMPT == 0 && it->core.is_looking && it->options->durability != DURABLE;
}

void relay_run(struct relay *it) {
    struct epoll_event events[MOST_EVENTS];
    while (it->phase != OVER) {
        int count = wait_for_some(it, events);
        if (count < 0 && errno != EINTR) {
            complain("%s: it can't be served on: %s", it->options->file, strerror(errno));
            it->status = FAULT;
            return;
        }
        for (int at = 0; at < count; at++) {
            act(it, events[at].data.ptr, events[at].events);
            if (is_prompt(it, at + 1))
                tell_core(it);
        }
        go_on(it);
    }
}
