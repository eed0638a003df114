/* The table of connections: they come, are watched, and go. */
#include "clients.h"
#include "../front/front.h"
#include "followers.h"
#include "traffic.h"

#include <errno.h>
#include <inttypes.h>
#include <stdarg.h>
#include <stdio.h>
#include <stdlib.h>
#include <string.h>
#include <sys/epoll.h>
#include <sys/socket.h>
#include <time.h>
#include <unistd.h>

/* (Linux 6.5; headers may be older) */
#ifndef SO_PEERPIDFD
#define SO_PEERPIDFD 77
#endif

bool clients_begin(struct clients *it, const struct bounds *most) {
    *it = (struct clients){.most = *most, .places_count = 1, .last_number = OWN_CONNECTION};
    it->counts.began = (uint64_t)time(NULL);
    while (it->places_count < most->clients)
        it->places_count *= 2;
    it->places = calloc(it->places_count, sizeof *it->places);
    return it->places != NULL;
}

static struct client **place_of(struct clients *it, uint32_t number) {
    struct client **at = &it->places[number & (it->places_count - 1)];
    while (*at != NULL && (*at)->number != number)
        at = &(*at)->next;
    return at;
}

struct client *client_of(struct clients *it, uint32_t number) {
    return *place_of(it, number);
}

/* ---- what is looked at */

static bool add(int epoll, struct watch *watch, uint32_t events) {
    struct epoll_event event = {.events = events, .data.ptr = watch};
    return epoll_ctl(epoll, EPOLL_CTL_ADD, watch->file, &event) == 0;
}

void client_watch(struct clients *it, struct client *client) {
    bool has_out = client->out.begin < client->out.end;
    bool is_read = !client->is_ending && !client->is_held && !client->is_paused
                && client->out.end - client->out.begin <= MOST_OUT;
    uint32_t events = (is_read ? (uint32_t)EPOLLIN : 0) | (has_out ? (uint32_t)EPOLLOUT : 0);
    struct epoll_event event = {.events = events, .data.ptr = &client->socket};
    if (client->is_gone || events == client->events)
        return;
    client->events = events;
    if (epoll_ctl(it->epoll, EPOLL_CTL_MOD, client->socket.file, &event) != 0)
        clients_lose(it, client);
}

/* ---- they come */

/* Counts a connection that is not had, and says why, once a minute at most. */
static bool turn_away(struct clients *it, enum refusal why, const char *format, ...) {
    static const uint64_t minute = 60000000000; /* in nanoseconds */
    char line[256];
    va_list words;
    it->counts.turned_away[why]++;
    if (it->told[why] != 0 && it->now - it->told[why] < minute)
        return false;
    it->told[why] = it->now;
    va_start(words, format);
    (void)vsnprintf(line, sizeof line, format, words);
    va_end(words);
    complain("%s", line);
    return false;
}

/* The same, for want of memory or of a descriptor. */
static bool lacks_room(struct clients *it) {
    return turn_away(it, LACKS_ROOM, "a client was hung up on: %s", strerror(errno));
}

/* Who stands behind a connection, as the system tells it. */
static bool read_caller(struct clients *it, struct client *client) {
    struct ucred peer;
    socklen_t size = sizeof peer;
    if (getsockopt(client->socket.file, SOL_SOCKET, SO_PEERCRED, &peer, &size) != 0)
        return lacks_room(it);
    if (peer.pid == 0)
        return turn_away(it, IS_ELSEWHERE,
                         "a process of another pid namespace was refused, as all such are: it has no number here");
    client->caller = (struct caller){(uint32_t)peer.pid, peer.uid, peer.gid};
    return true;
}

/* Looks at the process behind it too: a child that has inherited the socket would hide its end. False where that would
 * be told, and can't be. */
static bool watch_process(struct clients *it, struct client *client) {
    socklen_t size = sizeof client->process.file;
    if (getsockopt(client->socket.file, SOL_SOCKET, SO_PEERPIDFD, &client->process.file, &size) == 0)
        return add(it->epoll, &client->process, EPOLLIN);
    client->process.file = -1;
    return errno == ENOPROTOOPT;
}

/* Counts it for its user, who may have as many as that already. */
static bool enter(struct clients *it, struct client *client) {
    uint32_t most = it->most.user_clients;
    client->user = users_enter(&it->users, client->caller.user);
    if (client->user == NULL)
        return lacks_room(it);
    if (client->user->clients <= most)
        return true;
    return turn_away(it, TOO_MANY_OF_ONE_USER,
                     "user %" PRIu32 " has as many clients as one may have, %" PRIu32 ": others of it are hung up on",
                     client->caller.user, most);
}

static void close_both(struct client *client) {
    (void)close(client->socket.file);
    if (client->process.file >= 0)
        (void)close(client->process.file);
}

/* Lets its user have another one, and wait for as many calls more. */
static void leave(struct clients *it, struct client *client) {
    struct user *user = client->user;
    for (uint32_t at = 0; user != NULL && at < client->under_way; at++)
        user->waits -= client->asked[at].may_wait;
    if (user != NULL)
        users_leave(&it->users, user);
    client->user = NULL;
}

/* A client that comes; NULL where there are too many, or there is no memory. */
static struct client *make_client(struct clients *it, int file) {
    if (it->count >= it->most.clients) {
        (void)turn_away(it, TOO_MANY, "as many clients as may be are connected, %" PRIu32 ": others are hung up on",
                        it->most.clients);
        return NULL;
    }
    struct client *client = malloc(sizeof *client);
    if (client == NULL) {
        (void)lacks_room(it);
        return NULL;
    }
    /* What it sends and asks is written over what stands in the room for it, which is not cleared. */
    memset(client, 0, offsetof(struct client, asked));
    client->out = (struct pipe_room){NULL, 0, 0, 0};
    client->in_begin = client->in_end = 0;
    client->socket = (struct watch){CLIENT, file};
    client->process = (struct watch){PROCESS, -1};
    client->events = EPOLLIN;
    return client;
}

bool clients_admit(struct clients *it, int file) {
    if (it->last_number == UINT32_MAX) {
        (void)close(file);
        return false;
    }
    struct client *client = make_client(it, file);
    if (client == NULL) {
        (void)close(file);
        return true;
    }
    bool is_right = read_caller(it, client) && enter(it, client);
    if (is_right && (!watch_process(it, client) || !add(it->epoll, &client->socket, EPOLLIN)
                     || !client_put(it, client, it->greeting, sizeof it->greeting)))
        is_right = lacks_room(it);
    if (!is_right) {
        leave(it, client);
        close_both(client);
        free(client);
        return true;
    }
    client->number = ++it->last_number;
    it->count++;
    it->counts.clients++;
    *place_of(it, client->number) = client;
    return true;
}

/* ---- they go */

void clients_lose(struct clients *it, struct client *client) {
    if (client->is_gone)
        return;
    client->is_gone = true;
    client_forget(it, client);
    followers_lose(it, client);
    leave(it, client);
    close_both(client);
    *place_of(it, client->number) = client->next;
    it->count--;
    /* Events that were told with this one may still point to it. */
    if (!client->is_due) {
        client->next_due = it->gone;
        it->gone = client;
    }
}

static void free_gone(struct clients *it) {
    while (it->gone != NULL) {
        struct client *client = it->gone;
        it->gone = client->next_due;
        free(client->out.bytes);
        free(client);
    }
}

void clients_flush(struct clients *it) {
    while (it->due != NULL) {
        struct client *client = it->due;
        it->due = client->next_due;
        client_flush(it, client);
        client->is_due = false;
        if (client->is_gone) {
            client->next_due = it->gone;
            it->gone = client;
        } else {
            client_watch(it, client);
        }
    }
    free_gone(it);
}

/* ---- all of them */

static void each(struct clients *it, void (*act)(struct clients *, struct client *)) {
    for (uint32_t place = 0; place < it->places_count; place++)
        for (struct client *client = it->places[place], *next; client != NULL; client = next) {
            next = client->next;
            act(it, client);
        }
}

static void resume(struct clients *it, struct client *client) {
    if (!client->is_paused)
        return;
    client_hand_over(it, client);
    client_watch(it, client);
}

void clients_resume(struct clients *it) {
    /* It goes on where it was last time, so that those who ask without end don't shut others out. */
    for (uint32_t count = 0; count < it->places_count && !core_is_busy(it->core); count++) {
        it->turn = (it->turn + 1) & (it->places_count - 1);
        for (struct client *client = it->places[it->turn], *next; client != NULL; client = next) {
            next = client->next;
            resume(it, client);
        }
    }
    it->has_paused = core_is_busy(it->core);
}

static void stop(struct clients *it, struct client *client) {
    followers_stop(it, client);
    client_hand_over(it, client);
    client_watch(it, client);
}

void clients_stop(struct clients *it) {
    it->is_stopped = true;
    each(it, stop);
}

bool clients_wait(const struct clients *it) {
    for (uint32_t place = 0; place < it->places_count; place++)
        for (const struct client *client = it->places[place]; client != NULL; client = client->next)
            if (client->out.begin < client->out.end)
                return true;
    return false;
}

void clients_end(struct clients *it) {
    if (it->places != NULL)
        each(it, clients_lose);
    clients_flush(it);
    counts_end(&it->counts);
    free(it->places);
    it->places = NULL;
}
