/* One client's bytes: frames to the core, and answers to the client. */
#include "traffic.h"
#include "followers.h"
#include "frames.h"
#include "numbers.h"
#include "own.h"

#include <errno.h>
#include <stdlib.h>
#include <string.h>
#include <sys/epoll.h>
#include <sys/socket.h>

/* ---- what it asks */

/* A client whose frames can't be told apart any more. */
static bool is_out_of_range(uint32_t length) {
    return length < LEAST_FRAME || length > MOST_FRAME;
}

/* Takes the next whole frame, NULL where there is none yet. A client whose frames can't be told apart is lost. */
static uint8_t *next_frame(struct clients *it, struct client *client) {
    uint8_t *at = client->in + client->in_begin;
    size_t count = client->in_end - client->in_begin;
    if (client->is_gone || client->is_ending || count < 4)
        return NULL;
    if (is_out_of_range(get_u32(at))) {
        clients_lose(it, client);
        return NULL;
    }
    return count < 4 + (size_t)get_u32(at) ? NULL : at;
}

/* Answers the frames that are there that the server ends. */
static void refuse(struct clients *it, struct client *client) {
    for (const uint8_t *at; (at = next_frame(it, client)) != NULL; client->in_begin += 4 + (size_t)get_u32(at))
        /* A cancel has no answer of its own. */
        if (frame_operation(at) != CANCEL)
            client_tell(it, client, &(struct told){.number = frame_number(at), .code = ENDS});
}

/* Notes a request that the core is to answer. A call that may wait, where too many of its user do, is only tried. */
static void note(struct clients *it, struct client *client, uint8_t *frame) {
    struct asked *asked = &client->asked[client->under_way++];
    frame_read(asked, frame);
    asked->since = it->now;
    if (!asked->may_wait)
        return;
    if (client->user->waits >= it->most.user_waits) {
        asked->may_wait = false;
        asked->is_tried = true;
        frame_try(frame);
    }
    client->user->waits += asked->may_wait;
}

/* Hands a frame to the core. */
static void hand(struct clients *it, struct client *client, uint8_t *frame) {
    if (frame_operation(frame) == CANCEL)
        counts_told(&it->counts, it->now);
    else
        note(it, client, frame);
    if (frame_operation(frame) == FOLLOW)
        frame_make_stat(frame);
    core_tell(it->core, &(struct record){client->number, REQUEST, client->caller, frame + 4, get_u32(frame)});
    client->is_heard = it->has_traffic = true;
}

void client_hand_over(struct clients *it, struct client *client) {
    uint8_t *at;
    client->is_held = client->is_paused = false;
    if (it->is_stopped)
        refuse(it, client);
    while ((at = next_frame(it, client)) != NULL) {
        client->is_paused = core_is_busy(it->core);
        it->has_paused |= client->is_paused;
        bool is_too_many = frame_operation(at) != CANCEL && client->under_way >= MOST_UNDER_WAY;
        client->is_held = is_too_many || client_waits(client) > MOST_OUT;
        if (client->is_paused || client->is_held)
            return;
        client->in_begin += 4 + (size_t)get_u32(at);
        if (!own_ask(it, client, at))
            hand(it, client, at);
    }
}

/* Reads once, behind the part of a frame that is there. */
static void read_more(struct clients *it, struct client *client) {
    if (client->is_gone)
        return;
    memmove(client->in, client->in + client->in_begin, client->in_end - client->in_begin);
    client->in_end -= client->in_begin;
    client->in_begin = 0;
    ssize_t more = recv(client->socket.file, client->in + client->in_end, IN_BYTES - client->in_end, MSG_DONTWAIT);
    if (more < 0 && (errno == EAGAIN || errno == EINTR))
        return;
    if (more <= 0) {
        clients_lose(it, client);
        return;
    }
    client->in_end += (size_t)more;
    client_hand_over(it, client);
}

void clients_hear(struct clients *it, struct client *client, uint32_t events) {
    if (client->is_gone)
        return;
    /* What a process has asked that is no longer there is not done: it would take messages that nobody gets. */
    if ((events & (EPOLLHUP | EPOLLERR)) != 0) {
        clients_lose(it, client);
        return;
    }
    if ((events & EPOLLOUT) != 0)
        client_flush(it, client);
    /* (where it is to be read no longer its room may be full) */
    if ((events & client->events & EPOLLIN) != 0)
        read_more(it, client);
    client_watch(it, client);
}

void client_forget(struct clients *it, struct client *client) {
    if (client->is_heard)
        core_tell(it->core, &(struct record){.connection = client->number, .kind = GONE, .caller = client->caller});
    client->is_heard = false;
    counts_told(&it->counts, it->now);
}

void client_end_behind(struct clients *it, struct client *client) {
    client->is_ending = true;
    followers_lose(it, client);
    client_forget(it, client);
}

/* ---- what it is answered */

size_t client_waits(const struct client *client) {
    return client->out.end - client->out.begin;
}

/* Makes room for so many more bytes. */
static bool grow(struct pipe_room *out, size_t count) {
    if (out->begin >= out->size / 2 && out->begin > 0) {
        memmove(out->bytes, out->bytes + out->begin, out->end - out->begin);
        out->end -= out->begin;
        out->begin = 0;
    }
    if (out->size - out->end >= count)
        return true;
    size_t size = out->size == 0 ? OUT_BYTES : out->size;
    while (size - out->end < count)
        size *= 2;
    uint8_t *bytes = realloc(out->bytes, size);
    if (bytes == NULL)
        return false;
    out->bytes = bytes;
    out->size = size;
    return true;
}

bool client_put(struct clients *it, struct client *client, const uint8_t *bytes, size_t count) {
    struct pipe_room *out = &client->out;
    if (out->size - out->end < count && !grow(out, count))
        return false;
    memcpy(out->bytes + out->end, bytes, count);
    out->end += count;
    if (!client->is_due) {
        client->is_due = true;
        client->next_due = it->due;
        it->due = client;
    }
    return true;
}

void client_tell(struct clients *it, struct client *client, const struct told *told) {
    uint8_t head[16];
    if (client->is_gone)
        return;
    put_u32(head, (uint32_t)(sizeof head - 4 + told->count));
    put_u32(head + 4, told->number);
    put_u32(head + 8, told->code);
    put_u32(head + 12, told->value);
    if (!client_put(it, client, head, sizeof head)
        || (told->count > 0 && !client_put(it, client, told->fields, told->count)))
        clients_lose(it, client);
}

/* Takes the request of a number from those under way. */
static bool take(struct client *client, uint32_t number, struct asked *asked) {
    for (uint32_t at = 0; at < client->under_way; at++)
        if (client->asked[at].number == number && !client->asked[at].is_begun) {
            *asked = client->asked[at];
            client->user->waits -= asked->may_wait;
            client->asked[at] = client->asked[--client->under_way];
            return true;
        }
    return false;
}

/* Counts what was answered, and tells who follows the queue. */
static void note_answer(struct clients *it, const struct client *client, const struct asked *asked, const struct told *told) {
    counts_answered(&it->counts, asked->operation, told->code, asked->since);
    if (told->code != 0)
        return;
    if (asked->operation == SEND || asked->operation == RECEIVE || asked->operation == RESERVE)
        counts_message(&it->counts, asked->queue, asked->operation == SEND);
    if (asked->operation == SEND && told->count == 8)
        followers_tell(it, asked, client->caller.process, told->fields);
    if (asked->operation == REMOVE || asked->operation == ACKNOWLEDGE || asked->operation == RELEASE) {
        counts_removed(&it->counts, asked->queue);
        followers_end(it, asked->queue);
    }
}

void clients_answer(struct clients *it, const struct core_answer *answer) {
    struct client *client = client_of(it, answer->connection);
    const uint8_t *at = answer->bytes;
    struct told told = {get_u32(at), get_u32(at + 4), get_u32(at + 8), at + 12, answer->count - 12};
    struct asked asked;
    if (client == NULL || client->is_ending)
        return;
    if (take(client, told.number, &asked)) {
        if (asked.is_tried && (told.code == CODE_EAGAIN || told.code == CODE_ENOMSG))
            told.code = NO_MEMORY;
        note_answer(it, client, &asked, &told);
        if (asked.operation == FOLLOW)
            followers_begin(it, client, &asked, &told);
    }
    client_tell(it, client, &told);
    if (client->is_gone)
        return;
    if (told.code == WRONG_FRAME)
        client_end_behind(it, client);
    else if (client->is_held)
        client_hand_over(it, client);
}

/* Puts what is to follow what was written: what was not told for want of room, and what else was asked. */
static bool refill(struct clients *it, struct client *client) {
    if (client->is_gone || client->is_ending)
        return false;
    followers_catch_up(it, client);
    if (client->is_held)
        client_hand_over(it, client);
    return !client->is_gone && client_waits(client) > 0;
}

/* Writes until nothing waits. False where it takes no more. */
static bool write_all(struct clients *it, struct client *client) {
    struct pipe_room *out = &client->out;
    while (!client->is_gone && out->begin < out->end) {
        const uint8_t *at = out->bytes + out->begin;
        ssize_t done = send(client->socket.file, at, out->end - out->begin, MSG_NOSIGNAL | MSG_DONTWAIT);
        if (done < 0 && errno == EINTR)
            continue;
        if (done < 0 && errno == EAGAIN)
            return false;
        if (done < 0)
            clients_lose(it, client);
        else
            out->begin += (size_t)done;
    }
    out->begin = out->end = 0;
    return true;
}

void client_flush(struct clients *it, struct client *client) {
    struct pipe_room *out = &client->out;
    do {
        if (!write_all(it, client))
            return;
    } while (refill(it, client));
    /* What a burst has taken is given back. */
    if (out->size > OUT_BYTES) {
        free(out->bytes);
        *out = (struct pipe_room){NULL, 0, 0, 0};
    }
    if (client->is_ending)
        clients_lose(it, client);
}
