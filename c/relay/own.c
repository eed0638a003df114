/* The relay's own answers. */
#include "own.h"
#include "followers.h"
#include "frames.h"
#include "numbers.h"
#include "traffic.h"

#include <stdlib.h>

/* ---- counts */

/* Counts as they are told, one behind the other. */
struct list {
    uint8_t *bytes;
    size_t count, size;
};

static bool put(void *with, uint32_t kind, uint32_t label, uint64_t value) {
    struct list *it = with;
    if (it->size - it->count < COUNT_BYTES) {
        size_t size = it->size == 0 ? 4096 : it->size * 2;
        uint8_t *bytes = realloc(it->bytes, size);
        if (bytes == NULL)
            return false;
        it->bytes = bytes;
        it->size = size;
    }
    put_u32(it->bytes + it->count, kind);
    put_u32(it->bytes + it->count + 4, label);
    put_u64(it->bytes + it->count + 8, value);
    it->count += COUNT_BYTES;
    return true;
}

static bool put_all(struct clients *it, struct list *list) {
    uint64_t followers = 0;
    for (uint32_t place = 0; place < it->places_count; place++)
        for (const struct client *client = it->places[place]; client != NULL; client = client->next) {
            followers += client->follows;
            for (uint32_t at = 0; at < client->under_way; at++)
                if (client->asked[at].may_wait)
                    counts_wait(&it->counts, client->asked[at].queue);
        }
    return counts_tell(&it->counts, put, list) && put(list, COUNTED_CLIENTS, 0, it->count)
        && put(list, COUNTED_FOLLOWERS, 0, followers);
}

static void tell_counts(struct clients *it, struct client *client, uint32_t number) {
    struct list list = {NULL, 0, 0};
    it->counts.calls[COUNTS]++;
    if (put_all(it, &list))
        client_tell(it, client, &(struct told){number, 0, 0, list.bytes, list.count});
    else
        client_tell(it, client, &(struct told){.number = number, .code = NO_MEMORY});
    free(list.bytes);
}

/* ---- which it is */

static void refuse_frame(struct clients *it, struct client *client, uint32_t number) {
    client_tell(it, client, &(struct told){.number = number, .code = WRONG_FRAME});
    if (!client->is_gone)
        client_end_behind(it, client);
}

bool own_ask(struct clients *it, struct client *client, uint8_t *frame) {
    bool is_plain = frame_is_plain(frame);
    switch (frame_operation(frame)) {
    case COUNTS:
        if (is_plain && frame_id(frame) == 0)
            tell_counts(it, client, frame_number(frame));
        else
            refuse_frame(it, client, frame_number(frame));
        return true;
    case FOLLOW:
        if (!is_plain)
            refuse_frame(it, client, frame_number(frame));
        return !is_plain;
    case CANCEL:
        return is_plain && followers_cancel(it, client, frame_id(frame));
    default:
        return false;
    }
}
