/* Messages are told to who follows their queue. */
#include "followers.h"
#include "frames.h"
#include "numbers.h"

#include <string.h>

/* What a further answer is, by its value. */
enum { A_MESSAGE = 1, UNTOLD_MESSAGES = 2 };

void followers_begin(struct clients *it, struct client *client, const struct asked *asked, struct told *told) {
    *told = (struct told){.number = told->number, .code = asked->is_ended ? CANCELLED : told->code};
    if (told->code != 0)
        return;
    client->asked[client->under_way] = *asked;
    client->asked[client->under_way++].is_begun = true;
    if (client->follows++ > 0)
        return;
    client->next_follower = it->followers;
    it->followers = client;
}

void followers_lose(struct clients *it, struct client *client) {
    struct client **at = &it->followers;
    if (client->follows == 0)
        return;
    while (*at != client)
        at = &(*at)->next_follower;
    *at = client->next_follower;
    client->follows = 0;
}

/* Ends one that is told, with this code. */
static void end(struct clients *it, struct client *client, uint32_t place, uint32_t code) {
    uint32_t number = client->asked[place].number;
    client->asked[place] = client->asked[--client->under_way];
    if (client->follows == 1)
        followers_lose(it, client);
    else
        client->follows--;
    client_tell(it, client, &(struct told){.number = number, .code = code});
}

static bool tell_untold(struct clients *it, struct client *client, struct asked *asked) {
    uint8_t count[8];
    put_u64(count, asked->untold);
    asked->untold = 0;
    client_tell(it, client, &(struct told){asked->number, 0, UNTOLD_MESSAGES, count, sizeof count});
    return !client->is_gone;
}

static void tell(struct clients *it, struct client *client, struct asked *asked, const uint8_t *message, size_t count) {
    /* (an end of what it was told of stands behind a count, so that it is never taken for all) */
    if (asked->untold > 0 || client_waits(client) > MOST_OUT) {
        asked->untold += asked->untold < UINT32_MAX;
        it->counts.untold++;
    } else {
        client_tell(it, client, &(struct told){asked->number, 0, A_MESSAGE, message, count});
    }
}

void followers_tell(struct clients *it, const struct asked *sent, uint32_t sender, const uint8_t *serial) {
    size_t start = sent->length < BODY_START ? sent->length : BODY_START;
    uint8_t message[24 + BODY_START];
    memcpy(message, serial, 8);
    put_u32(message + 8, sender);
    put_u32(message + 12, sent->length);
    put_u64(message + 16, (uint64_t)sent->type);
    memcpy(message + 24, sent->start, start);
    for (struct client *client = it->followers, *next; client != NULL; client = next) {
        next = client->next_follower;
        for (uint32_t at = 0; at < client->under_way && !client->is_gone; at++)
            if (client->asked[at].is_begun && client->asked[at].queue == sent->queue)
                tell(it, client, &client->asked[at], message, 24 + start);
    }
}

void followers_end(struct clients *it, uint32_t queue) {
    for (struct client *client = it->followers, *next; client != NULL; client = next) {
        next = client->next_follower;
        /* (from the end on, since the last one takes the place of one that is gone) */
        for (uint32_t at = client->under_way; at-- > 0 && !client->is_gone;)
            if (client->asked[at].is_begun && client->asked[at].queue == queue
                && (client->asked[at].untold == 0 || tell_untold(it, client, &client->asked[at])))
                end(it, client, at, CODE_EIDRM);
    }
}

bool followers_cancel(struct clients *it, struct client *client, uint32_t number) {
    for (uint32_t at = 0; at < client->under_way; at++) {
        struct asked *asked = &client->asked[at];
        if (asked->operation != FOLLOW || asked->number != number)
            continue;
        if (asked->is_begun)
            end(it, client, at, CANCELLED);
        else
            asked->is_ended = true;
        return true;
    }
    return false;
}

void followers_catch_up(struct clients *it, struct client *client) {
    for (uint32_t at = 0; client->follows > 0 && at < client->under_way && !client->is_gone; at++)
        if (client->asked[at].untold > 0)
            (void)tell_untold(it, client, &client->asked[at]);
}

void followers_stop(struct clients *it, struct client *client) {
    for (uint32_t at = client->under_way; at-- > 0 && !client->is_gone;)
        if (client->asked[at].is_begun)
            end(it, client, at, ENDS);
}
