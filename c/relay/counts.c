/* Counts, and times of groups. */
#include "counts.h"

#include <stdlib.h>

/* The longest time of a group of each place but the last, in microseconds. */
static const uint32_t WITHIN[TIMES] = {25, 50, 100, 250, 500, 1000, 2500, 5000, 10000, 25000, 50000, 100000, 1000000, UINT32_MAX};

void counts_answered(struct counts *it, uint32_t operation, uint32_t code, uint64_t since) {
    enum { CANCELLED = 200 };
    it->calls[operation < OPERATIONS ? operation : 0]++;
    if (code != 0)
        it->refused[code < CODES ? code : CODES - 1]++;
    /* (what was cancelled has waited, and says nothing of a group) */
    if (code != CANCELLED && since > it->latest)
        it->latest = since;
}

void counts_told(struct counts *it, uint64_t now) {
    if (now > it->answered)
        it->answered = now;
}

void counts_group(struct counts *it, uint64_t now) {
    uint64_t from = it->latest > it->answered ? it->latest : it->answered, time = now > from ? now - from : 0;
    int place = 0;
    if (it->latest != 0) {
        while (place < TIMES - 1 && time > (uint64_t)WITHIN[place] * 1000)
            place++;
        it->within[place]++;
        it->groups++;
        it->nanoseconds += time;
    }
    it->latest = 0;
    it->answered = now;
}

/* ---- messages */

static struct tally **place_of(struct counts *it, uint32_t queue) {
    struct tally **at = &it->tallies[queue % TALLY_PLACES];
    while (*at != NULL && (*at)->queue != queue)
        at = &(*at)->next;
    return at;
}

/* That of a queue, which is made where it is not there; where there is no memory it is not counted. */
static struct tally *tally_of(struct counts *it, uint32_t queue) {
    struct tally **at = place_of(it, queue);
    if (*at == NULL && (*at = calloc(1, sizeof **at)) != NULL)
        (*at)->queue = queue;
    return *at;
}

void counts_message(struct counts *it, uint32_t queue, bool is_sent) {
    struct tally *tally = tally_of(it, queue);
    if (tally != NULL)
        *(is_sent ? &tally->sent : &tally->received) += 1;
}

void counts_wait(struct counts *it, uint32_t queue) {
    struct tally *tally = tally_of(it, queue);
    if (tally != NULL)
        tally->waits++;
}

static void drop(struct tally **at) {
    struct tally *gone = *at;
    *at = gone->next;
    free(gone);
}

void counts_removed(struct counts *it, uint32_t queue) {
    struct tally **at = place_of(it, queue);
    if (*at != NULL)
        drop(at);
}

void counts_end(struct counts *it) {
    for (size_t place = 0; place < TALLY_PLACES; place++)
        while (it->tallies[place] != NULL)
            drop(&it->tallies[place]);
}

/* ---- what is told */

typedef bool put_count(void *with, uint32_t kind, uint32_t label, uint64_t value);

static bool tell_each(const uint64_t *values, uint32_t count, uint32_t kind, put_count *put, void *with) {
    bool is_put = true;
    for (uint32_t label = 0; label < count && is_put; label++)
        is_put = values[label] == 0 || put(with, kind, label, values[label]);
    return is_put;
}

/* As many groups as took no longer than each time. */
static bool tell_groups(const struct counts *it, put_count *put, void *with) {
    uint64_t sum = 0;
    bool is_put = true;
    for (int place = 0; place < TIMES && is_put; place++) {
        sum += it->within[place];
        is_put = put(with, COUNTED_GROUPS, WITHIN[place], sum);
    }
    return is_put && put(with, COUNTED_TIME, 0, it->nanoseconds);
}

static bool tell_some(uint32_t kind, uint32_t queue, uint64_t value, put_count *put, void *with) {
    return value == 0 || put(with, kind, queue, value);
}

/* Those of each queue. One of which nothing but waits was known may be none: it is forgotten. */
static bool tell_tallies(struct counts *it, put_count *put, void *with) {
    bool is_put = true;
    for (size_t place = 0; place < TALLY_PLACES; place++)
        for (struct tally **at = &it->tallies[place]; *at != NULL;) {
            struct tally *tally = *at;
            is_put = is_put && tell_some(COUNTED_WAITS, tally->queue, tally->waits, put, with)
                  && tell_some(COUNTED_SENT, tally->queue, tally->sent, put, with)
                  && tell_some(COUNTED_RECEIVED, tally->queue, tally->received, put, with);
            tally->waits = 0;
            if (tally->sent == 0 && tally->received == 0)
                drop(at);
            else
                at = &tally->next;
        }
    return is_put;
}

bool counts_tell(struct counts *it, put_count *put, void *with) {
    bool are_queues_put = tell_tallies(it, put, with);
    return are_queues_put && put(with, COUNTED_BEGIN, 0, it->began)
        && tell_each(it->calls, OPERATIONS, COUNTED_CALLS, put, with)
        && tell_each(it->refused, CODES, COUNTED_REFUSALS, put, with) && put(with, COUNTED_CAME, 0, it->clients)
        && tell_each(it->turned_away, REFUSALS, COUNTED_TURNED_AWAY, put, with) && tell_groups(it, put, with)
        && tell_some(COUNTED_UNTOLD, 0, it->untold, put, with);
}
