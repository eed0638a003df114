/* What a server counts from its start on, and tells who asks for it (docs/PROTOCOL.md, "What the relay itself answers"). */
#ifndef MSGQ_COUNTS_H
#define MSGQ_COUNTS_H

#include <stdbool.h>
#include <stddef.h>
#include <stdint.h>

/* Why a connection was not had. */
enum refusal { TOO_MANY = 1, TOO_MANY_OF_ONE_USER, LACKS_ROOM, IS_ELSEWHERE, REFUSALS };

enum { OPERATIONS = 34, CODES = 256, TIMES = 14, TALLY_PLACES = 256, COUNT_BYTES = 16 };

/* The messages of a queue that were sent and received through this server, and calls under way that may wait. */
struct tally {
    uint32_t queue;
    uint64_t sent, received, waits;
    struct tally *next;
};

struct counts {
    uint64_t began;             /* in seconds since the beginning of 1970 */
    uint64_t calls[OPERATIONS]; /* that were answered, by operation; 0 for any other */
    uint64_t refused[CODES];    /* of these, by the code of the answer */
    uint64_t clients, turned_away[REFUSALS];
    uint64_t untold;            /* messages that a follower was not told of */
    /* Groups: from the moment at which the core had the calls to that at which it has answered them. */
    uint64_t groups, nanoseconds, within[TIMES];
    uint64_t latest;   /* when the last one of the calls that were answered together was handed over; 0 for none */
    uint64_t answered; /* when the core has answered last, or something was handed over that has no answer */
    struct tally *tallies[TALLY_PLACES];
};

/* A call was answered, which was handed over at this moment. */
void counts_answered(struct counts *it, uint32_t operation, uint32_t code, uint64_t since);

/* A message was sent to a queue, or was received from it. */
void counts_message(struct counts *it, uint32_t queue, bool is_sent);
/* A queue is gone. */
void counts_removed(struct counts *it, uint32_t queue);

/* Something was handed over that has no answer. */
void counts_told(struct counts *it, uint64_t now);

/* The core has answered together what was counted since the last time. */
void counts_group(struct counts *it, uint64_t now);

/* What is told, each with a label (docs/PROTOCOL.md has them too). */
enum counted {
    COUNTED_BEGIN = 1,
    COUNTED_CALLS,       /* label: the operation */
    COUNTED_REFUSALS,    /* the code */
    COUNTED_CLIENTS,     /* that are connected */
    COUNTED_CAME,
    COUNTED_TURNED_AWAY, /* why: enum refusal */
    COUNTED_WAITS,       /* the queue: calls under way that may wait */
    COUNTED_SENT,        /* the queue */
    COUNTED_RECEIVED,    /* the queue */
    COUNTED_GROUPS,      /* that took no longer than so many microseconds; the greatest number: all */
    COUNTED_TIME,        /* of all groups, in nanoseconds */
    COUNTED_FOLLOWERS,
    COUNTED_UNTOLD,
};

/* Calls `put` for each of these that is not 0, and for each of the times. False where that is. */
bool counts_tell(struct counts *it, bool (*put)(void *with, uint32_t kind, uint32_t label, uint64_t value), void *with);

/* A call under way may wait, of those that are told next. */
void counts_wait(struct counts *it, uint32_t queue);

void counts_end(struct counts *it);

#endif
