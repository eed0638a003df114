/* How long it is looked for what comes before a sleep: a sleep and its end cost more than a call does. */
#ifndef MSGQ_LOOKOUT_H
#define MSGQ_LOOKOUT_H

#include <stdbool.h>
#include <stdint.h>

struct lookout {
    bool is_alone;        /* there is one processor, which who is looked for needs */
    bool has_room;        /* there are enough that the core may look too */
    unsigned calm;        /* looks since another process had the processor for long, up to CALM */
    unsigned trust;       /* how often it is looked for in vain before that is left */
    unsigned skipped;     /* waits without a look */
    unsigned looks;       /* in vain, this time */
    uint64_t since, last; /* when the first of them was and the last, in nanoseconds */
};

void lookout_begin(struct lookout *it);

/* Whether it is to be looked for: not where that was in vain again and again, as beside a slow disk, or with nobody who
 * asks. */
bool lookout_opens(struct lookout *it);

/* Whether the core is to look too, which takes a processor of its own. */
bool lookout_is_for_two(const struct lookout *it);

/* Whether it is to be looked for once more, behind a look in vain at this moment. */
bool lookout_goes_on(struct lookout *it, uint64_t now);

/* Notes whether something came, at this moment. */
void lookout_closes(struct lookout *it, bool is_found, uint64_t now);

#endif
