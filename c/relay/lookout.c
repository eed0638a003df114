/* How long it is looked for what comes, and when that is left. */
#include "lookout.h"

#include <sched.h>

enum {
    LOOK = 50000, /* nanoseconds: some ways from one process to another and back */
    MOST_LOOKS = 10000,
    TRUST = 16,
    SKIPPED = 64, /* waits without a look, until one is tried again */
    ROOM = 4,     /* processors: while the relay and the core look, as many are left to clients */
    CALM = 4096,  /* looks without another process between them, until the core may look again */
};

void lookout_begin(struct lookout *it) {
    cpu_set_t processors;
    bool is_told = sched_getaffinity(0, sizeof processors, &processors) == 0;
    int count = is_told ? CPU_COUNT(&processors) : 1;
    *it = (struct lookout){.is_alone = count < 2, .has_room = count >= ROOM, .trust = TRUST, .calm = CALM};
}

bool lookout_opens(struct lookout *it) {
    if (it->is_alone || (it->trust == 0 && ++it->skipped < SKIPPED))
        return false;
    it->skipped = it->looks = 0;
    it->calm += it->calm < CALM;
    return true;
}

bool lookout_is_for_two(const struct lookout *it) {
    return it->has_room && it->calm == CALM;
}

/* Notes the moment of a look. */
static void note(struct lookout *it, uint64_t now) {
    if (it->looks == 0)
        it->since = now;
    else if (now - it->last > LOOK)
        it->calm = 0;
    it->last = now;
}

bool lookout_goes_on(struct lookout *it, uint64_t now) {
    note(it, now);
    it->looks++;
    /* (another process may wait for this very processor) */
    (void)sched_yield();
    return now - it->since < LOOK && it->looks < MOST_LOOKS;
}

void lookout_closes(struct lookout *it, bool is_found, uint64_t now) {
    note(it, now);
    if (is_found)
        it->trust += it->trust < TRUST;
    else
        it->trust -= it->trust > 0;
}
