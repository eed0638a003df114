/* A file of queues and its journal (docs/FORMAT.md, "The journal"). Each function gives 0 or the number of an error. */
#ifndef MSGQ_PAIR_H
#define MSGQ_PAIR_H

#include "session.h"
#include "transfers.h"

struct pair {
    struct opened file, journal;
    struct recovery recovery;  /* under way until the calls of the journal are brought in */
    struct stands stands;      /* the calls that stand in the journal */
    uint8_t sum[DIGEST_BYTES]; /* with which they end */
    uint8_t *room;             /* in which calls are noted, once some were */
};

/* Opens both, locks the journal and recovers them. EBUSY where another has them. */
int pair_open(struct pair *pair, const char *path);

/* Undoes what a save that was cut off has left; where that is nothing, sees to it that this is on the disk. */
int pair_recover(struct pair *pair);

/* The bytes of the file, which are the caller's to free. */
int pair_read(const struct pair *pair, uint8_t **bytes, size_t *count);

/* Makes the calls of the journal again, in a session that was opened from the bytes, and saves it: from there on the file has them. Where
 * that fails the session may be closed, and the next opening makes them again. */
int pair_bring_in(struct pair *pair, struct handle *session);

/* Writes the pages of a session that have changed since it was opened from the file, or last saved to it, which ends the calls in the
 * journal. */
int pair_save(struct pair *pair, struct handle *session);

/* Brings what calls have changed to where it outlasts a crash: they are noted in the journal, or saved where the session wants that, the
 * journal is long, or there is no memory. Where it fails the file is to be opened anew. */
int pair_note(struct pair *pair, struct handle *session);

/* Unlocks and closes both, for the process that opened them. */
void pair_close(struct pair *pair);

/* Closes both for the child of a fork. The lock is its parent's, and stays. */
void pair_leave(struct pair *pair);

#endif
