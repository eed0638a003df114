/* Jobs in hand (docs/SHELL.md, "A job in hand"). A message that a worker has taken stands in a private queue, the
 * worker's hand, behind a label that says from which queue it is; the worker locks the hand's byte of FILE.held. A
 * hand without a job has its label alone, and is used again, since no id is given out twice. All of this is done on a
 * file that is open, and lasts once that is saved. Each function gives 0 or the number of an error, whose sentence
 * msgq_reason has where the library told it. */
#ifndef MSGQ_JOBS_H
#define MSGQ_JOBS_H

#include "../msgq.h"
#include "held.h"

/* The type of a label: `msgq do` in ASCII. */
#define LABEL_TYPE ((int64_t)0x6d73677120646f)

enum { LABEL_BYTES = 96, MOST_HANDS = 256 };

struct job {
    uint32_t queue, hand;
    struct msgq_message message;
    char body[MSGQ_MAX_BODY];
    char label[LABEL_BYTES]; /* by which the hand is known to be this job's */
    bool lasts;              /* the hand, behind the job */
};

/* The private queues of a file that may be hands, and what became of the jobs of dead workers. */
struct hands {
    unsigned returned, dropped; /* jobs that are back in their queues, and whose queue was removed */
    unsigned stuck;             /* that could not be given back, for want of room or of a right, and stay */
    unsigned busy_count, idle_count;
    uint32_t busy[MOST_HANDS], idle[MOST_HANDS]; /* whose worker lives; that have one message */
    bool is_spoilt; /* the file is to be abandoned: a job could be neither given back nor put back */
};

/* Gives back what dead workers have in hand, last of its queue with its bytes and its type, and lists the hands. The
 * hand `own` is passed over, 0 for none. */
int hands_recover(msgq *queues, const struct held *held, uint32_t own, struct hands *hands);

/* Removes the hands that have no job, and tells how many. */
int hands_clear(msgq *queues, const struct held *held, const struct hands *hands, unsigned *removed);

/* Takes the message of a queue that a type selects in hand, an idle one of these where there are any, and locks the
 * hand. Where `hands` is NULL it is a new one, which ends with the job: so the file need not have room for the label
 * of an idle one. ENOMSG where there is none, and nothing has changed; EACCES where the mode lets the caller not both
 * read and write. Where it fails otherwise the file is to be abandoned. */
int job_take(msgq *queues, const struct held *held, const struct hands *hands, uint32_t queue, int64_t type,
             struct job *job);

/* Takes a job out for good. ENOENT where it is in this hand no longer. Where it fails the file is to be abandoned. */
int job_finish(msgq *queues, const struct job *job);

/* Gives a job back, last of its queue. ENOENT as above; EIDRM where the queue was removed, and the job with it: then
 * the file is to be closed, and where it fails otherwise abandoned, and the job stays in hand. */
int job_return(msgq *queues, const struct job *job);

#endif
