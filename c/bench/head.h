/* What is known of a queue but for its messages, and what a call tests and changes of it: the same in each peer that has to do this itself. */
#ifndef MSGQ_HEAD_H
#define MSGQ_HEAD_H

#include <stddef.h>
#include <stdint.h>

struct caller {
    uint32_t pid, uid, gid;
};

struct head {
    uint64_t stime, rtime, ctime, next_serial;
    uint32_t qnum, cbytes, qbytes, lspid, lrpid;
    uint32_t uid, gid, cuid, cgid, mode;
};

/* This process, as it is now. */
struct caller this_caller(void);

/* A queue of a caller, without messages. */
struct head new_head(const struct caller *caller);

/* EINVAL, EACCES, EAGAIN, or 0. */
int refuse_send(const struct head *head, const struct caller *caller, int64_t type, size_t length);

/* EACCES, or 0. */
int refuse_receive(const struct head *head, const struct caller *caller);

/* A message of so many bytes was sent, or received. */
void note_send(struct head *head, const struct caller *caller, size_t length);
void note_receive(struct head *head, const struct caller *caller, size_t length);

#endif
