/* The tests and the accounts of docs/QUEUES.md, "Calls". */
#include "head.h"
#include "store.h"

#include <errno.h>
#include <time.h>
#include <unistd.h>

enum { READ = 4, WRITE = 2, MODE = 0600 };

struct caller this_caller(void) {
    struct caller it = {(uint32_t)getpid(), (uint32_t)geteuid(), (uint32_t)getegid()};
    return it;
}

struct head new_head(const struct caller *caller) {
    struct head it = {.ctime = (uint64_t)time(NULL), .next_serial = 1, .qbytes = QBYTES, .uid = caller->uid, .gid = caller->gid,
                      .cuid = caller->uid, .cgid = caller->gid, .mode = MODE};
    return it;
}

static bool lacks(const struct head *head, const struct caller *caller, uint32_t access) {
    uint32_t digit = head->mode;
    if (caller->uid == head->uid || caller->uid == head->cuid)
        digit >>= 6;
    else if (caller->gid == head->gid || caller->gid == head->cgid)
        digit >>= 3;
    return caller->uid != 0 && (digit & access) == 0;
}

int refuse_send(const struct head *head, const struct caller *caller, int64_t type, size_t length) {
    if (type < 1 || length > MOST_BODY)
        return EINVAL;
    if (lacks(head, caller, WRITE))
        return EACCES;
    return head->cbytes + length > head->qbytes || head->qnum >= MOST_MESSAGES ? EAGAIN : 0;
}

int refuse_receive(const struct head *head, const struct caller *caller) {
    return lacks(head, caller, READ) ? EACCES : 0;
}

void note_send(struct head *head, const struct caller *caller, size_t length) {
    head->next_serial++;
    head->qnum++;
    head->cbytes += (uint32_t)length;
    head->lspid = caller->pid;
    head->stime = (uint64_t)time(NULL);
}

void note_receive(struct head *head, const struct caller *caller, size_t length) {
    head->qnum--;
    head->cbytes -= (uint32_t)length;
    head->lrpid = caller->pid;
    head->rtime = (uint64_t)time(NULL);
}
