/* XSI message queues in one file: msgget, msgsnd, msgrcv and msgctl between the threads of a process, kept in a file from
 * one process to the next; or between any number of processes, where a server has the file (msgq serve).
 *
 * What each call is answered is proved: it is what the rules of queues say (docs/QUEUES.md), one call at a time, in the order in
 * which they come to the lock. What is proved speaks of memory: the file is read into it when it is opened, and written from it
 * by msgq_save. This part, the lock, the waits and the files, is tested.
 *
 * Each function gives 0 or the number of an error, as those of POSIX threads do; errno is not used. msgq_reason has a sentence
 * for it. Any thread may call at any time, but not a signal handler, and msgq_close is the last call.
 *
 * Calls on a file that is opened are made as the process, and its effective user and group, of the moment of msgq_open: by them
 * the modes of queues are tested (docs/QUEUES.md, "Owners and modes"). Who may read or write the file may read or change all of it.
 * Of who calls a server the system tells it the same, at each thread's first call and anew where it has changed.
 *
 * The child of a fork has none of its parent's files: each call on one is refused ENOTSUP. What it does, and its end, changes
 * nothing for its parent. It may open the file itself once its parent has closed it, and any other file at once. A handle of a
 * server it may use as its parent does.
 */
#ifndef MSGQ_H
#define MSGQ_H

#include <stddef.h>
#include <stdint.h>
#include <time.h>

/* By -std=c99 alone <time.h> does not have it: msgq_within gives a limit of time there. */
struct timespec;

#ifdef __cplusplus
extern "C" {
#endif

/* A file of queues that is open, or a server of one: the calls are the same. */
typedef struct msgq msgq;

/* The key of a queue that no key leads to (IPC_PRIVATE). Other keys are 0 to 4,294,967,295. */
#define MSGQ_PRIVATE ((int64_t)-1)

/* Flags of msgq_get, beside nine bits of mode: IPC_CREAT and IPC_EXCL. */
#define MSGQ_CREATE 01000
#define MSGQ_EXCLUSIVE 02000

/* Flags of msgq_send and msgq_receive: IPC_NOWAIT and MSG_NOERROR. */
#define MSGQ_NOWAIT 04000
#define MSGQ_NOERROR 010000

/* One more: where a server is lost while the call waits, it is made again of the next one, and not told ECONNRESET. What the lost
 * one had done all the same is then not known: a message that it had taken is lost, and one that it had put stands twice. */
#define MSGQ_AGAIN 0100000

/* No message has more bytes: send the name of a file in the place of what is longer. */
#define MSGQ_MAX_BODY 1024

/* A message that was received, but for its bytes. */
struct msgq_message {
    uint64_t serial; /* its number on its queue, from 1 on */
    int64_t type;
    size_t length;   /* how many bytes it has */
    uint32_t sender; /* the process that sent it */
};

/* What is known of a queue (struct msqid_ds). Moments are in seconds, 0 before the first. */
struct msgq_info {
    uint64_t stime, rtime, ctime;
    uint32_t id;
    int64_t key; /* MSGQ_PRIVATE for none */
    uint32_t qnum, cbytes, qbytes;
    uint32_t lspid, lrpid;
    uint32_t uid, gid, cuid, cgid;
    uint16_t mode;
};

/* What msgq_set changes: qbytes, up to 65,536, always; the others where they are not -1. */
struct msgq_change {
    uint32_t qbytes;
    int64_t uid, gid;
    int32_t mode;
};

/* Makes a file of so many pages of 4,096 bytes, 258 to 65,536, without queues. EEXIST where there is one of this name; EBUSY where
 * another process is making it; EINVAL for another number of pages. It has its name once it is whole and on the disk: until then
 * it stands beside it, with .unmade behind its name, and what a process that was killed has left there the next one removes. */
int msgq_create(const char *path, uint32_t pages);

/* Opens a file, which is checked whole. EBUSY where a process has it open to change it, be it `msgq run` or this library;
 * EBADMSG where something is wrong with it (msgq_last_fault); ENOMEM; or what the system says. What a process that was
 * killed while it saved has left is undone first, and the calls that a server had answered which was killed are brought into it. */
int msgq_open(const char *path, msgq **queues);

/* The same, but waits while another process has the file open, or this one: without end where limit is NULL, else for so long at
 * most, and then ETIMEDOUT. It looks 200 times a second. Who of several gets it first is not said. While a file is open no other
 * process sends to it or receives from it: who waits for another process closes it meanwhile. */
int msgq_open_wait(const char *path, const struct timespec *limit, msgq **queues);

/* Connects to a server, by the path of its socket. ENOENT or ECONNREFUSED where nobody serves; ETIMEDOUT or EPROTO where who has the
 * socket does not greet as a server does; or what the system says.
 *
 * Each thread has a connection of its own, which is made at its first call and ends with it. A signal whose handler returns ends a
 * wait: EINTR, also where it restarts calls. Where the server ends in order, calls that wait are made again of the next one, and so
 * is any call that the server has not read: for five seconds, and then ENOTCONN. Where it was killed a call that it had read is told
 * ECONNRESET, and it is not known whether it was made. */
int msgq_connect(const char *socket, msgq **queues);

/* Connects to the server of a file, where it has one: its socket stands beside the file, with .socket behind its name. Else the file is
 * opened. */
int msgq_attach(const char *path, msgq **queues);

/* 1 where a handle is of a server, 0 where this process has the file open. */
int msgq_is_served(const msgq *queues);

/* A limit of so many milliseconds; NULL, which is none, for a number below 0. It is the thread's, and stands until the thread
 * calls this again: msgq_receive(queues, id, 0, room, sizeof room, 0, msgq_within(50), &got). */
const struct timespec *msgq_within(int64_t milliseconds);

/* The id of a key's queue, or of a new one, whose owner is the caller. */
int msgq_get(msgq *queues, int64_t key, int flags, uint32_t *id);

/* Puts a message of up to MSGQ_MAX_BODY bytes, of a type from 1 on, last on a queue. Waits while there is no room: without end
 * where limit is NULL, else for so long at most, and then ETIMEDOUT. */
int msgq_send(msgq *queues, uint32_t id, int64_t type, const void *body, size_t length, int flags,
              const struct timespec *limit);

/* A message of several that are put. */
struct msgq_outgoing {
    int64_t type;
    const void *body;
    size_t length;
    uint64_t serial; /* what is told: its number, or 0 where it was not put */
};

/* Puts messages on a queue in their order, as msgq_send does with MSGQ_NOWAIT, up to the first that is refused, and tells what that one is
 * told. A server has up to 32 of them at once, and saves them together. Where others fill the queue meanwhile, a message behind the first
 * that is refused may be put: it has a serial. ECONNRESET where a server is lost: of those without a serial it is not known then. */
int msgq_send_all(msgq *queues, uint32_t id, struct msgq_outgoing *messages, size_t count);

/* Takes the first message (type 0), the first of a type, or the first of the lowest type up to -type (type below 0). Waits as
 * msgq_send does. got may be NULL. */
int msgq_receive(msgq *queues, uint32_t id, int64_t type, void *room, size_t size, int flags,
                 const struct timespec *limit, struct msgq_message *got);

/* Takes a message as msgq_receive does, and keeps it safe until it is dealt with: a server holds it in a queue of its own, whose id is
 * told. msgq_acknowledge ends that, and the message; msgq_release sends it to its queue again, last. It is released where the thread
 * ends that has reserved it, its process, or the server, and so is what a server has left that was killed. So a message is dealt with
 * once or more often, and is not lost unless its queue is removed. There has to be room for MSGQ_MAX_BODY bytes. ENOTSUP on a file
 * that is opened. */
int msgq_reserve(msgq *queues, uint32_t id, int64_t type, void *room, size_t size, int flags,
                 const struct timespec *limit, struct msgq_message *got, uint32_t *holding);

/* EINVAL for an id that no message is held by, EPERM where another user has reserved it. */
int msgq_acknowledge(msgq *queues, uint32_t holding);
int msgq_release(msgq *queues, uint32_t holding);

int msgq_stat(msgq *queues, uint32_t id, struct msgq_info *info);
int msgq_set(msgq *queues, uint32_t id, const struct msgq_change *change);
int msgq_remove(msgq *queues, uint32_t id);

/* The least id above this one whose queue is alive; ENOENT where there is none. On a file that is opened it looks at each id in
 * between. */
int msgq_list(msgq *queues, uint32_t after, uint32_t *id);

/* Writes what has changed to the file. What was answered before it then outlasts the process and the machine; one that is
 * killed meanwhile leaves the file as it was or as it is now. Where it fails the file is to be opened anew: each further
 * msgq_save is told EIO. A server that is durable has saved all that it has answered; of another it is asked for here. */
int msgq_save(msgq *queues);

/* What was answered before it outlasts the process and the machine, as behind msgq_save, and it is told what that is told. The calls are
 * noted in the journal, with one wait for the disk; a save has three, and writes pages. Any opening makes them again, and so does each
 * command of msgq, once nobody has the file open. Until then, or the next msgq_save or msgq_close, who reads the file sees it as it was saved
 * last, and a copy needs its journal too. It saves where calls came to more than a mebibyte since it was called last, the journal is long,
 * or a call was told ENOSPC for want of room since the last save; and at a server. */
int msgq_note(msgq *queues);

/* From here on a call that would wait is told EINTR, also one that waits now. The mark is not saved. ENOTSUP of a server. */
int msgq_stop(msgq *queues);

/* Saves, and lets go of the file. EBUSY while a call waits, or what msgq_save says: then the file stays open. Of a server it lets go
 * without a save. */
int msgq_close(msgq *queues);

/* Lets go of the file without a save: it is as it was saved last, or noted. EBUSY while a call waits. */
int msgq_abandon(msgq *queues);

/* The serial of the message that this thread has sent last; 0 before the first. */
uint64_t msgq_last_serial(void);

/* The number of docs/FAULTS.md that stands behind the last error that this thread was told; 0 where none does. */
unsigned msgq_last_fault(void);

/* Why the last call of this thread was not done, in a sentence that names the file and the queue or the page, as the program
 * msgq says it: "queues: queue 77: ENOENT: no queue has this key". Empty where it was done. It stands until the thread's next
 * call. */
const char *msgq_reason(void);

#ifdef __cplusplus
}
#endif

#endif
