/* The core: the proved process that has the file, at the other end of two pipes (docs/PROTOCOL.md, "Between the relay
 * and the core"). */
#ifndef MSGQ_CORE_H
#define MSGQ_CORE_H

#include <stdbool.h>
#include <stddef.h>
#include <stdint.h>
#include <sys/types.h>

/* Kinds of what it is told. */
enum kind { REQUEST = 0, GONE = 1, SAVE = 2, END = 3 };

/* Who asks: as the system tells it of a connection. */
struct caller {
    uint32_t process, user, group;
};

/* Bytes that come from one end and leave at the other. */
struct pipe_room {
    uint8_t *bytes;
    size_t begin, end, size;
};

struct core {
    pid_t process; /* 0 for none */
    int in, out;   /* where it reads, and where it writes; -1 once that has ended */
    int far;       /* the end of the pipe that it reads, whose flags are its own too */
    struct pipe_room told, heard;
    bool has_late_save; /* of what waits to be told */
    bool is_looking;
};

/* How a look at its answers has ended. */
enum heard { NOTHING_HEARD, HEARD, CORE_ENDED, CORE_IS_WRONG };

/* What it is told: of a request, the bytes from its number on; of all else none. */
struct record {
    uint32_t connection;
    enum kind kind;
    struct caller caller;
    const uint8_t *request;
    size_t count;
};

/* An answer: the connection that it is for, and the bytes from its number on. */
struct core_answer {
    uint32_t connection;
    const uint8_t *bytes;
    size_t count;
};

/* Starts the program at this path with these words, of which the second is the file, and waits until that is open. The
 * most clients that there are say how much room is taken for what it is told. False where it can't be, which was said.
 * */
bool core_start(struct core *it, const char *program, const char *const *words, uint32_t clients);

/* Whether so much waits to be told that no request may be added. */
bool core_is_busy(const struct core *it);

/* Whether so little waits that clients may be read again. */
bool core_is_free(const struct core *it);

/* Adds a record to what it is told: a request where core_is_busy says no; of a connection that is gone one at most,
 * where it has had a request; and few of the others. */
void core_tell(struct core *it, const struct record *record);

/* Has it look for what it is told again and again, or sleep until that comes: a sleep and its end cost more than a call
 * does. */
void core_look(struct core *it, bool looks);

/* Writes as much of that as its pipe takes. False where it reads no more. */
bool core_flush(struct core *it);

/* Reads what it answers, once, and calls `act` for each whole answer. */
enum heard core_hear(struct core *it, void (*act)(void *with, const struct core_answer *answer), void *with);

/* Tells it that no more comes, waits for its end, and says how that was where it was not by status 0. Gives that back.
 * */
bool core_end(struct core *it, const char *file);

#endif
