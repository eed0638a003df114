/* The clients of a server: their connections, what they ask, and what they are answered. */
#ifndef MSGQ_CLIENTS_H
#define MSGQ_CLIENTS_H

#include "core.h"
#include "counts.h"
#include "options.h"
#include "users.h"

#include <stdbool.h>
#include <stddef.h>
#include <stdint.h>

/* What is looked at by epoll(7), whose events point to it. */
enum watched { LISTENER, SIGNALS, TIMER, CORE_IN, CORE_OUT, CLIENT, PROCESS };

struct watch {
    enum watched what;
    int file; /* -1 for none */
};

enum {
    /* A read takes so many bytes at most, which hold several of the longest frames. Together with what is kept for
     * answers a client that rests has less than 16 KiB. */
    IN_BYTES = 6144,
    OUT_BYTES = 4096,
    /* No more is read from a client while so many bytes of its answers wait, or so many of its calls are under way. */
    MOST_OUT = 1 << 18,
    MOST_UNDER_WAY = 64,
    BODY_START = 32, /* as many bytes of a body are told to who follows its queue */
    /* The connection that the relay's own calls have: nobody's, so that their answers go nowhere. */
    OWN_CONNECTION = 1,
    GREETING_BYTES = 36,
};

/* A request that is under way: the core has it, or it is a follower's, which is answered again and again. */
struct asked {
    uint32_t number, queue;
    int64_t type;       /* of a message that is sent */
    uint64_t since;     /* when it was handed over, in nanoseconds */
    uint32_t untold;    /* messages that a follower was not told of */
    uint16_t length;    /* of a body that is sent */
    uint8_t operation;
    bool may_wait : 1;  /* and counts as one of its user's that do */
    bool is_tried : 1;  /* it may not, since its user has too many that do: where it would it is refused */
    bool is_begun : 1;  /* a follower is told */
    bool is_ended : 1;  /* it was cancelled before it was */
    uint8_t start[BODY_START];
};

struct client {
    struct watch socket, process; /* the process behind it, where the system tells its end */
    uint32_t number;              /* of the connection */
    struct caller caller;
    struct user *user;
    struct client *next;          /* of those of one place in the table */
    struct client *next_due;      /* to which is to be written, or which is to be freed */
    struct client *next_follower; /* of those that follow a queue */
    bool is_heard;           /* the core knows it */
    bool is_due, is_gone;
    bool is_ending;     /* it sent a wrong frame: it is gone once its answers are written */
    bool is_held;       /* its next frame is one too many under way, or asks for more than it reads */
    bool is_paused;     /* the core is busy */
    uint32_t events;    /* for which epoll looks */
    uint32_t under_way, follows;
    struct asked asked[MOST_UNDER_WAY]; /* those under way */
    struct pipe_room out;
    size_t in_begin, in_end;
    uint8_t in[IN_BYTES];
};

struct clients {
    int epoll;
    struct core *core;
    struct client **places; /* by their numbers, as many as a power of two */
    uint32_t places_count;
    struct client *due, *gone, *followers;
    struct users users;
    struct bounds most;
    struct counts counts;
    uint64_t now; /* of CLOCK_MONOTONIC, in nanoseconds, as the turn began */
    uint32_t count;
    uint32_t last_number;
    bool is_stopped;  /* no more is handed to the core */
    uint32_t turn;    /* the place whose clients were resumed last */
    bool has_paused;  /* perhaps: somebody may be */
    bool has_traffic; /* something was asked since that was cleared */
    uint64_t told[REFUSALS]; /* when it was said that a connection was not had, of each reason; 0 for never */
    uint8_t greeting[GREETING_BYTES];
};

/* Begins without clients. False where there is no memory. */
bool clients_begin(struct clients *it, const struct bounds *most);

/* Takes a new connection, which is greeted, or closed where it can't be had. False where the numbers of connections
 * are used up. */
bool clients_admit(struct clients *it, int file);

/* What epoll tells of a client's socket, or of its process. */
void clients_hear(struct clients *it, struct client *client, uint32_t events);
void clients_lose(struct clients *it, struct client *client);

/* Hands an answer of the core to its client, where that is still there. */
void clients_answer(struct clients *it, const struct core_answer *answer);

/* Reads those again that were paused while the core was busy. */
void clients_resume(struct clients *it);

/* Writes what waits for those that have got something, and frees those that are gone. */
void clients_flush(struct clients *it);

/* Hands no more to the core: what else is asked is answered that the server ends. */
void clients_stop(struct clients *it);

/* Whether any answer is not written yet. */
bool clients_wait(const struct clients *it);

/* Hangs up on all. */
void clients_end(struct clients *it);

#endif
