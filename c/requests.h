/* Each request of a client (docs/PROTOCOL.md) by its fields. Each function gives the number that line.h says: 0, a code, or below 0 the
 * number of an error. Flags are those of line.h. */
#ifndef MSGQ_REQUESTS_H
#define MSGQ_REQUESTS_H

#include "line.h"

/* What is told of a message that is received or reserved. */
struct taken {
    uint64_t serial;
    uint32_t sender, holding; /* the id of the holding queue of one that is reserved */
    size_t length;            /* of its body */
};

/* What is known of a queue. */
struct known {
    uint64_t stime, rtime, ctime;
    uint32_t id, key, qnum, cbytes, qbytes, lspid, lrpid, uid, gid, cuid, cgid;
    uint16_t mode;
    bool has_key;
};

/* What a queue is given. */
struct setting {
    uint8_t flags; /* which of these it is given */
    uint16_t mode;
    uint32_t qbytes, uid, gid;
};

/* What is known of a server. */
struct census {
    uint64_t answered, saves, tries;
    uint32_t queues, waiting, pages, highest; /* the highest id that is alive */
};

int request_get(struct server *server, uint32_t key, uint8_t flags, uint16_t mode, uint32_t *id);

/* Sends a message: its type, 8 bytes, little-endian, and its body behind it, as one part or two. Tells its serial. */
int request_send(struct server *server, uint32_t id, uint8_t flags, const struct iovec *message, size_t parts,
                 const struct waiting *how, uint64_t *serial);

/* The same of several at once, up to MOST_AT_ONCE, which do not wait. 0, and `done` tells of each as server_ask_all does. */
struct outgoing {
    struct iovec message[2];
    uint64_t serial;
    int done;
};
int request_send_all(struct server *server, uint32_t id, struct outgoing *all, size_t count);

/* What selects a message, and where it goes. */
struct selection {
    uint32_t id;
    uint8_t flags;
    int64_t type;
    uint32_t size;               /* no more bytes of a body than that */
    const struct iovec *message; /* its type, 8 bytes, little-endian, and `size` bytes, as one part or two */
    size_t parts;
};

int request_receive(struct server *server, const struct selection *it, const struct waiting *how, struct taken *told);

/* The room of what is reserved has to have as many bytes as a body may have: `size` is not asked for. */
int request_reserve(struct server *server, const struct selection *it, const struct waiting *how, struct taken *told);

int request_stat(struct server *server, uint32_t id, struct known *told);
int request_set(struct server *server, uint32_t id, const struct setting *it);

/* The lowest id above one that has a queue, and that of the queue at a place among all, from 0 on. */
int request_next(struct server *server, uint32_t after, uint32_t *id);
int request_nth(struct server *server, uint32_t place, uint32_t *id);

/* Those that have an id, or none, and neither fields nor an answer's: REMOVE, SAVE, ACKNOWLEDGE, RELEASE. */
int request_plain(struct server *server, enum operation operation, uint32_t id);

int request_info(struct server *server, struct census *told);

#endif
