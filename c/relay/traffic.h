/* What the parts of clients.h share: one client's bytes. */
#ifndef MSGQ_TRAFFIC_H
#define MSGQ_TRAFFIC_H

#include "clients.h"

/* Codes of answers (docs/PROTOCOL.md). */
enum { CODE_EAGAIN = 2, CODE_EIDRM = 4, CODE_ENOMSG = 8, NO_MEMORY = 60, CANCELLED = 200, ENDS = 201, WRONG_FRAME = 203 };

/* The client of a connection, NULL for none. */
struct client *client_of(struct clients *it, uint32_t number);

/* Sees to it that epoll looks for what is wanted of it. */
void client_watch(struct clients *it, struct client *client);

/* Puts bytes behind those that wait for a client, which is due from then on. False where there is no memory. */
bool client_put(struct clients *it, struct client *client, const uint8_t *bytes, size_t count);

/* The same of an answer. Where there is no memory the client is lost. */
struct told {
    uint32_t number, code, value;
    const uint8_t *fields;
    size_t count;
};
void client_tell(struct clients *it, struct client *client, const struct told *told);

/* How many bytes of answers wait for a client. */
size_t client_waits(const struct client *client);

/* Writes what waits for a client, as much as it takes. */
void client_flush(struct clients *it, struct client *client);

/* Hands the whole frames that a client has sent to the core, as many as may be under way; or answers them that the server
 * ends, once it does. */
void client_hand_over(struct clients *it, struct client *client);

/* Tells the core that a client is gone, where it knows it. */
void client_forget(struct clients *it, struct client *client);

/* Takes nothing more from a client, which is gone as the core sees it; what it was answered is still written. */
void client_end_behind(struct clients *it, struct client *client);

#endif
