/* Who follows a queue: each message that is sent to it is told of, as it comes. */
#ifndef MSGQ_FOLLOWERS_H
#define MSGQ_FOLLOWERS_H

#include "traffic.h"

/* Begins to tell a client, whom the core has told of the queue, or has refused: then that is its answer. */
void followers_begin(struct clients *it, struct client *client, const struct asked *asked, struct told *told);

/* A message was sent by a process, and has got this serial (8 bytes). Who does not read is told how many it missed,
 * once it does. */
void followers_tell(struct clients *it, const struct asked *sent, uint32_t sender, const uint8_t *serial);

/* The queue is gone. */
void followers_end(struct clients *it, uint32_t queue);

/* Ends the telling of this number, where it has begun or is about to. False where there is none. */
bool followers_cancel(struct clients *it, struct client *client, uint32_t number);

/* Tells a client how many messages it missed. */
void followers_catch_up(struct clients *it, struct client *client);

/* The server ends. */
void followers_stop(struct clients *it, struct client *client);

/* A client has gone. */
void followers_lose(struct clients *it, struct client *client);

#endif
