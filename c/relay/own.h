/* Requests that the relay answers by itself: what it counts, and who follows a queue. */
#ifndef MSGQ_OWN_H
#define MSGQ_OWN_H

#include "clients.h"

/* Does what a frame asks for where that is the relay's own, and says whether it was. A Follow becomes a Stat of the
 * queue, by which the core says who may: it is still to be handed over. */
bool own_ask(struct clients *it, struct client *client, uint8_t *frame);

#endif
