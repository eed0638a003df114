/* Requests of docs/PROTOCOL.md, as the relay reads them: by which operation, of which queue. */
#ifndef MSGQ_FRAMES_H
#define MSGQ_FRAMES_H

#include "clients.h"

enum { LEAST_FRAME = 12, MOST_FRAME = 1044 }; /* what follows the length */

enum operation {
    SEND = 2, RECEIVE = 3, STAT = 4, REMOVE = 6, CANCEL = 11, RESERVE = 12, ACKNOWLEDGE = 13, RELEASE = 14,
    /* the relay's own */
    COUNTS = 32, FOLLOW = 33,
};

uint32_t frame_number(const uint8_t *frame);
uint8_t frame_operation(const uint8_t *frame);
uint32_t frame_id(const uint8_t *frame);

/* Whether nothing stands in it but its number, its operation and an id. */
bool frame_is_plain(const uint8_t *frame);

/* Notes what is known of a request by its frame. */
void frame_read(struct asked *asked, const uint8_t *frame);

/* Makes of a call that may wait one that does not. */
void frame_try(uint8_t *frame);

/* Makes of a frame a Stat of the queue that it names. */
void frame_make_stat(uint8_t *frame);

#endif
