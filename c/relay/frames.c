/* Frames are read. */
#include "frames.h"
#include "numbers.h"

#include <string.h>

enum { AT_NUMBER = 4, AT_OPERATION = 8, AT_FLAGS = 9, AT_MODE = 10, AT_ID = 12, AT_FIELDS = 16, NO_WAIT = 1 };

uint32_t frame_number(const uint8_t *frame) {
    return get_u32(frame + AT_NUMBER);
}

uint8_t frame_operation(const uint8_t *frame) {
    return frame[AT_OPERATION];
}

uint32_t frame_id(const uint8_t *frame) {
    return get_u32(frame + AT_ID);
}

bool frame_is_plain(const uint8_t *frame) {
    return get_u32(frame) == LEAST_FRAME && frame[AT_FLAGS] == 0 && frame[AT_MODE] == 0 && frame[AT_MODE + 1] == 0;
}

void frame_read(struct asked *asked, const uint8_t *frame) {
    uint32_t length = get_u32(frame);
    uint8_t operation = frame[AT_OPERATION];
    bool may_wait = operation == SEND || operation == RECEIVE || operation == RESERVE;
    asked->number = frame_number(frame);
    asked->queue = frame_id(frame);
    asked->untold = asked->length = 0;
    asked->operation = operation;
    asked->may_wait = may_wait && (frame[AT_FLAGS] & NO_WAIT) == 0;
    asked->is_tried = asked->is_begun = asked->is_ended = false;
    if (operation == SEND && length >= LEAST_FRAME + 8) {
        asked->type = (int64_t)(get_u32(frame + AT_FIELDS) | (uint64_t)get_u32(frame + AT_FIELDS + 4) << 32);
        asked->length = (uint16_t)(length - LEAST_FRAME - 8);
        memcpy(asked->start, frame + AT_FIELDS + 8, asked->length < BODY_START ? asked->length : BODY_START);
    }
}

void frame_try(uint8_t *frame) {
    frame[AT_FLAGS] |= NO_WAIT;
}

void frame_make_stat(uint8_t *frame) {
    frame[AT_OPERATION] = STAT;
}
