/* Transfers of a file and its journal, one after another. */
#include "orders.h"
#include "reason.h"

#include <errno.h>
#include <stdlib.h>

/* Writes so many zeros, which begin no entry of a journal. */
static int write_zeros(const struct opened *it, uint64_t count, uint64_t at) {
    /* (no constant, which would take as many bytes of the library's file) */
    static uint8_t zeros[64 << 10];
    int wrong = 0;
    for (uint64_t done = 0, part; wrong == 0 && done < count; done += part) {
        part = count - done < sizeof zeros ? count - done : sizeof zeros;
        wrong = write_at(it, zeros, (size_t)part, at + done);
    }
    return wrong;
}

/* Makes a transfer. What is read stands in the bytes behind it. */
static int make(const struct pair *pair, const struct order *order, uint8_t *bytes) {
    switch (order->kind) {
    case READ_JOURNAL:
        return of_journal(read_at(&pair->journal, bytes, order->length, order->at));
    case READ_FILE:
        return read_at(&pair->file, bytes, order->length, order->at);
    case WRITE_JOURNAL:
    case WRITE_CALLS:
        return of_journal(write_at(&pair->journal, bytes, order->length, order->at));
    case WRITE_ZEROS:
        return of_journal(write_zeros(&pair->journal, order->length, order->at));
    case WRITE_FILE:
        return write_at(&pair->file, bytes, order->length, order->at);
    case CUT_JOURNAL:
        return of_journal(cut_at(&pair->journal, 0));
    case CUT_FILE:
        return cut_at(&pair->file, order->at);
    case SYNC_JOURNAL:
        return of_journal(sync_it(&pair->journal));
    case SYNC_JOURNAL_BYTES:
        return of_journal(sync_bytes(&pair->journal));
    case SYNC_FILE_BYTES:
        return sync_bytes(&pair->file);
    default: /* SYNC_FILE */
        return sync_it(&pair->file);
    }
}

/* Room for the bytes of a transfer. Of calls that are read there may be more than of a page. */
struct room {
    uint8_t first[ORDER_BYTES], *bytes, *more;
    size_t count;
};

static int take_room(struct room *room, size_t count) {
    if (count <= room->count)
        return 0;
    uint8_t *more = realloc(room->more, count);
    if (more == NULL)
        return ENOMEM;
    room->bytes = room->more = more;
    room->count = count;
    return 0;
}

/* The calls that are noted stand in the room of the pair, between what is written before them and behind. Where no head is written less goes
 * before them. */
static uint32_t next_of_note(const struct teller *it, struct order *order, uint8_t **bytes) {
    uint8_t *front = it->pair->room, *end = front + FRONT_BYTES + it->count + DIGEST_BYTES;
    uint32_t code = msgq_session_note_next(it->session, order, front, end - DIGEST_BYTES);
    if (code == DONE && order->kind == WRITE_CALLS)
        *bytes = end - order->length;
    return code;
}

/* Asks which one is next. What is to be written stands in `bytes`, which are led elsewhere where it does not. */
static uint32_t next_of(const struct teller *it, struct order *order, uint8_t **bytes) {
    switch (it->of) {
    case SAVE:
        return msgq_session_save_next(it->session, order, *bytes);
    case NOTE:
        return next_of_note(it, order, bytes);
    default: /* RECOVERY */
        return msgq_recovery_next(&it->pair->recovery, order, *bytes);
    }
}

/* Tells how it went, and what was read. */
static uint32_t told_to(const struct teller *it, const struct room *room, bool is_done) {
    switch (it->of) {
    case SAVE:
        return msgq_session_save_told(it->session, room->bytes, is_done);
    case NOTE:
        return msgq_session_note_told(it->session, room->bytes, is_done);
    default: /* RECOVERY */
        return msgq_recovery_told(&it->pair->recovery, room->bytes, room->count, is_done);
    }
}

/* Makes one, or has a session make calls again that were read last. */
static int make_one(const struct teller *teller, const struct order *order, uint8_t *bytes, struct room *room) {
    bool is_read = order->kind == READ_JOURNAL || order->kind == READ_FILE;
    if (order->kind == REMAKE)
        return error_of(msgq_session_remake(teller->session, bytes + order->at, order->length));
    int wrong = is_read ? take_room(room, order->length) : 0;
    return wrong != 0 ? wrong : make(teller->pair, order, is_read ? room->bytes : bytes);
}

int make_all(const struct teller *teller) {
    struct room room = {.count = ORDER_BYTES};
    struct order order;
    int wrong = 0;
    room.bytes = room.first;
    while (wrong == 0) {
        uint8_t *bytes = room.bytes;
        if ((wrong = error_of(next_of(teller, &order, &bytes))) != 0 || order.kind == OVER)
            break;
        wrong = make_one(teller, &order, bytes, &room);
        uint32_t code = told_to(teller, &room, wrong == 0);
        if (wrong == 0)
            wrong = error_of(code);
    }
    free(room.more);
    return wrong;
}
