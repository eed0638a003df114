/* Queues in records. */
#include "records.h"

#include <errno.h>
#include <stddef.h>
#include <string.h>

static struct key key_of(uint32_t queue, uint64_t serial) {
    struct key it = {queue, (uint32_t)serial, (uint32_t)(serial >> 32)};
    return it;
}

/* ---- queues */

static bool load(struct records *it, uint32_t id) {
    struct key key = key_of(id, 0);
    return id != 0 && it->fetch(it->at, &key, &it->queue, sizeof it->queue) != 0;
}

static void save(struct records *it, uint32_t id) {
    struct key key = key_of(id, 0);
    it->put(it->at, &key, &it->queue, offsetof(struct queue, rows) + it->queue.count * sizeof *it->queue.rows);
}

uint32_t records_get(void *with) {
    struct records *it = with;
    struct key key = key_of(0, 0);
    uint32_t id = 0;
    (void)it->fetch(it->at, &key, &id, sizeof id);
    id++;
    it->put(it->at, &key, &id, sizeof id);
    it->queue.head = new_head(&it->caller);
    it->queue.count = 0;
    save(it, id);
    return id;
}

/* ---- rows */

/* The first row whose type is not below this one. */
static size_t place_of(const struct queue *queue, int64_t type) {
    size_t low = 0, high = queue->count;
    while (low < high) {
        size_t middle = low + (high - low) / 2;
        if (queue->rows[middle].type < type)
            low = middle + 1;
        else
            high = middle;
    }
    return low;
}

static bool has_type(const struct queue *queue, size_t place, int64_t type) {
    return place < queue->count && queue->rows[place].type == type;
}

/* The row whose first message a type selects; as many as there are for none. */
static size_t selected(const struct queue *queue, int64_t type) {
    size_t place = 0;
    if (type > 0) {
        place = place_of(queue, type);
        return has_type(queue, place, type) ? place : queue->count;
    }
    if (type < 0)
        return queue->count > 0 && queue->rows[0].type + type <= 0 ? 0 : queue->count;
    for (size_t at = 1; at < queue->count; at++)
        if (queue->rows[at].first < queue->rows[place].first)
            place = at;
    return place;
}

static void add_row(struct queue *queue, size_t place, int64_t type, uint64_t serial) {
    struct row *row = &queue->rows[place];
    memmove(row + 1, row, (queue->count - place) * sizeof *row);
    *row = (struct row){type, serial, serial};
    queue->count++;
}

static void drop_row(struct queue *queue, size_t place) {
    struct row *row = &queue->rows[place];
    queue->count--;
    memmove(row, row + 1, (queue->count - place) * sizeof *row);
}

/* ---- messages */

static size_t size_of(size_t length) {
    return offsetof(struct message, body) + length;
}

/* Reads a message, and tells the bytes of its body. */
static size_t load_message(struct records *it, const struct key *key) {
    size_t size = it->fetch(it->at, key, &it->message, sizeof it->message);
    must(size >= size_of(0) && size <= size_of(MOST_BODY), "a message is not there");
    return size - size_of(0);
}

/* Puts a message behind the one that was the last of its type. */
static void link(struct records *it, uint32_t id, uint64_t last, uint64_t next) {
    struct key key = key_of(id, last);
    size_t length = load_message(it, &key);
    it->message.next = next;
    it->put(it->at, &key, &it->message, size_of(length));
}

int records_send(void *with, uint32_t id, int64_t type, const void *body, size_t length, uint64_t *serial) {
    struct records *it = with;
    struct queue *queue = &it->queue;
    int wrong = load(it, id) ? refuse_send(&queue->head, &it->caller, type, length) : EINVAL;
    if (wrong != 0)
        return wrong;
    *serial = queue->head.next_serial;
    size_t place = place_of(queue, type);
    if (has_type(queue, place, type)) {
        link(it, id, queue->rows[place].last, *serial);
        queue->rows[place].last = *serial;
    } else
        add_row(queue, place, type, *serial);
    struct key key = key_of(id, *serial);
    it->message.next = 0;
    it->message.sender = it->caller.pid;
    memcpy(it->message.body, body, length);
    it->put(it->at, &key, &it->message, size_of(length));
    note_send(&queue->head, &it->caller, length);
    save(it, id);
    return 0;
}

int records_receive(void *with, uint32_t id, int64_t type, void *room, size_t size, struct answer *answer) {
    struct records *it = with;
    struct queue *queue = &it->queue;
    int wrong = load(it, id) ? refuse_receive(&queue->head, &it->caller) : EINVAL;
    if (wrong != 0)
        return wrong;
    size_t place = selected(queue, type);
    if (place >= queue->count)
        return ENOMSG;
    struct row *row = &queue->rows[place];
    struct key key = key_of(id, row->first);
    size_t length = load_message(it, &key);
    if (length > size)
        return E2BIG;
    *answer = (struct answer){row->type, row->first, length};
    memcpy(room, it->message.body, length);
    it->drop(it->at, &key);
    if (it->message.next == 0)
        drop_row(queue, place);
    else
        row->first = it->message.next;
    note_receive(&queue->head, &it->caller, length);
    save(it, id);
    return 0;
}
