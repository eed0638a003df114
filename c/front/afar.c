/* Requests and answers, by their frames. */
#include "afar.h"
#include "../relay/numbers.h"

#include <errno.h>
#include <stdlib.h>
#include <string.h>
#include <sys/stat.h>

enum { REQUEST = 16, HEAD = 16, MOST = 1 << 20 }; /* the last one of an answer that is one */
enum { PATIENCE = 10 };                           /* seconds, with a server that does not answer */

/* That of a file stands beside it, with .socket behind its name. */
static bool find_socket(struct afar *it, const char *name) {
    struct stat found;
    size_t length;
    if (realpath(name, it->socket) == NULL || stat(it->socket, &found) != 0)
        return false;
    if (S_ISSOCK(found.st_mode))
        return true;
    if ((length = strlen(it->socket)) + sizeof ".socket" > sizeof it->socket)
        return false;
    memcpy(it->socket + length, ".socket", sizeof ".socket");
    it->is_of_file = true;
    return stat(it->socket, &found) == 0 && S_ISSOCK(found.st_mode);
}

bool afar_begin(struct afar *it, const char *name) {
    *it = (struct afar){.wire = NO_WIRE};
    return find_socket(it, name) && wire_dial(&it->wire, it->socket, NULL) == 0;
}

void afar_end(struct afar *it) {
    wire_hang_up(&it->wire);
    free(it->room);
    it->room = NULL;
}

/* Reads once, behind what is there. What a handler does is no end of it. */
static int read_once(struct afar *it, const struct timespec *end) {
    const struct iovec room = {it->room + it->end, it->size - it->end};
    size_t done = 0;
    int wrong;
    while ((wrong = wire_receive(&it->wire, &room, 1, &(struct endings){.end = end}, &done)) == EINTR)
        ;
    it->end += done;
    return wrong == 0 && done == 0 ? ECONNRESET : wrong;
}

/* Reads until so many bytes are there. */
static int read_up_to(struct afar *it, size_t count, const struct timespec *end) {
    int wrong = 0;
    if (it->begin > 0)
        memmove(it->room, it->room + it->begin, it->end - it->begin);
    it->end -= it->begin;
    it->begin = 0;
    if (it->size < count) {
        size_t size = count < 4096 ? 4096 : count;
        uint8_t *room = realloc(it->room, size);
        if (room == NULL)
            return ENOMEM;
        it->room = room;
        it->size = size;
    }
    while (wrong == 0 && it->end < count)
        wrong = read_once(it, end);
    return wrong;
}

bool afar_has_more(const struct afar *it) {
    return it->begin < it->end;
}

/* The next answer, until a moment. */
static int hear(struct afar *it, const struct timespec *end, struct word *told) {
    int wrong = it->end - it->begin < HEAD ? read_up_to(it, HEAD, end) : 0;
    if (wrong != 0)
        return wrong;
    size_t length = 4 + (size_t)get_u32(it->room + it->begin);
    if (length < HEAD || length > MOST)
        return EPROTO;
    if (it->end - it->begin < length && (wrong = read_up_to(it, length, end)) != 0)
        return wrong;
    const uint8_t *at = it->room + it->begin;
    *told = (struct word){get_u32(at + 4), get_u32(at + 8), get_u32(at + 12), at + HEAD, length - HEAD};
    it->begin += length;
    return 0;
}

int afar_hear(struct afar *it, struct word *told) {
    return hear(it, NULL, told);
}

int afar_ask(struct afar *it, uint8_t operation, uint32_t id, struct word *told) {
    uint8_t frame[REQUEST] = {REQUEST - 4};
    put_u32(frame + 4, ++it->number);
    frame[8] = operation;
    put_u32(frame + 12, id);
    int wrong = wire_send(&it->wire, &(struct iovec){frame, sizeof frame}, 1);
    const struct timespec end = moment_after(moment_now(), (struct timespec){PATIENCE, 0});
    return wrong != 0 ? wrong : hear(it, &end, told);
}
