/* Standard input is read, whole, before anything is asked of a server. */
#include "inputs.h"
#include "front.h"

#include "../msgq.h"

#include <errno.h>
#include <stdlib.h>
#include <string.h>
#include <unistd.h>

enum { MOST_LINES = 1024, MOST_BYTES = 65536 };

void free_bodies(struct bodies *it) {
    free(it->bytes);
    free(it->ends);
    *it = (struct bodies){NULL, 0, NULL, 0};
}

/* Reads up to one byte more than there may be. */
static int read_all(struct bodies *it, size_t most) {
    if ((it->bytes = malloc(most + 1)) == NULL)
        return ENOMEM;
    while (it->count <= most) {
        ssize_t more = read(STDIN_FILENO, it->bytes + it->count, most + 1 - it->count);
        if (more < 0 && errno == EINTR)
            continue;
        if (more < 0)
            return errno;
        if (more == 0)
            break;
        it->count += (size_t)more;
    }
    return 0;
}

/* Cuts the bytes into lines, each with its end; a line that is too long, or one too many, is said. */
static int cut(struct bodies *it, const char *file) {
    for (size_t at = 0; at < it->count;) {
        const uint8_t *end = memchr(it->bytes + at, '\n', it->count - at);
        size_t behind = end == NULL ? it->count : (size_t)(end - it->bytes) + 1;
        if (behind - at > MSGQ_MAX_BODY) {
            complain("%s: nothing is sent: line %zu of standard input has more than 1024 bytes, as many as a message may "
                     "have",
                     file, it->number + 1);
            return REFUSED;
        }
        if (it->number == MOST_LINES || behind > MOST_BYTES) {
            complain("%s: nothing is sent: standard input has more than the 1024 lines or 65536 bytes that a queue may "
                     "hold",
                     file);
            return REFUSED;
        }
        it->ends[it->number++] = at = behind;
    }
    return DONE;
}

static int cut_one(struct bodies *it, const char *file) {
    if (it->count > MSGQ_MAX_BODY) {
        complain("%s: nothing is sent: standard input has more than 1024 bytes, as many as a message may have", file);
        return REFUSED;
    }
    it->ends[it->number++] = it->count;
    return DONE;
}

int read_bodies(struct bodies *it, bool has_lines, const char *file) {
    *it = (struct bodies){NULL, 0, NULL, 0};
    int wrong = read_all(it, has_lines ? MOST_BYTES : MSGQ_MAX_BODY);
    if (wrong == 0 && (it->ends = calloc(MOST_LINES, sizeof *it->ends)) == NULL)
        wrong = ENOMEM;
    if (wrong == ENOMEM)
        complain("%s: nothing is sent: out of memory", file);
    else if (wrong != 0)
        complain("%s: nothing is sent: standard input can't be read: %s", file, strerror(wrong));
    int status = wrong != 0 ? FAULT : has_lines ? cut(it, file) : cut_one(it, file);
    if (status != DONE)
        free_bodies(it);
    return status;
}
