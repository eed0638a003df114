/* A command of a shell that makes calls on a queue, as it is asked for. */
#ifndef MSGQ_ERRAND_H
#define MSGQ_ERRAND_H

#include "words.h"

#include <stdbool.h>
#include <stdint.h>
#include <time.h>

enum deed { SENDS, RECEIVES, MAKES, REMOVES, SETS };

/* What is set of a queue; below 0 what is not. */
struct settings {
    int64_t qbytes, owner, group;
    int32_t mode;
};

struct errand {
    enum deed deed;
    const char *file;
    struct name queue;
    bool is_private; /* of `make`: no key leads to it */
    bool creates, has_pages;
    struct settings settings;
    int64_t type;
    bool has_lines, tells_serials, names_input; /* of `send` */
    bool takes_all, has_header, may_cut;        /* of `receive` */
    uint32_t size;
    bool waits, has_limit;
    struct timespec limit;
    const char *refused; /* an option that a served file does not take; NULL for none */
};

/* Reads the command line of a verb and what stands behind it. False where it is none of these verbs, or has a word that is wrong: the
 * proved program says what there is to say of it. */
bool read_errand(struct errand *it, int count, char **words);

#endif
