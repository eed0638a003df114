/* Standard input as the bodies of messages. */
#ifndef MSGQ_INPUTS_H
#define MSGQ_INPUTS_H

#include <stdbool.h>
#include <stddef.h>
#include <stdint.h>

struct bodies {
    uint8_t *bytes;
    size_t count;
    size_t *ends; /* where each body ends, from the beginning of the bytes */
    size_t number;
};

/* Reads all of standard input, as one message or one a line. DONE, or the exit status where it is none,
 * which is said. */
int read_bodies(struct bodies *it, bool has_lines, const char *file);

void free_bodies(struct bodies *it);

#endif
