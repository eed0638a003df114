/* A connection to a server for what the relay itself answers (docs/PROTOCOL.md): its counts, and the messages of a queue as they come. */
#ifndef MSGQ_AFAR_H
#define MSGQ_AFAR_H

#include "../wire.h"

#include <limits.h>
#include <stdbool.h>
#include <stddef.h>
#include <stdint.h>

/* What is asked. */
enum { ASK_STAT = 4, ASK_NEXT = 7, ASK_SAVE = 9, ASK_INFO = 10, ASK_COUNTS = 32, ASK_FOLLOW = 33 };

struct afar {
    char socket[PATH_MAX];
    bool is_of_file; /* the socket stands beside a file that was named */
    struct wire wire;
    uint32_t number; /* of the last request */
    uint8_t *room;
    size_t size, begin, end;
};

/* An answer. */
struct word {
    uint32_t number, code, value;
    const uint8_t *fields; /* until the next one */
    size_t count;
};

enum { IS_DURABLE = 0 };

/* Connects to the server of a file, or of a socket that is named. False where there is none. */
bool afar_begin(struct afar *it, const char *name);

/* Asks, and waits for the answer, ten seconds at most. 0 or the number of an error. */
int afar_ask(struct afar *it, uint8_t operation, uint32_t id, struct word *told);

/* Waits for the next answer of any number. */
int afar_hear(struct afar *it, struct word *told);

/* Whether more stands there than was heard. */
bool afar_has_more(const struct afar *it);

void afar_end(struct afar *it);

#endif
