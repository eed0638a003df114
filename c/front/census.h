/* What a server tells of its queues and of itself. */
#ifndef MSGQ_CENSUS_H
#define MSGQ_CENSUS_H

#include "afar.h"
#include "table.h"

#include <stdio.h>

/* What a server counts of itself: the fields of its answers. */
struct census {
    uint8_t *counts;
    size_t count;
    uint64_t saves, tries;
    uint32_t waiting, pages;
};

/* Asks a server for its counts. 0 or the number of an error. */
int census_begin(struct census *it, struct afar *server);
void census_end(struct census *it);

/* Asks it for its queues, as far as the caller may read them. */
int census_queues(struct afar *server, const struct census *it, struct table *table);

/* Notes how many calls wait at the queues of a table. */
void census_waits(const struct census *it, struct table *table);

/* Prints what the server counts of itself, in the text format of Prometheus; and the facts of queues from this one on. */
void census_print(const struct census *it, FILE *to);
void census_print_queues(const struct table *table, int from, FILE *to);

#endif
