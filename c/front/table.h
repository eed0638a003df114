/* The queues of a file at a moment, by `msgq stat --metrics` or as a server tells them, and what has become of them since the moment before. */
#ifndef MSGQ_TABLE_H
#define MSGQ_TABLE_H

#include <stdbool.h>
#include <stddef.h>
#include <stdint.h>
#include <stdio.h>
#include <time.h>

/* What is known of a queue. */
enum {
    QUEUE_MESSAGES, QUEUE_BYTES, QUEUE_LIMIT, QUEUE_SENT, QUEUE_RECEIVED, QUEUE_LAST_SEND, QUEUE_LAST_RECEIVE, QUEUE_WAITS, QUEUE_FACTS
};

/* Their names, as metrics. */
extern const char *const QUEUE_NAMES[QUEUE_FACTS];

struct row {
    uint32_t id;
    char key[12]; /* its digits, or `private` */
    uint64_t facts[QUEUE_FACTS];
    bool has_rates;
    double in, out; /* messages a second since the table before */
};

/* A file has at most so many queues. */
enum { MOST_QUEUES = 256 };

struct table {
    struct timespec at; /* of CLOCK_MONOTONIC */
    int64_t now;        /* of the clock, in seconds */
    bool has_waits;     /* how many calls wait is known, by a server */
    size_t count;
    struct row rows[MOST_QUEUES];
};

/* By what rows are sorted, the greatest first; by keys and ids the least. */
enum order { BY_MESSAGES, BY_BYTES, BY_IN, BY_OUT, BY_WAITS, BY_AGE, BY_KEY, BY_ID };

/* Begins without queues, at this moment. */
void table_begin(struct table *it);

/* The row of an id, which is made where there is room and none of this id. They come in order of id. */
struct row *table_row(struct table *it, uint32_t id, const char *key);

/* Reads the metrics that a program prints; what is none of them is left out. */
void table_read(struct table *it, FILE *metrics);

/* Reckons the rates of each queue that the table before has too. */
void table_compare(struct table *it, const struct table *before);

void table_sort(struct table *it, enum order order);

/* At least so many seconds ago the oldest message was sent, since the last one was; below 0 where there is none. */
int64_t table_age(const struct table *it, const struct row *row);

enum { LINE_BYTES = 160 };

/* The headings, or a row, in columns; as many as fit a width, and at least one. */
void table_headings(const struct table *it, char line[LINE_BYTES], size_t width);
void table_line(const struct table *it, const struct row *row, char line[LINE_BYTES], size_t width);

/* How many queues, messages and bytes there are. */
void table_total(const struct table *it, char line[LINE_BYTES]);

#endif
