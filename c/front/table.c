/* The table of `msgq top`. */
#include "table.h"

#include <inttypes.h>
#include <stdlib.h>
#include <string.h>

/* ---- reading */

const char *const QUEUE_NAMES[QUEUE_FACTS] = {
    "msgq_queue_messages",
    "msgq_queue_bytes",
    "msgq_queue_limit_bytes",
    "msgq_queue_sent_total",
    "msgq_queue_received_total",
    "msgq_queue_last_send_timestamp_seconds",
    "msgq_queue_last_receive_timestamp_seconds",
    "msgq_queue_waiting_calls",
};

struct row *table_row(struct table *it, uint32_t id, const char *key) {
    for (size_t at = it->count; at > 0; at--)
        if (it->rows[at - 1].id == id)
            return &it->rows[at - 1];
    if (it->count == MOST_QUEUES)
        return NULL;
    struct row *row = &it->rows[it->count++];
    *row = (struct row){.id = id};
    (void)snprintf(row->key, sizeof row->key, "%s", key);
    return row;
}

void table_begin(struct table *it) {
    it->count = 0;
    it->has_waits = false;
    it->now = (int64_t)time(NULL);
    if (clock_gettime(CLOCK_MONOTONIC, &it->at) != 0)
        it->at = (struct timespec){0, 0};
}

void table_read(struct table *it, FILE *metrics) {
    char *line = NULL, name[64], key[12];
    size_t room = 0;
    uint32_t id;
    uint64_t value;
    table_begin(it);
    while (getline(&line, &room, metrics) >= 0) {
        if (sscanf(line, "%63[a-z_]{id=\"%" SCNu32 "\",queue=\"%11[a-z0-9]\"} %" SCNu64, name, &id, key, &value) != 4)
            continue;
        for (int fact = 0; fact < QUEUE_FACTS; fact++) {
            struct row *row = strcmp(name, QUEUE_NAMES[fact]) == 0 ? table_row(it, id, key) : NULL;
            if (row != NULL)
                row->facts[fact] = value;
        }
    }
    free(line);
}

/* ---- rates */

static double seconds_between(const struct timespec *from, const struct timespec *to) {
    return (double)(to->tv_sec - from->tv_sec) + (double)(to->tv_nsec - from->tv_nsec) / 1e9;
}

/* How much a counter has grown a second; a queue that was made anew under its id begins again. */
static double rate(uint64_t before, uint64_t now, double seconds) {
    return now < before ? 0 : (double)(now - before) / seconds;
}

void table_compare(struct table *it, const struct table *before) {
    double seconds = seconds_between(&before->at, &it->at);
    size_t at = 0;
    if (seconds <= 0)
        return;
    for (size_t place = 0; place < before->count; place++)
        for (at = 0; at < it->count; at++)
            if (it->rows[at].id == before->rows[place].id) {
                const uint64_t *was = before->rows[place].facts, *is = it->rows[at].facts;
                it->rows[at].has_rates = true;
                it->rows[at].in = rate(was[QUEUE_SENT], is[QUEUE_SENT], seconds);
                it->rows[at].out = rate(was[QUEUE_RECEIVED], is[QUEUE_RECEIVED], seconds);
            }
}

int64_t table_age(const struct table *it, const struct row *row) {
    int64_t sent = (int64_t)row->facts[QUEUE_LAST_SEND];
    return row->facts[QUEUE_MESSAGES] == 0 || sent < 0 || sent > it->now ? -1 : it->now - sent;
}

/* ---- order */

static int by_number(double one, double other) {
    return one < other ? 1 : one > other ? -1 : 0;
}

static int by_id(const void *one, const void *other) {
    const struct row *a = one, *b = other;
    return a->id < b->id ? -1 : a->id > b->id;
}

static int by_messages(const void *one, const void *other) {
    const struct row *a = one, *b = other;
    int found = by_number((double)a->facts[QUEUE_MESSAGES], (double)b->facts[QUEUE_MESSAGES]);
    return found != 0 ? found : by_id(one, other);
}

static int by_bytes(const void *one, const void *other) {
    const struct row *a = one, *b = other;
    int found = by_number((double)a->facts[QUEUE_BYTES], (double)b->facts[QUEUE_BYTES]);
    return found != 0 ? found : by_id(one, other);
}

static int by_in(const void *one, const void *other) {
    int found = by_number(((const struct row *)one)->in, ((const struct row *)other)->in);
    return found != 0 ? found : by_messages(one, other);
}

static int by_out(const void *one, const void *other) {
    int found = by_number(((const struct row *)one)->out, ((const struct row *)other)->out);
    return found != 0 ? found : by_messages(one, other);
}

static int by_waits(const void *one, const void *other) {
    const struct row *a = one, *b = other;
    int found = by_number((double)a->facts[QUEUE_WAITS], (double)b->facts[QUEUE_WAITS]);
    return found != 0 ? found : by_messages(one, other);
}

/* The one to which longest nothing was sent first, and those without a message last. */
static int by_age(const void *one, const void *other) {
    const struct row *a = one, *b = other;
    bool is_empty = a->facts[QUEUE_MESSAGES] == 0, other_is = b->facts[QUEUE_MESSAGES] == 0;
    if (is_empty != other_is)
        return is_empty - other_is;
    int found = -by_number((double)a->facts[QUEUE_LAST_SEND], (double)b->facts[QUEUE_LAST_SEND]);
    return found != 0 && !is_empty ? found : by_id(one, other);
}

/* Private queues stand behind those with a key. */
static int by_key(const void *one, const void *other) {
    const struct row *a = one, *b = other;
    bool is_private = a->key[0] == 'p', other_is = b->key[0] == 'p';
    if (is_private != other_is)
        return is_private - other_is;
    int found = is_private ? 0 : -by_number(strtod(a->key, NULL), strtod(b->key, NULL));
    return found != 0 ? found : by_id(one, other);
}

void table_sort(struct table *it, enum order order) {
    static int (*const orders[])(const void *, const void *) = {
        [BY_MESSAGES] = by_messages, [BY_BYTES] = by_bytes, [BY_IN] = by_in, [BY_OUT] = by_out,
        [BY_WAITS] = by_waits,       [BY_AGE] = by_age,     [BY_KEY] = by_key, [BY_ID] = by_id,
    };
    qsort(it->rows, it->count, sizeof *it->rows, orders[order]);
}

/* ---- lines */

/* The columns, from the one that a narrow screen keeps longest on. */
enum { KEY, MESSAGES, IN, OUT, WAITS, BYTES, LIMIT, AGE, ID, COLUMNS };
static const char *const HEADINGS[COLUMNS] = {"KEY",   "MESSAGES", "IN/S",   "OUT/S", "WAIT",
                                              "BYTES", "LIMIT",    "OLDEST", "ID"};
static const int WIDTHS[COLUMNS] = {10, 8, 8, 8, 5, 7, 7, 9, 10};

/* Puts a cell behind those that are there, where it fits. */
static bool put(char line[LINE_BYTES], size_t width, int column, const char *cell) {
    size_t used = strlen(line), wanted = (size_t)WIDTHS[column] + (used > 0);
    if (used > 0 && (used + wanted > width || used + wanted >= LINE_BYTES))
        return false;
    (void)snprintf(line + used, LINE_BYTES - used, "%s%*s", used > 0 ? " " : "", WIDTHS[column], cell);
    return true;
}

/* The column behind one: calls that wait are a server's. */
static int next_column(const struct table *it, int column) {
    return column + 1 + (column + 1 == WAITS && !it->has_waits);
}

void table_headings(const struct table *it, char line[LINE_BYTES], size_t width) {
    int column = 0;
    *line = '\0';
    while (column < COLUMNS && put(line, width, column, HEADINGS[column]))
        column = next_column(it, column);
}

/* A rate of a queue that the table before had. */
static void tell_rate(char cell[32], const struct row *row, double rate) {
    (void)snprintf(cell, 32, row->has_rates ? "%.*f" : "-", rate < 100 ? 1 : 0, rate);
}

/* A length of time, as `>12s`, `>3m`, `>5h`, `>2d`: no less than this. */
static void tell_age(char cell[32], int64_t seconds) {
    static const struct unit {
        char name;
        int64_t seconds;
    } units[] = {{'d', 86400}, {'h', 3600}, {'m', 60}, {'s', 1}};
    size_t at = 0;
    while (at < 3 && seconds < 2 * units[at].seconds)
        at++;
    (void)snprintf(cell, 32, seconds < 0 ? "-" : ">%" PRId64 "%c", seconds / units[at].seconds, units[at].name);
}

static void tell(char cell[32], const struct table *it, const struct row *row, int column) {
    static const int facts[COLUMNS] = {
        [MESSAGES] = QUEUE_MESSAGES, [WAITS] = QUEUE_WAITS, [BYTES] = QUEUE_BYTES, [LIMIT] = QUEUE_LIMIT};
    if (column == KEY)
        (void)snprintf(cell, 32, "%s", row->key);
    else if (column == ID)
        (void)snprintf(cell, 32, "%" PRIu32, row->id);
    else if (column == IN || column == OUT)
        tell_rate(cell, row, column == IN ? row->in : row->out);
    else if (column == AGE)
        tell_age(cell, table_age(it, row));
    else
        (void)snprintf(cell, 32, "%" PRIu64, row->facts[facts[column]]);
}

void table_line(const struct table *it, const struct row *row, char line[LINE_BYTES], size_t width) {
    char cell[32];
    *line = '\0';
    for (int column = 0; column < COLUMNS; column = next_column(it, column)) {
        tell(cell, it, row, column);
        if (!put(line, width, column, cell))
            return;
    }
}

void table_total(const struct table *it, char line[LINE_BYTES]) {
    uint64_t messages = 0, bytes = 0;
    for (size_t at = 0; at < it->count; at++) {
        messages += it->rows[at].facts[QUEUE_MESSAGES];
        bytes += it->rows[at].facts[QUEUE_BYTES];
    }
    (void)snprintf(line, LINE_BYTES, "queues: %zu, messages: %" PRIu64 ", bytes: %" PRIu64, it->count, messages, bytes);
}
