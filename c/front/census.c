/* A server is asked for what it counts, which is printed as metrics. */
#include "census.h"
#include "../relay/counts.h"
#include "../relay/numbers.h"

#include <errno.h>
#include <inttypes.h>
#include <stdlib.h>
#include <string.h>

static uint64_t get_u64(const uint8_t *at) {
    return get_u32(at) | (uint64_t)get_u32(at + 4) << 32;
}

/* ---- asking */

int census_begin(struct census *it, struct afar *server) {
    struct word told;
    *it = (struct census){.counts = NULL};
    int wrong = afar_ask(server, ASK_COUNTS, 0, &told);
    if (wrong != 0 || told.code != 0)
        return wrong != 0 ? wrong : EPROTO;
    it->counts = malloc(told.count + 1);
    if (it->counts == NULL)
        return ENOMEM;
    memcpy(it->counts, told.fields, told.count);
    it->count = told.count / COUNT_BYTES;
    wrong = afar_ask(server, ASK_INFO, 0, &told);
    if (wrong != 0 || told.code != 0 || told.count < 40)
        return wrong != 0 ? wrong : EPROTO;
    it->saves = get_u64(told.fields + 8);
    it->tries = get_u64(told.fields + 16);
    it->waiting = get_u32(told.fields + 28);
    it->pages = get_u32(told.fields + 32);
    return 0;
}

void census_end(struct census *it) {
    free(it->counts);
    it->counts = NULL;
}

/* The value of a count; 0 for one that was not told. */
static uint64_t value_of(const struct census *it, uint32_t kind, uint32_t label) {
    for (size_t at = 0; at < it->count; at++)
        if (get_u32(it->counts + at * COUNT_BYTES) == kind && get_u32(it->counts + at * COUNT_BYTES + 4) == label)
            return get_u64(it->counts + at * COUNT_BYTES + 8);
    return 0;
}

/* Adds what a Stat has told to a table. */
static void add_queue(const struct census *it, const struct word *told, struct table *table) {
    char key[16] = "private";
    const uint8_t *at = told->fields;
    uint32_t id = get_u32(at + 24);
    if ((at[70] | at[71] << 8) != 0)
        (void)snprintf(key, sizeof key, "%" PRIu32, get_u32(at + 28));
    struct row *row = table_row(table, id, key);
    if (row == NULL)
        return;
    row->facts[QUEUE_MESSAGES] = get_u32(at + 32);
    row->facts[QUEUE_BYTES] = get_u32(at + 36);
    row->facts[QUEUE_LIMIT] = get_u32(at + 40);
    row->facts[QUEUE_SENT] = value_of(it, COUNTED_SENT, id);
    row->facts[QUEUE_RECEIVED] = value_of(it, COUNTED_RECEIVED, id);
    row->facts[QUEUE_LAST_SEND] = get_u64(at);
    row->facts[QUEUE_LAST_RECEIVE] = get_u64(at + 8);
}

int census_queues(struct afar *server, const struct census *it, struct table *table) {
    struct word told;
    uint32_t id = 0;
    int wrong;
    table_begin(table);
    while ((wrong = afar_ask(server, ASK_NEXT, id, &told)) == 0 && told.code == 0) {
        id = told.value;
        if ((wrong = afar_ask(server, ASK_STAT, id, &told)) != 0)
            return wrong;
        if (told.code == 0 && told.count >= 72)
            add_queue(it, &told, table);
    }
    return wrong;
}

void census_waits(const struct census *it, struct table *table) {
    table->has_waits = true;
    for (size_t at = 0; at < table->count; at++)
        table->rows[at].facts[QUEUE_WAITS] = value_of(it, COUNTED_WAITS, table->rows[at].id);
}

/* ---- metrics of queues */

void census_print_queues(const struct table *table, int from, FILE *to) {
    static const char *const helps[QUEUE_FACTS] = {
        "gauge Messages on the queue.",
        "gauge Bytes of the messages on the queue.",
        "gauge As many bytes the messages on the queue may have together.",
        "counter Messages sent to the queue since the server began.",
        "counter Messages received from the queue since the server began.",
        "gauge When a message was last sent to the queue, 0 for never.",
        "gauge When a message was last received from the queue, 0 for never.",
        "gauge Calls under way that wait for the queue.",
    };
    for (int fact = from; fact < QUEUE_FACTS; fact++) {
        const char *help = strchr(helps[fact], ' ');
        (void)fprintf(to, "# HELP %s%s\n# TYPE %s %.*s\n", QUEUE_NAMES[fact], help, QUEUE_NAMES[fact],
                      (int)(help - helps[fact]), helps[fact]);
        for (size_t at = 0; at < table->count; at++)
            (void)fprintf(to, "%s{id=\"%" PRIu32 "\",queue=\"%s\"} %" PRIu64 "\n", QUEUE_NAMES[fact], table->rows[at].id,
                          table->rows[at].key, table->rows[at].facts[fact]);
    }
}

/* ---- metrics of the server */

static void print_head(FILE *to, const char *name, const char *kind, const char *help) {
    (void)fprintf(to, "# HELP %s %s\n# TYPE %s %s\n", name, help, name, kind);
}

static void print_one(FILE *to, const char *name, const char *kind, const char *help, uint64_t value) {
    print_head(to, name, kind, help);
    (void)fprintf(to, "%s %" PRIu64 "\n", name, value);
}

/* One of a kind of counts, with the word of its label. */
struct labelled {
    uint32_t label;
    const char *word;
};

static const struct labelled OPERATIONS_BY_NAME[] = {
    {1, "get"},   {2, "send"}, {3, "receive"}, {4, "stat"},    {5, "set"},          {6, "remove"},   {7, "next"},   {8, "nth"},
    {9, "save"},  {10, "info"}, {12, "reserve"}, {13, "acknowledge"}, {14, "release"}, {32, "counts"}, {33, "follow"}, {0, NULL},
};
static const struct labelled ANSWERS[] = {
    {1, "E2BIG"},  {2, "EAGAIN"},  {3, "EEXIST"},   {4, "EIDRM"},    {5, "EINTR"},     {6, "EINVAL"},      {7, "ENOENT"},
    {8, "ENOMSG"}, {9, "ENOSPC"},  {10, "EACCES"},  {11, "EPERM"},   {50, "fault_50"}, {60, "fault_60"},   {62, "fault_62"},
    {200, "cancelled"}, {201, "server_ends"}, {203, "wrong_frame"}, {0, NULL},
};
static const struct labelled REASONS[] = {
    {TOO_MANY, "too_many"}, {TOO_MANY_OF_ONE_USER, "too_many_of_user"}, {LACKS_ROOM, "no_room"}, {IS_ELSEWHERE, "namespace"}, {0, NULL},
};

/* A family of metrics, one for each label. */
struct family {
    const char *name, *help, *label;
    uint32_t kind;
    const struct labelled *all;
};

static const struct family CALLS = {
    "msgq_server_calls_total", "Calls that were answered.", "operation", COUNTED_CALLS, OPERATIONS_BY_NAME,
};
static const struct family REFUSALS_BY_ANSWER = {
    "msgq_server_refusals_total", "Calls that were answered that they were not done, by why.", "errno", COUNTED_REFUSALS, ANSWERS,
};
static const struct family TURNED_AWAY = {
    "msgq_server_clients_refused_total", "Clients that were hung up on at once, by why.", "reason", COUNTED_TURNED_AWAY, REASONS,
};

static void print_family(const struct census *it, FILE *to, const struct family *family) {
    print_head(to, family->name, "counter", family->help);
    for (const struct labelled *at = family->all; at->word != NULL; at++)
        (void)fprintf(to, "%s{%s=\"%s\"} %" PRIu64 "\n", family->name, family->label, at->word, value_of(it, family->kind, at->label));
}

/* The times of groups as a histogram, in seconds. */
static void print_groups(const struct census *it, FILE *to) {
    uint64_t all = value_of(it, COUNTED_GROUPS, UINT32_MAX);
    print_head(to, "msgq_server_group_seconds", "histogram",
               "Time from calls that were handed over together to their answers: of a durable server that of a save.");
    for (size_t at = 0; at < it->count; at++) {
        const uint8_t *count = it->counts + at * COUNT_BYTES;
        if (get_u32(count) == COUNTED_GROUPS && get_u32(count + 4) != UINT32_MAX)
            (void)fprintf(to, "msgq_server_group_seconds_bucket{le=\"%g\"} %" PRIu64 "\n", get_u32(count + 4) / 1e6, get_u64(count + 8));
    }
    (void)fprintf(to, "msgq_server_group_seconds_bucket{le=\"+Inf\"} %" PRIu64 "\n", all);
    (void)fprintf(to, "msgq_server_group_seconds_sum %.9f\n", (double)value_of(it, COUNTED_TIME, 0) / 1e9);
    (void)fprintf(to, "msgq_server_group_seconds_count %" PRIu64 "\n", all);
}

void census_print(const struct census *it, FILE *to) {
    print_one(to, "msgq_server_start_time_seconds", "gauge", "When the server began, since 1970.", value_of(it, COUNTED_BEGIN, 0));
    print_family(it, to, &CALLS);
    print_family(it, to, &REFUSALS_BY_ANSWER);
    print_one(to, "msgq_server_saves_total", "counter", "Saves: notes in the journal, with one sync each, and checkpoints, with three.", it->saves);
    print_groups(it, to);
    print_one(to, "msgq_server_waiting_calls", "gauge", "Calls that wait.", it->waiting);
    print_one(to, "msgq_server_tries_total", "counter", "Calls that waited and were tried again.", it->tries);
    print_one(to, "msgq_server_clients", "gauge", "Clients that are connected.", value_of(it, COUNTED_CLIENTS, 0));
    print_one(to, "msgq_server_clients_total", "counter", "Clients that were connected.", value_of(it, COUNTED_CAME, 0));
    print_family(it, to, &TURNED_AWAY);
    print_one(to, "msgq_server_followers", "gauge", "Queues that are followed, by each of their followers.", value_of(it, COUNTED_FOLLOWERS, 0));
    print_one(to, "msgq_server_untold_messages_total", "counter", "Messages that a follower was not told of, since it did not read.",
              value_of(it, COUNTED_UNTOLD, 0));
    print_one(to, "msgq_server_file_pages", "gauge", "Pages of the file.", it->pages);
}
