/* `msgq stat --metrics` of a file that is served, or of a server's socket. All else of `stat` is the proved program's. */
#include "census.h"
#include "front.h"
#include "proved.h"

#include <errno.h>
#include <stdlib.h>
#include <string.h>

/* The file of a command line that asks for metrics alone; NULL for another one. */
static const char *file_of(int count, char **words) {
    const char *file = NULL;
    bool has_metrics = false;
    for (int at = 0; at < count; at++) {
        bool is_metrics = strcmp(words[at], "--metrics") == 0, is_end = strcmp(words[at], "--") == 0;
        if (!is_metrics && !is_end && (words[at][0] == '-' || file != NULL))
            return NULL;
        has_metrics |= is_metrics;
        if (!is_metrics && !is_end)
            file = words[at];
    }
    return has_metrics ? file : NULL;
}

/* Prints what the proved program prints of the file, whose queues a table notes. Its status. */
static int print_file(const char *file, struct table *table) {
    static char name[] = "msgq", verb[] = "stat", option[] = "--metrics", end[] = "--";
    char *words[] = {name, verb, option, end, (char *)(uintptr_t)file, NULL}, *text = NULL;
    struct proved proved;
    size_t count = 0;
    if (!proved_begin(&proved, words, true))
        return FAULT;
    FILE *copy = open_memstream(&text, &count);
    for (int byte; copy != NULL && (byte = fgetc(proved.output)) != EOF;)
        (void)fputc(byte, copy);
    bool is_copied = copy != NULL && fclose(copy) == 0;
    int status = proved_end_quietly(&proved);
    FILE *metrics = is_copied && status == DONE && count > 0 ? fmemopen(text, count, "r") : NULL;
    if (metrics != NULL) {
        table_read(table, metrics);
        (void)fclose(metrics);
    }
    if (is_copied)
        (void)fwrite(text, 1, count, stdout);
    free(text);
    return is_copied ? status : FAULT;
}

/* Of a file that has on the disk what was answered, what stands there; else what the server says of its queues. */
static int print_metrics(struct afar *server, const char *file, struct table *table) {
    struct census census;
    bool is_file_true = server->is_of_file && server->wire.greeting.mode == IS_DURABLE;
    int status = DONE, wrong = census_begin(&census, server);
    table_begin(table);
    if (wrong == 0 && !is_file_true)
        wrong = census_queues(server, &census, table);
    else if (wrong == 0)
        status = print_file(file, table);
    if (wrong != 0) {
        complain("%s: the server: %s", file, strerror(wrong));
        status = FAULT;
    }
    if (status == DONE) {
        census_waits(&census, table);
        census_print_queues(table, is_file_true ? QUEUE_WAITS : QUEUE_MESSAGES, stdout);
        census_print(&census, stdout);
    }
    census_end(&census);
    return status;
}

int stat_run(int count, char **words) {
    static char name[] = "msgq", verb[] = "stat";
    const char *file = file_of(count, words);
    struct afar server;
    char **all = calloc((size_t)count + 3, sizeof *all);
    struct table *table = malloc(sizeof *table);
    int status = FAULT;
    if (all == NULL || table == NULL) {
        complain("%s", strerror(ENOMEM));
    } else if (file != NULL && afar_begin(&server, file)) {
        status = print_metrics(&server, file, table);
        afar_end(&server);
        if (fflush(stdout) != 0 || ferror(stdout)) {
            complain("standard output: %s", strerror(errno));
            status = FAULT;
        }
    } else {
        all[0] = name;
        all[1] = verb;
        memcpy(all + 2, words, (size_t)count * sizeof *all);
        status = proved_become(all);
    }
    free(table);
    free(all);
    return status;
}
