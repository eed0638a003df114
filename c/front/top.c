/* `msgq top`: a table of the queues of a file, renewed each second, on a terminal or as lines. */
#include "census.h"
#include "front.h"
#include "proved.h"
#include "screen.h"
#include "table.h"
#include "words.h"

#include <errno.h>
#include <inttypes.h>
#include <stdio.h>
#include <stdlib.h>
#include <string.h>
#include <unistd.h>

#define CALL "msgq top [OPTIONS] <FILE>"

static const char USAGE[] =
    "Shows the queues of a file or of a server, renewed each second\n"
    "\n"
    "Usage: " CALL "\n"
    "\n"
    "Arguments:\n"
    "  <FILE>  The file, which is not written\n"
    "\n"
    "Options:\n"
    "      --count <N>        Show it so many times, and end\n"
    "      --every <SECONDS>  Renew it so often, in place of each second\n"
    "  -h, --help             Print help\n"
    "\n"
    "Keys: q ends it. m, b, i, o, w, a, k and n sort it by messages, bytes, messages in and out a second, calls that\n"
    "wait, age, key and id; the space and - turn the page.\n"
    "IN/S and OUT/S are messages a second since the table before. OLDEST is the least age that the oldest message\n"
    "can have: the time since the last one was sent. WAIT, of a file that is served, are calls that wait there.\n"
    "Where standard output is no terminal each table is printed as lines. In the place of FILE the socket of a server\n"
    "may stand.\n"
    "Exit status: 0 done; 1 a fault, or standard output refused a write; 2 the command line is wrong.\n"
    "More: docs/SHELL.md, msgq(1).\n";

/* What is asked for, and what is shown. */
struct top {
    char *file;
    uint32_t count; /* 0 for no end */
    struct timespec every;
    enum order order;
    size_t first;           /* the row that is shown first */
    char trouble[256];      /* why the table is not renewed, if it is not */
    struct table now, then; /* the table, and the one before */
};

static int misuse(const char *format, const char *word) {
    char what[512];
    (void)snprintf(what, sizeof what, format, word);
    complain("%s\n\nUsage: " CALL "\n\nFor more information, try '--help'.", what);
    return MISUSE;
}

/* ---- the command line */

static int read_option(struct top *it, struct words *words) {
    const char *value = NULL;
    int64_t number = 0;
    if (take_option(words, "--help", 'h', &value))
        return fputs(USAGE, stdout) < 0 || fflush(stdout) != 0 ? FAULT : -1;
    if (take_option(words, "--count", '\0', &value)) {
        value = take_value(words, value);
        if (value == NULL || !read_type(value, &number) || number < 1 || number > UINT32_MAX)
            return misuse("'%s' is no count, a number from 1 on", value == NULL ? "" : value);
        it->count = (uint32_t)number;
        return DONE;
    }
    if (take_option(words, "--every", '\0', &value)) {
        value = take_value(words, value);
        bool is_read = value != NULL && read_seconds(value, &it->every);
        return is_read && (it->every.tv_sec > 0 || it->every.tv_nsec >= 100000000)
                   ? DONE
                   : misuse("'%s' is no number of seconds, from 0.1 on", value == NULL ? "" : value);
    }
    if (words->at[0][0] == '-' || it->file != NULL)
        return misuse("unexpected argument '%s' found", words->at[0]);
    it->file = words->at[0];
    (void)take_value(words, NULL);
    return DONE;
}

static int read_top(struct top *it, int count, char **at) {
    struct words words = {count, at};
    while (words.count > 0) {
        int status = read_option(it, &words);
        if (status != DONE)
            return status;
    }
    return it->file != NULL ? DONE : misuse("the following required argument was not provided: %s", "<FILE>");
}

/* ---- the table */

/* Keeps what the proved program says, without `msgq: ` and in one line. */
static void keep_trouble(struct top *it, FILE *errors) {
    it->trouble[0] = '\0';
    if (fgets(it->trouble, sizeof it->trouble, errors) != NULL)
        it->trouble[strcspn(it->trouble, "\n")] = '\0';
    if (strncmp(it->trouble, "msgq: ", 6) == 0)
        memmove(it->trouble, it->trouble + 6, strlen(it->trouble + 6) + 1);
}

/* Reads the file, by the proved program. */
static bool read_file(struct top *it, struct table *found) {
    static char name[] = "msgq", verb[] = "stat", option[] = "--metrics", end[] = "--";
    char *words[] = {name, verb, option, end, it->file, NULL};
    struct proved proved;
    if (!proved_begin(&proved, words, true)) {
        (void)snprintf(it->trouble, sizeof it->trouble, "it can't be looked at: %s", strerror(errno));
        return false;
    }
    table_read(found, proved.output);
    keep_trouble(it, proved.errors);
    bool is_read = proved_end(&proved) == DONE;
    if (!is_read && it->trouble[0] == '\0')
        (void)snprintf(it->trouble, sizeof it->trouble, "%.200s: it can't be read", it->file);
    return is_read;
}

/* Asks a server: of a file that has on the disk what was answered, for who waits there. */
static bool read_server(struct top *it, struct afar *server, struct table *found) {
    struct census census;
    bool is_read = true;
    int wrong = census_begin(&census, server);
    if (wrong == 0 && server->is_of_file && server->wire.greeting.mode == IS_DURABLE)
        is_read = read_file(it, found);
    else if (wrong == 0)
        wrong = census_queues(server, &census, found);
    if (wrong == 0)
        census_waits(&census, found);
    else
        (void)snprintf(it->trouble, sizeof it->trouble, "%.180s: the server: %s", it->file, strerror(wrong));
    census_end(&census);
    return wrong == 0 && is_read;
}

/* Looks at the file or the server. Where it can't be read the table stays as it was, and the trouble is kept. */
static bool look(struct top *it) {
    struct afar server;
    struct table *found = malloc(sizeof *found);
    if (found == NULL) {
        (void)snprintf(it->trouble, sizeof it->trouble, "it can't be looked at: %s", strerror(errno));
        return false;
    }
    bool is_served = afar_begin(&server, it->file);
    bool is_read = is_served ? read_server(it, &server, found) : read_file(it, found);
    afar_end(&server);
    if (is_read) {
        it->trouble[0] = '\0';
        it->then = it->now;
        it->now = *found;
        table_compare(&it->now, &it->then);
        table_sort(&it->now, it->order);
    }
    free(found);
    return is_read;
}

/* The clock's time of the table. */
static void tell_time(const struct top *it, char text[16]) {
    struct tm parts;
    time_t now = (time_t)it->now.now;
    if (localtime_r(&now, &parts) == NULL || strftime(text, 16, "%H:%M:%S", &parts) == 0)
        text[0] = '\0';
}

/* The moment so long behind another. */
static struct timespec behind(const struct timespec *one, const struct timespec *other) {
    struct timespec sum = {one->tv_sec + other->tv_sec, one->tv_nsec + other->tv_nsec};
    sum.tv_sec += sum.tv_nsec / 1000000000;
    sum.tv_nsec %= 1000000000;
    return sum;
}

/* ---- as lines */

static bool print_table(const struct top *it) {
    char line[LINE_BYTES], moment[16];
    tell_time(it, moment);
    table_total(&it->now, line);
    (void)printf("%s  %s\n", moment, line);
    table_headings(&it->now, line, LINE_BYTES);
    (void)printf("%s\n", line);
    for (size_t at = 0; at < it->now.count; at++) {
        table_line(&it->now, &it->now.rows[at], line, LINE_BYTES);
        (void)printf("%s\n", line);
    }
    return fflush(stdout) == 0 && !ferror(stdout);
}

static int show_lines(struct top *it) {
    struct timespec next = it->now.at;
    for (uint32_t shown = 0; it->count == 0 || shown < it->count; shown++) {
        if (shown > 0) {
            next = behind(&next, &it->every);
            while (clock_nanosleep(CLOCK_MONOTONIC, TIMER_ABSTIME, &next, NULL) == EINTR)
                ;
            (void)printf("\n");
        }
        if (shown > 0 && !look(it))
            complain("%s", it->trouble);
        else if (!print_table(it)) {
            complain("standard output: %s", strerror(errno));
            return FAULT;
        }
    }
    return it->trouble[0] == '\0' ? DONE : FAULT;
}

/* ---- on a terminal */

/* As many rows of queues as there is room for: the first line, the headings and the last line stand beside them. */
static size_t room_of(const struct screen *screen) {
    return screen->rows > 3 ? screen->rows - 3 : 1;
}

/* Cuts a line before the part for which there is no room, so that no number is cut. */
static void cut_parts(char *line, size_t columns) {
    if (strlen(line) <= columns)
        return;
    size_t at = columns;
    while (at > 0 && line[at] != ',' && line[at] != ';' && strncmp(line + at, "  ", 2) != 0)
        at--;
    if (at == 0)
        for (at = columns; at > 0 && line[at] != ' ';)
            at--;
    line[at] = '\0';
}

static void draw(struct top *it, const struct screen *screen) {
    char line[LINE_BYTES], total[LINE_BYTES], moment[16];
    size_t room = room_of(screen), shown = 0;
    if (it->first >= it->now.count)
        it->first = it->now.count > 0 ? (it->now.count - 1) / room * room : 0;
    tell_time(it, moment);
    table_total(&it->now, total);
    (void)snprintf(line, sizeof line, "%s  %.140s", moment, total);
    cut_parts(line, screen->columns);
    screen_put(screen, 0, line, false);
    table_headings(&it->now, line, screen->columns);
    screen_put(screen, 1, line, true);
    for (; shown < room; shown++) {
        size_t at = it->first + shown;
        *line = '\0';
        if (at < it->now.count)
            table_line(&it->now, &it->now.rows[at], line, screen->columns);
        screen_put(screen, 2 + shown, line, false);
    }
    size_t last = it->first + room < it->now.count ? it->first + room : it->now.count;
    if (it->trouble[0] != '\0') {
        (void)snprintf(line, sizeof line, "%.150s", it->trouble);
    } else {
        (void)snprintf(line, sizeof line, "%zu to %zu of %zu; q ends, m b i o w a k n sort, space and - turn the page",
                       it->now.count > 0 ? it->first + 1 : 0, last, it->now.count);
        cut_parts(line, screen->columns);
    }
    screen_put(screen, 2 + room, line, false);
    (void)fflush(stdout);
}

/* Does what a key asks for. */
static void turn(struct top *it, const struct screen *screen, int key) {
    static const char keys[] = "mbiowakn";
    static const enum order orders[] = {BY_MESSAGES, BY_BYTES, BY_IN, BY_OUT, BY_WAITS, BY_AGE, BY_KEY, BY_ID};
    const char *found = key > 0 && key < SCREEN_RESIZED ? strchr(keys, key) : NULL;
    size_t room = room_of(screen);
    if (found != NULL) {
        it->order = orders[found - keys];
        it->first = 0;
        table_sort(&it->now, it->order);
    } else if (key == ' ' && it->first + room < it->now.count) {
        it->first += room;
    } else if (key == '-') {
        it->first = it->first > room ? it->first - room : 0;
    }
}

static int show_screen(struct top *it) {
    struct screen screen;
    int wrong = screen_begin(&screen), key = SCREEN_RESIZED;
    if (wrong != 0) {
        complain("the terminal can't be used: %s", strerror(wrong));
        return FAULT;
    }
    struct timespec next = behind(&it->now.at, &it->every);
    uint32_t shown = 1;
    while (key != SCREEN_ENDED && !ferror(stdout)) {
        draw(it, &screen);
        key = screen_wait(&screen, &next);
        if (key != SCREEN_WAITED) {
            turn(it, &screen, key);
        } else if (it->count != 0 && shown++ >= it->count) {
            break;
        } else {
            struct timespec now;
            (void)look(it);
            next = clock_gettime(CLOCK_MONOTONIC, &now) == 0 ? behind(&now, &it->every) : next;
        }
    }
    screen_end(&screen);
    return ferror(stdout) ? FAULT : DONE;
}

int top_run(int count, char **words) {
    struct top *it = calloc(1, sizeof *it);
    if (it == NULL) {
        complain("%s", strerror(errno));
        return FAULT;
    }
    it->every.tv_sec = 1;
    int status = read_top(it, count, words);
    if (status == DONE && !look(it)) {
        complain("%s", it->trouble);
        status = FAULT;
    } else if (status == DONE) {
        status = isatty(STDIN_FILENO) && isatty(STDOUT_FILENO) ? show_screen(it) : show_lines(it);
    }
    free(it);
    return status < 0 ? DONE : status;
}
