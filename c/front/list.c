/* `msgq list`: the table of the proved program, whose moments are shown as dates of the clock, and of which only some
 * rows may be asked for. */
#include "follow.h"
#include "front.h"
#include "moments.h"
#include "proved.h"
#include "words.h"

#include <errno.h>
#include <fcntl.h>
#include <inttypes.h>
#include <stdio.h>
#include <stdlib.h>
#include <string.h>
#include <sys/stat.h>
#include <unistd.h>

#define CALL "msgq list [OPTIONS] <FILE> [KEY]"

static const char USAGE[] =
    "Lists the queues of a file, or the messages of one queue\n"
    "\n"
    "Usage: " CALL "\n"
    "\n"
    "Arguments:\n"
    "  <FILE>  The file, which is not written\n"
    "  [KEY]   The queue whose messages are listed\n"
    "\n"
    "Options:\n"
    "      --json                  Print JSON in place of a table, with moments in seconds\n"
    "      --utc                   Show moments as dates of UTC, in place of local time (TZ)\n"
    "      --raw                   Show moments in seconds since the beginning of 1970\n"
    "      --since <MOMENT>        Only queues that were sent to, received from, made or set since then: a date\n"
    "                              as 2026-11-28 or '2026-11-28 15:04:05', or seconds\n"
    "      --older-than <SECONDS>  Only queues of which none of these is so near\n"
    "      --follow                Of a queue of a file that is served: go on with each message that is sent to it\n"
    "  -h, --help                  Print help\n"
    "\n"
    "KEY is a number of 32 bits, decimal or behind 0x hexadecimal; or @ and the id of a queue.\n"
    "Exit status: 0 done; 1 a fault, or standard output refused a write; 2 the command line is wrong;\n"
    "4 no queue has this key or id, or it was removed while it was followed.\n"
    "More: docs/SHELL.md, msgq(1).\n";

/* What is asked for. */
struct listing {
    struct clock clock;
    bool is_raw, is_json, has_since, has_until, follows;
    const char *since, *age, *places[2];
    uint64_t least, most; /* the last deed of a queue that is shown lies between, in seconds */
    int names;            /* FILE and KEY, as far as they are given */
    char **words;         /* those of the proved program */
    int count;
};

static int misuse(const char *format, const char *word) {
    char what[512];
    (void)snprintf(what, sizeof what, format, word);
    complain("%s\n\nUsage: " CALL "\n\nFor more information, try '--help'.", what);
    return MISUSE;
}

/* ---- the command line */

/* Reads a word; what is not of this program alone is the proved program's. Below 0 where help was given. */
static int read_word(struct listing *it, struct words *words) {
    const char *value = NULL;
    if (take_option(words, "--help", 'h', &value))
        return fputs(USAGE, stdout) < 0 || fflush(stdout) != 0 ? FAULT : -1;
    if (strcmp(words->at[0], "--utc") == 0 || strcmp(words->at[0], "--raw") == 0) {
        bool *flag = words->at[0][2] == 'u' ? &it->clock.is_utc : &it->is_raw;
        *flag = true;
        (void)take_value(words, NULL);
        return DONE;
    }
    if (take_option(words, "--since", '\0', &value)) {
        it->since = take_value(words, value);
        return it->since != NULL ? DONE : misuse("a value is required for '%s'", "--since <MOMENT>");
    }
    if (take_option(words, "--older-than", '\0', &value)) {
        it->age = take_value(words, value);
        return it->age != NULL ? DONE : misuse("a value is required for '%s'", "--older-than <SECONDS>");
    }
    if (strcmp(words->at[0], "--follow") == 0) {
        it->follows = true;
        (void)take_value(words, NULL);
        return DONE;
    }
    it->is_json |= strcmp(words->at[0], "--json") == 0;
    if (words->at[0][0] != '-' && it->names++ < 2)
        it->places[it->names - 1] = words->at[0];
    it->words[it->count++] = words->at[0];
    (void)take_value(words, NULL);
    return DONE;
}

/* Reads the moments, once it is known of which clock they are. */
static int read_moments(struct listing *it) {
    uint64_t age = 0, now = (uint64_t)time(NULL);
    it->has_since = it->since != NULL;
    it->has_until = it->age != NULL;
    it->most = UINT64_MAX;
    if (it->has_since && !read_moment(&it->clock, it->since, &it->least))
        return misuse("'%s' is no moment, a date as '2026-11-28 15:04:05' or a number of seconds", it->since);
    if (it->has_until && !read_count(it->age, &age))
        return misuse("'%s' is no number of seconds", it->age);
    if (it->has_until)
        it->most = age > now ? 0 : now - age;
    if ((it->has_since || it->has_until) && (it->is_json || it->names > 1))
        return misuse("%s goes with a table of queues alone", it->has_since ? "--since" : "--older-than");
    if (it->is_raw && it->clock.is_utc)
        return misuse("%s can't be used with '--utc'", "'--raw'");
    if (it->follows && (it->is_json || it->names != 2))
        return misuse("%s goes with a FILE and a KEY, and not with '--json'", "--follow");
    return DONE;
}

static int read_listing(struct listing *it, int count, char **at) {
    struct words words = {count, at};
    while (words.count > 0) {
        int status = read_word(it, &words);
        if (status != DONE)
            return status;
    }
    return read_moments(it);
}

/* ---- the table */

enum { SENT = 9, CHANGED = 11, CELLS = 12, MESSAGES = 2, BYTES = 3 };

/* Cuts a row at its tabs; how many cells it has. */
static int cut(char *line, char **cells) {
    int count = 0;
    line[strcspn(line, "\n")] = '\0';
    for (char *at = line; at != NULL && count < CELLS; count++) {
        cells[count] = at;
        at = strchr(at, '\t');
        if (at != NULL)
            *at++ = '\0';
    }
    return count;
}

/* Whether the last deed of a queue lies between the moments that were asked for. */
static bool is_asked(const struct listing *it, char **cells) {
    uint64_t last = 0, found;
    for (int at = SENT; at <= CHANGED; at++)
        if (read_count(cells[at], &found) && found > last)
            last = found;
    return it->least <= last && (!it->has_until || last < it->most);
}

static void print_row(const struct listing *it, char **cells) {
    char date[DATE_BYTES];
    for (int at = 0; at < CELLS; at++) {
        bool is_date = at >= SENT && !it->is_raw;
        (void)printf("%s%s", is_date ? date_of(&it->clock, cells[at], date) : cells[at], at + 1 < CELLS ? "\t" : "\n");
    }
}

/* Prints the table of queues that the proved program prints, its rows with dates; another text as it is. */
static bool print_table(const struct listing *it, FILE *table) {
    char *line = NULL, *cells[CELLS];
    size_t room = 0;
    uint64_t queues = 0, messages = 0, bytes = 0, number;
    bool has_head = getline(&line, &room, table) >= 0, is_of_queues = has_head && strncmp(line, "KEY\t", 4) == 0;
    if (has_head)
        (void)fputs(line, stdout);
    while (getline(&line, &room, table) >= 0) {
        if (!is_of_queues) {
            (void)fputs(line, stdout);
        } else if (strncmp(line, "total\t", 6) == 0) {
            (void)printf("total\t%" PRIu64 "\t%" PRIu64 "\t%" PRIu64 "\n", queues, messages, bytes);
        } else if (cut(line, cells) == CELLS && is_asked(it, cells)) {
            queues++;
            messages += read_count(cells[MESSAGES], &number) ? number : 0;
            bytes += read_count(cells[BYTES], &number) ? number : 0;
            print_row(it, cells);
        }
    }
    free(line);
    return fflush(stdout) == 0 && !ferror(stdout) && !ferror(table);
}

/* Says of a file that is refused, and is none of message queues, that it is none, as `msgq check` does: it lacks the magic
 * of the header (docs/FORMAT.md). Of one of whole pages the proved program says so. */
static void tell_foreign(const char *path) {
    static const char magic[8] = {'M', 'S', 'G', 'Q', 'F', 'I', 'L', 'E'};
    char head[12] = {0};
    struct stat found;
    int file = open(path, O_RDONLY | O_CLOEXEC | O_NONBLOCK);
    if (file < 0)
        return;
    bool is_told = fstat(file, &found) != 0 || !S_ISREG(found.st_mode) || found.st_size % 4096 == 0;
    if (!is_told && pread(file, head, sizeof head, 0) >= 0 && memcmp(head + 4, magic, sizeof magic) != 0)
        complain("%s: it is no file of message queues", path);
    (void)close(file);
}

static int list(struct listing *it) {
    struct proved proved;
    if (it->follows)
        return follow(it->places[0], it->places[1]);
    if (!proved_begin(&proved, it->words, false))
        return FAULT;
    bool is_printed = print_table(it, proved.output);
    int status = proved_end(&proved);
    if (status == FAULT)
        tell_foreign(it->places[0]);
    if (is_printed || status != DONE)
        return status;
    complain("standard output: it can't be written");
    return FAULT;
}

int list_run(int count, char **words) {
    struct listing it = {.words = calloc((size_t)count + 3, sizeof(char *))};
    static char name[] = "msgq", verb[] = "list";
    if (it.words == NULL) {
        complain("%s", strerror(errno));
        return FAULT;
    }
    it.words[it.count++] = name;
    it.words[it.count++] = verb;
    int status = read_listing(&it, count, words);
    if (status == DONE)
        status = list(&it);
    free(it.words);
    return status < 0 ? DONE : status;
}
