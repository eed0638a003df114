/* Reads the command line of `msgq serve`. */
#include "options.h"
#include "../front/front.h"
#include "../front/words.h"

#include <errno.h>
#include <grp.h>
#include <inttypes.h>
#include <stdio.h>
#include <stdlib.h>
#include <string.h>

#define CALL "msgq serve [OPTIONS] <FILE>"

enum { PAGES = 4096, CLIENTS = 4096, MOST_CLIENTS = 1 << 20, WAITS = 4096, MOST_WAITS = 1 << 16 };
enum { MOST_EVERY = 86400000 };

static const char USAGE[] =
    "Serves a file to other processes, through a socket\n"
    "\n"
    "Usage: " CALL "\n"
    "\n"
    "Arguments:\n"
    "  <FILE>  The file of queues\n"
    "\n"
    "Options:\n"
    "  -s, --socket <PATH>  Where the socket is bound [default: FILE.socket]\n"
    "      --mode <OOO>     Who may connect: the mode of the socket [default: 600]\n"
    "      --group <GROUP>  The group of the socket, by its name or its number\n"
    "      --durable        Answer once the file has on the disk what was done [default]\n"
    "      --every <MS>     Answer before that, and save every so many milliseconds\n"
    "      --in-memory      Save at the end, and where a client or a signal asks for it\n"
    "  -c, --create         Make FILE where there is none\n"
    "  -p, --pages <N>      Make it of so many pages [default: 4096]\n"
    "      --clients <N>    As many may be connected at once [default: 4096]\n"
    "      --waits <N>      As many calls may wait at once [default: 4096]\n"
    "      --user-clients <N>  As many of one user may be connected at once [default: as many as may be]\n"
    "      --user-waits <N>    As many calls of one user may wait at once [default: as many as may]\n"
    "  -h, --help           Print help\n"
    "\n"
    "It stays in the foreground, and says on standard output once it serves. TERM and INT end it: the file is saved,\n"
    "and a call that waits is told that it was not made. HUP saves the file. A service manager may hand it the socket\n"
    "(LISTEN_FDS), and is told when it serves (NOTIFY_SOCKET).\n"
    "Exit status: 0 it was told to end, and the file is saved; 1 a fault; 2 the command line is wrong.\n"
    "More: docs/SHELL.md, docs/PROTOCOL.md, msgq(1).\n";

/* Says what is wrong with the command line, as the proved program does. */
static int misuse(const char *format, const char *word) {
    char what[512];
    (void)snprintf(what, sizeof what, format, word == NULL ? "" : word);
    complain("%s\n\nUsage: " CALL "\n\nFor more information, try '--help'.", what);
    return MISUSE;
}

/* A number of decimal digits, from 1 to the most. */
static bool read_count(const char *word, uint32_t most, uint32_t *count) {
    if (word == NULL || *word == '\0' || strlen(word) > 9 || strspn(word, "0123456789") != strlen(word))
        return false;
    *count = (uint32_t)strtoul(word, NULL, 10);
    return *count >= 1 && *count <= most;
}

/* Three octal digits, with a 0 in front or without. */
static bool read_mode(const char *word, mode_t *mode) {
    if (word == NULL)
        return false;
    const char *digits = word + (strlen(word) == 4 && *word == '0');
    if (strlen(digits) != 3 || strspn(digits, "01234567") != 3)
        return false;
    *mode = (mode_t)strtoul(digits, NULL, 8);
    return true;
}

static bool read_group(const char *word, gid_t *group) {
    if (word == NULL || *word == '\0')
        return false;
    if (strspn(word, "0123456789") == strlen(word)) {
        errno = 0;
        unsigned long long number = strtoull(word, NULL, 10);
        *group = (gid_t)number;
        /* The highest is none: chown(2) takes it for "as it is". */
        return errno == 0 && number < UINT32_MAX;
    }
    const struct group *found = getgrnam(word);
    if (found != NULL)
        *group = found->gr_gid;
    return found != NULL;
}

static bool choose(struct options *it, bool *is_chosen, enum durability durability) {
    bool is_first = !*is_chosen;
    *is_chosen = true;
    it->durability = durability;
    return is_first;
}

/* Reads an option that tells how durable an answer is; below 0 where the next word is another. */
static int read_durability(struct options *it, struct words *words, bool *is_chosen) {
    const char *value;
    bool is_first;
    if (take_option(words, "--durable", '\0', &value)) {
        is_first = choose(it, is_chosen, DURABLE);
    } else if (take_option(words, "--in-memory", '\0', &value)) {
        is_first = choose(it, is_chosen, IN_MEMORY);
    } else if (take_option(words, "--every", '\0', &value)) {
        is_first = choose(it, is_chosen, EVERY);
        value = take_value(words, value);
        if (!read_count(value, MOST_EVERY, &it->every))
            return misuse("'%s' is no time in milliseconds, from 1 to 86400000", value);
    } else {
        return -1;
    }
    return is_first ? DONE : misuse("%s can't be given together", "--durable, --every and --in-memory");
}

/* Reads an option of the socket; below 0 where the next word is another. */
static int read_socket(struct options *it, struct words *words) {
    const char *value;
    if (take_option(words, "--socket", 's', &value)) {
        it->socket = take_value(words, value);
        return it->socket != NULL && *it->socket != '\0' ? DONE : misuse("--socket needs a path%s", "");
    }
    if (take_option(words, "--mode", '\0', &value)) {
        value = take_value(words, value);
        it->has_mode = true;
        return read_mode(value, &it->mode) ? DONE : misuse("'%s' is no mode, three octal digits", value);
    }
    if (take_option(words, "--group", '\0', &value)) {
        value = take_value(words, value);
        it->has_group = true;
        return read_group(value, &it->group) ? DONE : misuse("'%s' is no group, a name or a number", value);
    }
    return -1;
}

/* Reads any other option; below 0 where the next word is none. */
static int read_other(struct options *it, struct words *words) {
    const char *value;
    if (take_option(words, "--create", 'c', &value)) {
        it->creates = true;
        return value == NULL ? DONE : misuse("--create takes no value%s", "");
    }
    if (take_option(words, "--pages", 'p', &value)) {
        value = take_value(words, value);
        it->creates = true;
        bool is_right = read_count(value, 65536, &it->pages) && it->pages >= 258;
        return is_right ? DONE : misuse("'%s' is no number of pages, from 258 to 65536", value);
    }
    return -1;
}

/* Reads an option that bounds what clients may have; below 0 where the next word is another. */
static int read_bound(struct options *it, struct words *words) {
    const struct bound {
        const char *name, *of;
        uint32_t most, *count;
    } all[] = {
        {"--clients", "clients", MOST_CLIENTS, &it->most.clients},
        {"--user-clients", "clients", MOST_CLIENTS, &it->most.user_clients},
        {"--waits", "calls", MOST_WAITS, &it->waits},
        {"--user-waits", "calls", MOST_WAITS, &it->most.user_waits},
    };
    const char *value;
    for (size_t at = 0; at < sizeof all / sizeof *all; at++) {
        char what[64];
        if (!take_option(words, all[at].name, '\0', &value))
            continue;
        value = take_value(words, value);
        (void)snprintf(what, sizeof what, "'%%s' is no number of %s, from 1 to %" PRIu32, all[at].of, all[at].most);
        return read_count(value, all[at].most, all[at].count) ? DONE : misuse(what, value);
    }
    return -1;
}

/* Reads the next word or two. */
static int read_next(struct options *it, struct words *words, bool *is_chosen) {
    const char *value;
    int status;
    if (take_option(words, "--help", 'h', &value))
        return fputs(USAGE, stdout) < 0 || fflush(stdout) != 0 ? FAULT : -1;
    if ((status = read_durability(it, words, is_chosen)) >= 0 || (status = read_socket(it, words)) >= 0
        || (status = read_bound(it, words)) >= 0 || (status = read_other(it, words)) >= 0)
        return status;
    if ((words->at[0][0] == '-' && words->at[0][1] != '\0') || it->file != NULL)
        return misuse("unexpected argument '%s' found", words->at[0]);
    it->file = take_value(words, NULL);
    return DONE;
}

int read_options(struct options *it, int count, char **at) {
    struct words words = {count, at};
    bool is_chosen = false;
    int status = DONE;
    *it = (struct options){.mode = 0600, .pages = PAGES, .waits = WAITS, .most = {CLIENTS, 0, 0}};
    while (status == DONE && words.count > 0)
        status = read_next(it, &words, &is_chosen);
    if (status != DONE)
        return status;
    if (it->most.user_clients == 0)
        it->most.user_clients = it->most.clients;
    if (it->most.user_waits == 0)
        it->most.user_waits = it->waits;
    return it->file != NULL ? DONE : misuse("the following required argument was not provided: %s", "<FILE>");
}
