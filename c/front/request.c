/* The command line of `msgq do`. */
#include "request.h"
#include "command.h"
#include "ends.h"
#include "front.h"

#include <errno.h>
#include <stdio.h>
#include <string.h>

#define CALL "msgq do [OPTIONS] <FILE> <KEY> -- <COMMAND> [ARGUMENT]..."

static const char USAGE[] =
    "Takes a message, and runs a command on it\n"
    "\n"
    "Usage: " CALL "\n"
    "       msgq do --recover <FILE>\n"
    "\n"
    "Arguments:\n"
    "  <FILE>     The file of queues\n"
    "  <KEY>      The queue: its key, or @ and its id\n"
    "  <COMMAND>  Gets the body on standard input; where it ends with 0 the message is gone, else it is back, last\n"
    "\n"
    "Options:\n"
    "  -t, --type <N>          Which message: 0 the first, N the first of a type, -N the first of the lowest type up "
    "to N [default: 0]\n"
    "  -w, --wait[=<SECONDS>]  Wait until there is a message, for so long or without end\n"
    "      --recover           Give back what dead workers had in hand, and run nothing\n"
    "  -h, --help              Print help\n"
    "\n"
    "While COMMAND runs the message stands in a private queue of FILE, which is not locked. Where msgq do is killed "
    "whoever calls it\n"
    "next gives the message back. COMMAND is told MSGQ_SERIAL, MSGQ_TYPE and MSGQ_SENDER.\n"
    "Exit status: 0 done; 1 a fault; 2 the command line is wrong; 3 there is no message; 4 any other refusal, which "
    "standard error\n"
    "names; 5 COMMAND did not end with 0, and the message was given back.\n"
    "More: docs/SHELL.md, msgq(1).\n";

/* Says what is wrong with the command line, as the proved program does. */
static int misuse(const char *format, const char *word) {
    char what[512];
    (void)snprintf(what, sizeof what, format, word);
    complain("%s\n\nUsage: " CALL "\n\nFor more information, try '--help'.", what);
    return MISUSE;
}

/* The moment so long from now. */
static int begin_wait(struct request *it, const struct timespec *limit) {
    it->end = *limit;
    if (end_after(&it->end))
        return DONE;
    complain("do: the clock can't be read: %s", strerror(errno));
    return FAULT;
}

/* Reads `--wait`, whose seconds stand behind `=`, or are the next word where that is a number and two more words are
 * to come. */
static int read_wait(struct request *it, struct words *words, int missing, const char *value) {
    struct timespec limit;
    int left = 0;
    it->waits = true;
    while (left < words->count && strcmp(words->at[left], "--") != 0)
        left++;
    if (value == NULL && left > missing && read_seconds(words->at[0], &limit))
        value = take_value(words, NULL);
    if (value == NULL)
        return DONE;
    it->has_end = true;
    return read_seconds(value, &limit) ? begin_wait(it, &limit) : misuse("'%s' is no timeout in seconds", value);
}

/* Reads the words in front of `--`: FILE, KEY and options, in any order. */
static int read_words(struct request *it, struct words *words) {
    const char *value, *names[2];
    int count = 0;
    while (words->count > 0 && strcmp(words->at[0], "--") != 0) {
        int status = DONE;
        if (take_option(words, "--help", 'h', &value)) {
            return fputs(USAGE, stdout) < 0 || fflush(stdout) != 0 ? FAULT : -1;
        } else if (take_option(words, "--recover", '\0', &value)) {
            it->recovers = true;
        } else if (take_option(words, "--type", 't', &value)) {
            value = take_value(words, value);
            if (value == NULL || !read_type(value, &it->type))
                return misuse("'%s' is no type, a decimal number of 64 bits", value == NULL ? "" : value);
        } else if (take_option(words, "--wait", 'w', &value)) {
            status = read_wait(it, words, 2 - count, value);
        } else if (words->at[0][0] == '-' || count == 2) {
            return misuse("unexpected argument '%s' found", words->at[0]);
        } else {
            names[count++] = take_value(words, NULL);
        }
        if (status != DONE)
            return status;
    }
    if (count < 1)
        return misuse("the following required argument was not provided: %s", "<FILE>");
    it->file = names[0];
    it->queue.is_id = it->recovers;
    if (it->recovers)
        return count > 1 || words->count > 0 ? misuse("%s takes a file, and nothing else", "--recover") : DONE;
    if (count < 2)
        return misuse("the following required argument was not provided: %s", "<KEY>");
    return read_name(names[1], &it->queue) ? DONE
                                           : misuse("'%s' is no key, a number of 32 bits, nor @ and an id", names[1]);
}

int read_request(struct request *it, int count, char **at) {
    struct words words = {count, at};
    *it = (struct request){.command = NULL};
    int status = read_words(it, &words);
    if (status != DONE || it->recovers)
        return status;
    if (words.count < 2)
        return misuse("the following required argument was not provided: %s",
                      words.count == 0 ? "-- <COMMAND>" : "<COMMAND>");
    it->command = words.at + 1;
    /* So that a slip of the pen takes no message, and puts it last. */
    return command_is_found(it->command[0]) ? DONE : misuse("'%s' is no command that can be run", it->command[0]);
}
