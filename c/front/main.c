/* The program `msgq`: the verbs of its table run here, over libmsgq; every other command is handed to the proved
 * program, which takes the place of this process. */
#include "front.h"
#include "groups.h"
#include "proved.h"
#include "served.h"

#include <stdarg.h>
#include <stdio.h>
#include <stdlib.h>
#include <string.h>

const struct verb VERBS[] = {
    {"do", "Takes a message, and runs a command on it", do_run},
    {"serve", "Serves a file to other processes, through a socket", serve_run},
    {"with", "Runs a command whose message queues are those of a file", with_run},
    {"list", NULL, list_run},
    {"stat", NULL, stat_run},
    {"top", "Shows the queues of a file, renewed each second", top_run},
    {NULL, NULL, NULL},
};

void complain(const char *format, ...) {
    char line[2048];
    va_list words;
    va_start(words, format);
    (void)vsnprintf(line, sizeof line, format, words);
    va_end(words);
    /* One write, so that lines of several workers stay whole. Nobody is left to be told where it fails. */
    (void)!fprintf(stderr, "msgq: %s\n", line);
}

/* ---- help */

/* Prints a line of the proved program's help, and what this program adds: its verbs before the last command, which is
 * `help`, and their status behind the last one. */
static void print_line(const char *line, bool *is_behind_status) {
    int column = 0;
    /* `  help     Print ..`: the others begin at its columns. */
    (void)sscanf(line, "  help %n", &column);
    if (column > 0)
        for (const struct verb *it = VERBS; it->name != NULL; it++)
            if (it->about != NULL)
                printf("  %-*s%s\n", column - 2, it->name, it->about);
    if (*is_behind_status && strncmp(line, "     ", 5) != 0) {
        printf("  %d  of do: its command did not end with 0, and its message was given back\n", FAILED);
        *is_behind_status = false;
    }
    *is_behind_status |= strncmp(line, "  4  ", 5) == 0;
    (void)fputs(line, stdout);
}

static bool print_with_verbs(FILE *said) {
    char *line = NULL;
    size_t room = 0;
    bool is_behind_status = false;
    while (getline(&line, &room, said) >= 0)
        print_line(line, &is_behind_status);
    free(line);
    return fflush(stdout) == 0 && !ferror(stdout) && !ferror(said);
}

/* Runs the proved program for its help, which lists the verbs of this one too. */
static int print_help(char **argv) {
    struct proved proved;
    if (!proved_begin(&proved, argv, false))
        return FAULT;
    bool is_printed = print_with_verbs(proved.output);
    int status = proved_end(&proved);
    if (!is_printed)
        complain("standard output: it can't be written");
    return is_printed ? status : FAULT;
}

static bool is_one_of(const char *word, const char *const *words) {
    while (*words != NULL && strcmp(*words, word) != 0)
        words++;
    return *words != NULL;
}

static const struct verb *find_verb(const char *word) {
    const struct verb *it = VERBS;
    while (it->name != NULL && strcmp(it->name, word) != 0)
        it++;
    return it->name == NULL ? NULL : it;
}

int main(int argc, char **argv) {
    static const char *const help[] = {"--help", "-h", "help", NULL};
    static char asks[] = "--help", *words[] = {asks, NULL};
    const struct verb *verb = argc < 2 ? NULL : find_verb(argv[1]);
    if (verb != NULL)
        return verb->run(argc - 2, argv + 2);
    if (argc == 2 && is_one_of(argv[1], help))
        return print_help(argv);
    /* `help do` is `do --help`. */
    if (argc == 3 && strcmp(argv[1], "help") == 0 && (verb = find_verb(argv[2])) != NULL)
        return verb->run(1, words);
    int status = argc < 1 ? MISUSE : groups_resolve(argv);
    if (status != DONE || (argc > 1 && served_run(argc - 1, argv + 1, &status)))
        return status;
    return proved_become(argv);
}
