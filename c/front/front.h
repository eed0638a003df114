/* What the verbs of the program share. */
#ifndef MSGQ_FRONT_H
#define MSGQ_FRONT_H

#include <stdbool.h>
#include <stdint.h>

/* The exit statuses of man/msgq.1. */
enum status {
    DONE = 0,
    FAULT = 1,   /* a file or the system failed */
    MISUSE = 2,  /* the command line is wrong, and nothing was opened */
    NOTHING = 3, /* no message, or no room */
    REFUSED = 4, /* any other refusal */
    FAILED = 5,  /* the command of `do` failed, and its message was given back */
};

/* A verb that this program does itself. */
struct verb {
    const char *name;
    const char *about; /* NULL for one that the proved program's help lists */
    /* Takes the words behind the verb, with a NULL behind them. */
    int (*run)(int count, char **words);
};

/* The verbs, with a NULL behind them. */
extern const struct verb VERBS[];

int do_run(int count, char **words);
int list_run(int count, char **words);
int stat_run(int count, char **words);
int top_run(int count, char **words);
int serve_run(int count, char **words);
int with_run(int count, char **words);

/* Prints a line on standard error, behind `msgq: `. */
void complain(const char *format, ...) __attribute__((format(printf, 1, 2)));

#endif
