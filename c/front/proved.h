/* The proved program, behind this one. */
#ifndef MSGQ_PROVED_H
#define MSGQ_PROVED_H

#include <stdbool.h>
#include <stdio.h>
#include <sys/types.h>

/* Becomes the proved program with these words, of which the first names it; returns FAULT where that can't be, which
 * was said. */
int proved_become(char **words);

/* The proved program while it runs. */
struct proved {
    pid_t child;
    FILE *output; /* what it prints */
    FILE *errors; /* what it says, where that was asked for; else it goes where this program's goes */
};

/* Begins it with these words. Where that can't be this is said, and it is false. */
bool proved_begin(struct proved *it, char **words, bool hears);

/* Waits for its end: its exit status, or FAULT where it has none. */
int proved_end(struct proved *it);

/* The same of one whose errors are heard, which are said where it did not end well: of a file that is served it says that
 * this is open, which is no news. */
int proved_end_quietly(struct proved *it);

#endif
