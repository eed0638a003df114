/* A terminal that shows one page, and is as it was before at the end. */
#ifndef MSGQ_SCREEN_H
#define MSGQ_SCREEN_H

#include <stdbool.h>
#include <stddef.h>
#include <termios.h>
#include <time.h>

struct screen {
    struct termios before;
    int signals;           /* where those that end this process, and a change of the size, are read */
    size_t rows, columns;  /* its size */
};

/* What has come: a key; a change of the size; an end by 'q', Ctrl-C, a signal, or a terminal that is gone; or
 * nothing until the moment was over. */
enum { SCREEN_RESIZED = 256, SCREEN_ENDED, SCREEN_WAITED };

/* Takes the terminal. 0, or the number of an error. */
int screen_begin(struct screen *it);
void screen_end(struct screen *it);

/* Waits for a key up to a moment (of CLOCK_MONOTONIC). */
int screen_wait(struct screen *it, const struct timespec *end);

/* Puts a line at a row, from 0 on, cut where the screen ends; a row behind the last one is left out. */
void screen_put(const struct screen *it, size_t row, const char *line, bool is_bright);

#endif
