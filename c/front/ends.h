/* Ends of waits, as moments of CLOCK_MONOTONIC. */
#ifndef MSGQ_ENDS_H
#define MSGQ_ENDS_H

#include <stdbool.h>
#include <time.h>

/* Makes the end of a wait of a limit that begins now. False where the clock can't be read. */
bool end_after(struct timespec *limit);

/* How long it is to an end, 0 where that is over. */
struct timespec time_left(const struct timespec *end);

bool is_over(const struct timespec *end);

#endif
