/* Moments, in seconds since the beginning of 1970, as dates of the clock. */
#ifndef MSGQ_MOMENTS_H
#define MSGQ_MOMENTS_H

#include <stdbool.h>
#include <stdint.h>

/* By which clock dates are read and shown: UTC, or that of TZ. */
struct clock {
    bool is_utc;
};

enum { DATE_BYTES = 64 };

/* A decimal number of 64 bits. */
bool read_count(const char *word, uint64_t *count);

/* Reads a date, `2026-11-28`, with a time behind a space or `T`, `15:04` or `15:04:05`; or a number of seconds. */
bool read_moment(const struct clock *clock, const char *word, uint64_t *moment);

/* The date of a moment that is given as its digits, as `2026-11-28 15:04:05`; `-` for 0, which is before the first; the
 * digits where the clock has no date for it. It stands in `date`, or is `digits`. */
const char *date_of(const struct clock *clock, const char *digits, char date[DATE_BYTES]);

#endif
