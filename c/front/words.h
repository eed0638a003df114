/* The words of a command line, as those of the proved program are spelt. */
#ifndef MSGQ_WORDS_H
#define MSGQ_WORDS_H

#include <stdbool.h>
#include <stdint.h>
#include <time.h>

/* How a queue is named: by its key, or by its id behind `@`. */
struct name {
    bool is_id;
    uint32_t number;
};

/* The words that are left to read. */
struct words {
    int count;
    char **at;
};

/* Whether the next word is this option, long as `--type` or short as `t` behind one hyphen; its value, behind `=` or
 * behind the short name, goes to `value`, NULL for none. Takes the word. */
bool take_option(struct words *words, const char *name, char short_name, const char **value);

/* The value of an option: what stands behind it, or else the next word; NULL where there is none. */
const char *take_value(struct words *words, const char *value);

bool read_name(const char *word, struct name *name);
bool read_type(const char *word, int64_t *type);

/* Seconds, with parts of one behind a point. */
bool read_seconds(const char *word, struct timespec *seconds);

#endif
