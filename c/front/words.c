/* Words that are options, names and numbers. */
#include "words.h"

#include <errno.h>
#include <stdlib.h>
#include <string.h>

static void advance(struct words *words) {
    words->at++;
    words->count--;
}

bool take_option(struct words *words, const char *name, char short_name, const char **value) {
    const char *word = words->at[0];
    size_t length = strlen(name);
    if (strncmp(word, name, length) == 0 && (word[length] == '\0' || word[length] == '='))
        *value = word[length] == '=' ? word + length + 1 : NULL;
    else if (short_name != '\0' && word[0] == '-' && word[1] == short_name)
        *value = word[2] == '\0' ? NULL : word + (word[2] == '=' ? 3 : 2);
    else
        return false;
    advance(words);
    return true;
}

const char *take_value(struct words *words, const char *value) {
    if (value == NULL && words->count > 0) {
        value = words->at[0];
        advance(words);
    }
    return value;
}

/* A number of 32 bits, of digits alone or behind `0x`. */
static bool read_number(const char *word, bool may_be_hex, uint32_t *number) {
    bool is_hex = may_be_hex && word[0] == '0' && (word[1] == 'x' || word[1] == 'X');
    const char *digits = is_hex ? word + 2 : word;
    if (*digits == '\0' || strspn(digits, is_hex ? "0123456789abcdefABCDEF" : "0123456789") != strlen(digits))
        return false;
    errno = 0;
    unsigned long long found = strtoull(digits, NULL, is_hex ? 16 : 10);
    *number = (uint32_t)found;
    return errno == 0 && found <= UINT32_MAX;
}

bool read_name(const char *word, struct name *name) {
    name->is_id = *word == '@';
    return read_number(word + name->is_id, !name->is_id, &name->number);
}

bool read_type(const char *word, int64_t *type) {
    const char *digits = word + (*word == '-');
    char *end;
    if (*digits == '\0' || strspn(digits, "0123456789") != strlen(digits))
        return false;
    errno = 0;
    long long found = strtoll(word, &end, 10);
    *type = found;
    return errno == 0;
}

bool read_seconds(const char *word, struct timespec *seconds) {
    size_t whole = strspn(word, "0123456789"), parts = 0;
    const char *behind = word + whole;
    long part = 100000000;
    *seconds = (struct timespec){0, 0};
    if (*behind == '.') {
        parts = strspn(++behind, "0123456789");
        for (size_t at = 0; at < parts; at++, part /= 10)
            seconds->tv_nsec += (behind[at] - '0') * part;
    }
    if (whole == 0 || whole > 10 || behind[parts] != '\0' || (behind != word + whole && parts == 0))
        return false;
    seconds->tv_sec = (time_t)strtoll(word, NULL, 10);
    return true;
}
