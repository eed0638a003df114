/* The command lines of `send`, `receive`, `make`, `remove` and `set`, as the proved program spells them. */
#include "errand.h"
#include "../msgq.h"

#include <errno.h>
#include <stddef.h>
#include <stdlib.h>
#include <string.h>

/* Which verbs an option is of. */
enum {
    OF_SEND = 1 << SENDS, OF_RECEIVE = 1 << RECEIVES, OF_MAKE = 1 << MAKES, OF_SET = 1 << SETS,
    OF_ALL = OF_SEND | OF_RECEIVE | OF_MAKE | 1 << REMOVES | OF_SET
};

static const char *const VERBS_OF_CALLS[] = {"send", "receive", "make", "remove", "set"};

/* The greatest number that an option takes. */
static bool read_up_to(const char *word, uint64_t most, uint64_t *number) {
    if (word == NULL || *word == '\0' || strspn(word, "0123456789") != strlen(word))
        return false;
    errno = 0;
    *number = strtoull(word, NULL, 10);
    return errno == 0 && *number <= most;
}

/* Three octal digits, with a 0 in front or without. */
static bool read_mode(const char *word, int32_t *mode) {
    size_t length = word == NULL ? 0 : strlen(word);
    if ((length != 3 && !(length == 4 && *word == '0')) || strspn(word, "01234567") != length)
        return false;
    *mode = (int32_t)strtol(word, NULL, 8);
    return true;
}

static bool read_into(const char *word, uint64_t most, int64_t *into) {
    uint64_t number;
    if (*into >= 0 || !read_up_to(word, most, &number))
        return false;
    *into = (int64_t)number;
    return true;
}

/* ---- options with a value */

static bool read_type_of(struct errand *it, const char *value) {
    return value != NULL && read_type(value, &it->type);
}

static bool read_size(struct errand *it, const char *value) {
    uint64_t size;
    if (!read_up_to(value, UINT32_MAX, &size))
        return false;
    it->size = (uint32_t)size;
    return true;
}

static bool read_new_mode(struct errand *it, const char *value) {
    return it->settings.mode < 0 && read_mode(value, &it->settings.mode);
}

static bool read_qbytes(struct errand *it, const char *value) {
    return read_into(value, UINT32_MAX, &it->settings.qbytes);
}

static bool read_owner(struct errand *it, const char *value) {
    return read_into(value, UINT32_MAX, &it->settings.owner);
}

static bool read_group(struct errand *it, const char *value) {
    return read_into(value, UINT32_MAX, &it->settings.group);
}

/* The queue is of this group and of mode 660. */
static bool read_shared(struct errand *it, const char *value) {
    if (!read_group(it, value))
        return false;
    if (it->settings.mode < 0)
        it->settings.mode = 0660;
    return true;
}

/* How many pages a new file gets: this one is there. */
static bool read_pages(struct errand *it, const char *value) {
    uint64_t pages;
    it->has_pages = true;
    return read_up_to(value, 65536, &pages) && pages >= 258;
}

/* Of these the number is the proved program's to use, and a served file takes none. */
static bool read_serial(struct errand *it, const char *value) {
    uint64_t serial;
    it->refused = "--serial";
    return read_up_to(value, UINT64_MAX, &serial) && serial > 0;
}

static bool read_caller(struct errand *it, const char *value, const char *name) {
    uint64_t number;
    it->refused = name;
    return read_up_to(value, UINT32_MAX, &number);
}

static bool read_pid(struct errand *it, const char *value) {
    return read_caller(it, value, "--pid");
}

static bool read_uid(struct errand *it, const char *value) {
    return read_caller(it, value, "--uid");
}

static bool read_gid(struct errand *it, const char *value) {
    return read_caller(it, value, "--gid");
}

static const struct valued {
    const char *name;
    char letter;
    int verbs;
    bool (*read)(struct errand *, const char *value);
} VALUED[] = {
    {"--type", 't', OF_SEND | OF_RECEIVE, read_type_of},
    {"--size", '\0', OF_RECEIVE, read_size},
    {"--mode", '\0', OF_SEND | OF_RECEIVE | OF_MAKE | OF_SET, read_new_mode},
    {"--qbytes", '\0', OF_SEND | OF_RECEIVE | OF_MAKE | OF_SET, read_qbytes},
    {"--owner", '\0', OF_SEND | OF_RECEIVE | OF_MAKE | OF_SET, read_owner},
    {"--group", '\0', OF_SEND | OF_RECEIVE | OF_MAKE | OF_SET, read_group},
    {"--shared", '\0', OF_SEND | OF_RECEIVE | OF_MAKE, read_shared},
    {"--pages", 'p', OF_SEND | OF_RECEIVE, read_pages},
    {"--serial", '\0', OF_RECEIVE, read_serial},
    {"--pid", '\0', OF_ALL, read_pid},
    {"--uid", '\0', OF_ALL, read_uid},
    {"--gid", '\0', OF_ALL, read_gid},
};

/* ---- options without one */

static const struct flag {
    const char *name;
    char letter;
    int verbs;
    size_t place; /* of a bool in the errand */
} FLAGS[] = {
    {"--lines", 'l', OF_SEND, offsetof(struct errand, has_lines)},
    {"--verbose", 'v', OF_SEND, offsetof(struct errand, tells_serials)},
    {"--create", 'c', OF_SEND | OF_RECEIVE, offsetof(struct errand, creates)},
    {"--all", 'a', OF_RECEIVE, offsetof(struct errand, takes_all)},
    {"--header", '\0', OF_RECEIVE, offsetof(struct errand, has_header)},
    {"--noerror", '\0', OF_RECEIVE, offsetof(struct errand, may_cut)},
};

enum found { NO_OPTION, TAKEN, WRONG };

static enum found take_flag(struct errand *it, struct words *words) {
    const char *value;
    for (size_t at = 0; at < sizeof FLAGS / sizeof *FLAGS; at++) {
        bool *said = (bool *)((char *)it + FLAGS[at].place);
        if ((FLAGS[at].verbs & 1 << it->deed) == 0 || !take_option(words, FLAGS[at].name, FLAGS[at].letter, &value))
            continue;
        if (value != NULL || *said)
            return WRONG;
        *said = true;
        return TAKEN;
    }
    return NO_OPTION;
}

static enum found take_valued(struct errand *it, struct words *words) {
    const char *value;
    for (size_t at = 0; at < sizeof VALUED / sizeof *VALUED; at++)
        if ((VALUED[at].verbs & 1 << it->deed) != 0 && take_option(words, VALUED[at].name, VALUED[at].letter, &value))
            return VALUED[at].read(it, take_value(words, value)) ? TAKEN : WRONG;
    return NO_OPTION;
}

/* `--wait` takes the next word where that is seconds, and FILE and KEY are still to come or were said. */
static enum found take_wait(struct errand *it, struct words *words, int missing) {
    const char *value;
    bool may_wait = it->deed == SENDS || it->deed == RECEIVES;
    if (may_wait && it->deed == SENDS && take_option(words, "--nowait", '\0', &value))
        return value == NULL && !it->waits ? TAKEN : WRONG;
    if (!may_wait || !take_option(words, "--wait", 'w', &value))
        return NO_OPTION;
    if (it->waits)
        return WRONG;
    it->waits = true;
    if (value == NULL && words->count > missing && read_seconds(words->at[0], &it->limit))
        value = take_value(words, NULL);
    it->has_limit = value != NULL;
    return value == NULL || read_seconds(value, &it->limit) ? TAKEN : WRONG;
}

/* ---- a command line */

static bool read_places(struct errand *it, int count, const char **places) {
    bool has_input = it->deed == SENDS && count == 3 && strcmp(places[2], "-") == 0;
    if (count != 2 && !has_input)
        return false;
    it->file = places[0];
    it->names_input = has_input;
    it->is_private = it->deed == MAKES && strcmp(places[1], "private") == 0;
    return it->is_private || (read_name(places[1], &it->queue) && !(it->deed == MAKES && it->queue.is_id));
}

static bool has_settings(const struct settings *it) {
    return it->qbytes >= 0 || it->owner >= 0 || it->group >= 0 || it->mode >= 0;
}

/* What stands only with another option. */
static bool is_consistent(const struct errand *it) {
    bool makes = it->creates || it->deed == MAKES || it->deed == SETS;
    if ((has_settings(&it->settings) && !makes) || (it->has_pages && !it->creates))
        return false;
    if (it->deed == SENDS && it->type < 1)
        return false;
    return it->deed != SETS || has_settings(&it->settings);
}

static bool read_words(struct errand *it, struct words *words) {
    const char *places[3] = {NULL, NULL, NULL};
    int count = 0;
    while (words->count > 0) {
        const char *word = words->at[0];
        bool is_place = *word != '-' || strcmp(word, "-") == 0;
        if (is_place && count == 3)
            return false;
        if (is_place) {
            places[count++] = word;
            words->at++;
            words->count--;
            continue;
        }
        enum found found = take_flag(it, words);
        if (found == NO_OPTION)
            found = take_valued(it, words);
        if (found == NO_OPTION)
            found = take_wait(it, words, count < 2 ? 2 - count : 0);
        if (found != TAKEN)
            return false;
    }
    return read_places(it, count, places) && is_consistent(it);
}

bool read_errand(struct errand *it, int count, char **at) {
    int verb = 0, verbs = sizeof VERBS_OF_CALLS / sizeof *VERBS_OF_CALLS;
    while (verb < verbs && (count == 0 || strcmp(at[0], VERBS_OF_CALLS[verb]) != 0))
        verb++;
    if (verb == verbs)
        return false;
    struct words words = {count - 1, at + 1};
    *it = (struct errand){
        .deed = (enum deed)verb,
        .settings = {-1, -1, -1, -1},
        .type = verb == SENDS ? 1 : 0,
        .size = MSGQ_MAX_BODY,
    };
    return read_words(it, &words);
}
