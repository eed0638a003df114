/* Names of users and groups are looked up, since the proved program knows numbers alone. */
#include "groups.h"

#include <errno.h>
#include <grp.h>
#include <pwd.h>
#include <stdio.h>
#include <stdlib.h>
#include <string.h>

/* The value of an option, where this word is that option: behind `=`, or else the next word; NULL for none. */
static const char *value_of(char **at, const char *option, bool *is_joined) {
    size_t length = strlen(option);
    if (strncmp(*at, option, length) != 0 || ((*at)[length] != '\0' && (*at)[length] != '='))
        return NULL;
    *is_joined = (*at)[length] == '=';
    return *is_joined ? *at + length + 1 : at[1];
}

/* The number of a name. Where there is none of it this is said. */
static int look_up(const char *option, const char *name, unsigned long *number) {
    bool is_user = strcmp(option, "--owner") == 0;
    errno = 0;
    struct passwd *user = is_user ? getpwnam(name) : NULL;
    struct group *group = is_user ? NULL : getgrnam(name);
    if (user == NULL && group == NULL) {
        complain("'%s' of %s is no number of 32 bits, and no %s has this name%s%s", name, option,
                 is_user ? "user" : "group", errno != 0 ? ": " : "", errno != 0 ? strerror(errno) : "");
        return MISUSE;
    }
    *number = is_user ? (unsigned long)user->pw_uid : (unsigned long)group->gr_gid;
    return DONE;
}

/* Puts the number of a name in its place. A value that begins with a digit is none, nor is an empty one: what is wrong
 * with those the proved program says. */
static int resolve(char **at, const char *option) {
    bool is_joined = false;
    unsigned long number = 0;
    const char *name = value_of(at, option, &is_joined);
    if (name == NULL || strchr("0123456789-", *name) != NULL)
        return DONE;
    int status = look_up(option, name, &number);
    size_t room = strlen(option) + 32;
    char *word = status == DONE ? malloc(room) : NULL;
    if (status == DONE && word == NULL) {
        complain("%s", strerror(errno));
        return FAULT;
    }
    if (word == NULL)
        return status;
    if (is_joined)
        (void)snprintf(word, room, "%s=%lu", option, number);
    else
        (void)snprintf(word, room, "%lu", number);
    at[is_joined ? 0 : 1] = word;
    return DONE;
}

int groups_resolve(char **words) {
    static const char *const verbs[] = {"send", "receive", "make", "set", NULL};
    static const char *const options[] = {"--group", "--shared", "--owner", NULL};
    const char *const *verb = verbs;
    if (words[0] == NULL || words[1] == NULL)
        return DONE;
    while (*verb != NULL && strcmp(words[1], *verb) != 0)
        verb++;
    if (*verb == NULL)
        return DONE;
    for (char **at = words + 2; *at != NULL && strcmp(*at, "--") != 0; at++)
        for (const char *const *option = options; *option != NULL; option++) {
            int status = resolve(at, *option);
            if (status != DONE)
                return status;
        }
    return DONE;
}
