/* A table of users, by their numbers. */
#include "users.h"

#include <stdlib.h>

static struct user **place_of(struct users *it, uint32_t id) {
    struct user **at = &it->places[id % USER_PLACES];
    while (*at != NULL && (*at)->id != id)
        at = &(*at)->next;
    return at;
}

struct user *users_enter(struct users *it, uint32_t id) {
    struct user **at = place_of(it, id);
    if (*at == NULL && (*at = calloc(1, sizeof **at)) != NULL)
        (*at)->id = id;
    if (*at != NULL)
        (*at)->clients++;
    return *at;
}

void users_leave(struct users *it, struct user *user) {
    if (--user->clients > 0)
        return;
    *place_of(it, user->id) = user->next;
    free(user);
}
