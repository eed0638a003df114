/* The users whose clients there are: how many each has connected, and how many of its calls may wait now. */
#ifndef MSGQ_USERS_H
#define MSGQ_USERS_H

#include <stdint.h>

struct user {
    uint32_t id, clients, waits;
    struct user *next;
};

enum { USER_PLACES = 64 };

struct users {
    struct user *places[USER_PLACES];
};

/* The user of a client that comes, whom it counts for from then on. NULL where there is no memory. */
struct user *users_enter(struct users *it, uint32_t id);

/* One of its clients has gone: without one it is forgotten. */
void users_leave(struct users *it, struct user *user);

#endif
