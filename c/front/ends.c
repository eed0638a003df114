/* Ends of waits. */
#include "ends.h"

static const long SECOND = 1000000000; /* in nanoseconds */

bool end_after(struct timespec *limit) {
    struct timespec now;
    if (clock_gettime(CLOCK_MONOTONIC, &now) != 0)
        return false;
    limit->tv_sec += now.tv_sec + (limit->tv_nsec + now.tv_nsec) / SECOND;
    limit->tv_nsec = (limit->tv_nsec + now.tv_nsec) % SECOND;
    return true;
}

struct timespec time_left(const struct timespec *end) {
    struct timespec now, left = {0, 0};
    if (clock_gettime(CLOCK_MONOTONIC, &now) != 0)
        return left;
    left.tv_sec = end->tv_sec - now.tv_sec - (end->tv_nsec < now.tv_nsec);
    left.tv_nsec = end->tv_nsec - now.tv_nsec + (end->tv_nsec < now.tv_nsec ? SECOND : 0);
    return left.tv_sec < 0 ? (struct timespec){0, 0} : left;
}

bool is_over(const struct timespec *end) {
    struct timespec left = time_left(end);
    return left.tv_sec == 0 && left.tv_nsec == 0;
}
