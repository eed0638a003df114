/* Moments, limits and ends. */
#include "queues.h"

#include <errno.h>

uint64_t moment(void) {
    time_t now = time(NULL);
    return now < 0 ? 0 : (uint64_t)now;
}

const struct timespec *msgq_within(int64_t milliseconds) {
    static _Thread_local struct timespec limit;
    if (milliseconds < 0)
        return NULL;
    limit.tv_sec = (time_t)(milliseconds / 1000);
    limit.tv_nsec = (long)(milliseconds % 1000) * 1000000;
    return &limit;
}

int end_of(const struct timespec *limit, struct timespec *end) {
    /* A hundred years: as good as one without end. */
    static const time_t LONG = 3155760000;
    if (clock_gettime(CLOCK_MONOTONIC, end) != 0)
        return errno;
    end->tv_sec += limit->tv_sec < LONG ? limit->tv_sec : LONG;
    end->tv_nsec += limit->tv_nsec;
    if (end->tv_nsec >= SECOND) {
        end->tv_sec++;
        end->tv_nsec -= SECOND;
    }
    return 0;
}

int left_until(const struct timespec *end, struct timespec *left) {
    struct timespec now;
    if (clock_gettime(CLOCK_MONOTONIC, &now) != 0)
        return errno;
    left->tv_sec = end->tv_sec - now.tv_sec;
    left->tv_nsec = end->tv_nsec - now.tv_nsec;
    if (left->tv_nsec < 0) {
        left->tv_sec--;
        left->tv_nsec += SECOND;
    }
    if (left->tv_sec < 0)
        *left = (struct timespec){0, 0};
    return 0;
}
