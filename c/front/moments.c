/* Moments as dates of the clock. */
#include "moments.h"

#include <errno.h>
#include <stdio.h>
#include <stdlib.h>
#include <string.h>
#include <time.h>

bool read_count(const char *word, uint64_t *count) {
    if (*word == '\0' || strspn(word, "0123456789") != strlen(word))
        return false;
    errno = 0;
    *count = strtoull(word, NULL, 10);
    return errno == 0;
}

/* Whether mktime or timegm has left a date as it was read: it is one of the calendar, and of the clock. */
static bool is_same(const struct tm *one, const struct tm *other) {
    return one->tm_year == other->tm_year && one->tm_mon == other->tm_mon && one->tm_mday == other->tm_mday
           && one->tm_min == other->tm_min && one->tm_sec == other->tm_sec;
}

bool read_moment(const struct clock *clock, const char *word, uint64_t *moment) {
    struct tm date = {.tm_isdst = -1};
    int day = 0, minute = 0, second = 0;
    char between = ' ';
    if (read_count(word, moment))
        return true;
    if (*word < '0' || *word > '9')
        return false;
    int found = sscanf(word, "%4d-%2d-%2d%n%c%2d:%2d%n:%2d%n", &date.tm_year, &date.tm_mon, &date.tm_mday, &day,
                       &between, &date.tm_hour, &date.tm_min, &minute, &date.tm_sec, &second);
    int end = found == 7 ? second : found == 6 ? minute : found == 3 ? day : 0;
    if (end == 0 || word[end] != '\0' || (between != ' ' && between != 'T') || date.tm_hour > 23 || date.tm_hour < 0)
        return false;
    date.tm_year -= 1900;
    date.tm_mon--;
    struct tm read = date;
    time_t seconds = clock->is_utc ? timegm(&read) : mktime(&read);
    *moment = (uint64_t)seconds;
    return seconds >= 0 && is_same(&date, &read);
}

const char *date_of(const struct clock *clock, const char *digits, char date[DATE_BYTES]) {
    struct tm parts;
    uint64_t moment;
    if (!read_count(digits, &moment))
        return digits;
    if (moment == 0)
        return "-";
    time_t seconds = (time_t)moment;
    if (moment > INT64_MAX || (clock->is_utc ? gmtime_r(&seconds, &parts) : localtime_r(&seconds, &parts)) == NULL)
        return digits;
    return strftime(date, DATE_BYTES, "%Y-%m-%d %H:%M:%S", &parts) > 0 ? date : digits;
}
