/* Queues in pairs. */
#include "pairs.h"

#include <errno.h>
#include <limits.h>
#include <stdarg.h>
#include <stdio.h>
#include <stdlib.h>
#include <string.h>
#include <unistd.h>

struct run run = {.call = ""};

/* ---- chance */

unsigned draw(unsigned below) {
    run.seed = run.seed * 6364136223846793005u + 1442695040888963407u;
    return (unsigned)((run.seed >> 33) % below);
}

bool one_in(unsigned many) {
    return draw(many) == 0;
}

void fail(const char *format, ...) {
    va_list words;
    va_start(words, format);
    printf("call %lu, %s: ", run.calls, run.call);
    (void)vprintf(format, words);
    printf("\n");
    va_end(words);
    exit(1);
}

static const char *name_of(int wrong) {
    return wrong == 0 ? "0" : strerrorname_np(wrong);
}

void judge(enum rule rule, long ours, int our_errno, long theirs, int their_errno) {
    if (ours != theirs || (ours < 0 && our_errno != their_errno))
        fail("here %ld %s, and %s %ld %s", ours, name_of(ours < 0 ? our_errno : 0), rule == ALIKE ? "of the system" : "by rule",
             theirs, name_of(theirs < 0 ? their_errno : 0));
    run.rules[rule]++;
}

/* ---- who calls, and on what */

void become(uid_t next) {
    if (!run.is_root || next == run.user)
        return;
    if (seteuid(0) != 0 || setegid(next) != 0 || seteuid(next) != 0)
        fail("no user %u: %s", next, strerror(errno));
    run.user = next;
}

int choose(struct pair *it, bool *is_gone) {
    *is_gone = false;
    if (run.alive_count > 0 && !one_in(12)) {
        int at = (int)draw((unsigned)run.alive_count);
        *it = run.alive[at];
        return at;
    }
    if (run.gone_count > 0 && !one_in(4)) {
        *it = run.gone[draw((unsigned)run.gone_count)];
        *is_gone = true;
        return -1;
    }
    *it = (struct pair){.ours = one_in(2) ? -1 : INT_MAX};
    it->theirs = it->ours;
    return -1;
}

/* Of a removed one the system says EINVAL, unless something else is wrong before that. */
void judge_id(bool is_gone, long ours, int our_errno, long theirs, int their_errno) {
    if (is_gone && theirs < 0 && their_errno == EINVAL)
        judge(REMOVED, ours, our_errno, -1, EIDRM);
    else
        judge(ALIKE, ours, our_errno, theirs, their_errno);
}

void note_gone(int at) {
    run.gone[run.gone_count < GONE_KEPT ? run.gone_count++ : (int)draw(GONE_KEPT)] = run.alive[at];
    run.alive[at] = run.alive[--run.alive_count];
}

void print_rules(void) {
    static const char *const names[] = {
        "alike", "a removed id is EIDRM for ever", "a body over 1,024 bytes is EINVAL", "MSG_EXCEPT and MSG_COPY are EINVAL",
        "qbytes over 65,536 are EPERM", "who is not user 0 raises qbytes: EPERM",
    };
    for (int rule = 0; rule < RULES; rule++)
        printf("%s %lu %s", rule == 0 ? "" : ",", run.rules[rule], names[rule]);
    printf("\n");
}
