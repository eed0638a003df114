/* Queues in pairs, one here and one of the system, and how what the two are answered is compared. */
#ifndef XSI_PAIRS_H
#define XSI_PAIRS_H

#include <stdbool.h>
#include <stdint.h>
#include <sys/types.h>

enum { MOST = 12, KEYS = 6, MOST_BODY = 1024, MOST_QBYTES = 65536, GONE_KEPT = 16 };

/* Why a call is answered otherwise here. */
enum rule { ALIKE, REMOVED, LONG_BODY, EXCEPT_OR_COPY, HIGH_QBYTES, RAISES, RULES };

/* A queue here and its like of the system. */
struct pair {
    int ours, theirs;
    key_t key;
    unsigned long qbytes, count;
    uid_t uid, cuid;
};

/* What the run is at. */
extern struct run {
    struct pair alive[MOST], gone[GONE_KEPT];
    int alive_count, gone_count;
    unsigned long rules[RULES], calls;
    const char *call; /* its name */
    bool is_root;
    uid_t user;
    uint64_t seed;
} run;

unsigned draw(unsigned below);
bool one_in(unsigned many);

/* Says what went wrong in this call, and ends. */
__attribute__((format(printf, 1, 2), noreturn)) void fail(const char *format, ...);

/* Compares what the two were answered, or what is answered here with what a rule says. */
void judge(enum rule rule, long ours, int our_errno, long theirs, int their_errno);

/* The same of a call on a queue, which may be a removed one. */
void judge_id(bool is_gone, long ours, int our_errno, long theirs, int their_errno);

/* Goes on as another user, where root runs this. */
void become(uid_t next);

/* Draws a pair that is alive, one that is gone, or none that ever was: its place in `alive`, or -1. */
int choose(struct pair *it, bool *is_gone);

void note_gone(int at);

void print_rules(void);

#endif
