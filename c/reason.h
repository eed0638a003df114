/* What msgq_reason and msgq_last_fault tell a thread of the last error that it was told. */
#ifndef MSGQ_REASON_H
#define MSGQ_REASON_H

#include "session.h"

#if defined(__GNUC__)
#define FORMAT(at) __attribute__((format(printf, at, at + 1)))
#define SELDOM __attribute__((cold)) /* the way there is no part of the way of a call that goes well */
#else
#define FORMAT(at)
#define SELDOM
#endif

/* As many bytes of a file's name stand in a sentence, with the zero behind them. */
#define NAME_BYTES 256

/* At the beginning of each call. */
void nothing_is_wrong(void);

/* Notes the cause of an error and gives its number on. Where none is noted it is what the system says of the number. */
int why(int wrong, const char *format, ...) FORMAT(2) SELDOM;

/* The same of what the system says of a journal, but for a cause that is noted already; 0 stays. */
int of_journal(int wrong);

/* Notes the fault of a number of a session, and gives the number of the error. */
int error_of(uint32_t code);

/* The sentence that a file, or the program, is not dealt with as was asked: `NAME: what: cause`. Gives the number on; 0 stays. Of a call
 * the first sentence stands. */
int fails(int wrong, const char *name, const char *what);

/* How a sentence names a queue. */
struct subject {
    bool has_key; /* else it is named by its id */
    int64_t number;
};

static inline struct subject of_key(int64_t key) {
    return (struct subject){true, key};
}

static inline struct subject of_id(uint32_t id) {
    return (struct subject){false, id};
}

/* The sentence of a refusal, as `NAME: queue 7: ENOENT: cause`. Gives the number on; 0 stays. */
int refuses(int wrong, const char *name, struct subject it);

/* A file's name as it stands in a sentence: its end, where it is long, and a question mark for each byte of control. */
void spell_name(char *into, const char *path);

/* Notes what is wrong with the bytes of a file by the number that its opening was given. */
void tell_fault(uint32_t code, const uint8_t *bytes, size_t count);

#endif
