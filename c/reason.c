/* Why a call was not done, in a sentence for each thread. */
#include "reason.h"
#include "msgq.h"

#include <errno.h>
#include <stdarg.h>
#include <stdio.h>
#include <string.h>

static _Thread_local unsigned last_fault;
static _Thread_local char cause[384], sentence[1024];

unsigned msgq_last_fault(void) {
    return last_fault;
}

const char *msgq_reason(void) {
    return sentence;
}

void nothing_is_wrong(void) {
    last_fault = 0;
    cause[0] = sentence[0] = '\0';
}

int why(int wrong, const char *format, ...) {
    va_list words;
    va_start(words, format);
    (void)vsnprintf(cause, sizeof cause, format, words);
    va_end(words);
    return wrong;
}

/* What the system says of a number. */
static const char *said(int wrong, char *room, size_t size) {
    if (strerror_r(wrong, room, size) != 0)
        (void)snprintf(room, size, "error %d", wrong);
    return room;
}

int of_journal(int wrong) {
    char room[128];
    return wrong == 0 || cause[0] != '\0' ? wrong : why(wrong, "its journal: %s", said(wrong, room, sizeof room));
}

int error_of(uint32_t code) {
    static const int refusals[] = {0,      E2BIG,  EAGAIN, EEXIST, EIDRM,  EINTR,
                                   EINVAL, ENOENT, ENOMSG, ENOSPC, EACCES, EPERM};
    if (code < sizeof refusals / sizeof *refusals)
        return refusals[code];
    last_fault = code < WAITS ? code : 0;
    switch (code) {
    case NO_ROOM:
        return why(ENOSPC, "the file has no room for a record: 'msgq grow' makes it larger");
    case NO_MEMORY:
        return why(ENOMEM, "out of memory");
    case FAILED:
        return why(EIO, "the file has failed: it is to be opened anew");
    case NO_PAGE:
        return why(EINVAL, "a file has 258 to 65536 pages");
    case FOREIGN:
        return why(EBADMSG, "the calls in its journal are of another file: put the file or the journal that belongs there");
    case OTHER_VERSION:
        return why(ENOTSUP, "its journal is of another version");
    case OTHER_FILE:
        return why(EBADMSG, "its journal is of another file: put the file or the journal that belongs there");
    case IN_USE:
        return EBUSY;
    case NO_SESSION:
        return EBADF;
    default:
        return EBADMSG;
    }
}

static const char *name_of(int wrong) {
    static const struct {
        int number;
        const char *name;
    } names[] = {
        {E2BIG, "E2BIG"},   {EAGAIN, "EAGAIN"}, {EEXIST, "EEXIST"}, {EIDRM, "EIDRM"},         {EINTR, "EINTR"},
        {EINVAL, "EINVAL"}, {ENOENT, "ENOENT"}, {ENOMSG, "ENOMSG"}, {ENOSPC, "ENOSPC"},       {EACCES, "EACCES"},
        {EPERM, "EPERM"},   {EBUSY, "EBUSY"},   {ENOMEM, "ENOMEM"}, {ETIMEDOUT, "ETIMEDOUT"}, {EIO, "EIO"},
        {ENOTSUP, "ENOTSUP"},
    };
    for (size_t at = 0; at < sizeof names / sizeof *names; at++)
        if (names[at].number == wrong)
            return names[at].name;
    return "error";
}

/* Writes the sentence of two beginnings, of which the second may be empty, and the cause. One that was written of this call stays. */
static int say(int wrong, const char *name, const char *what) {
    char room[128], fault[32] = "";
    if (sentence[0] != '\0')
        return wrong;
    if (cause[0] == '\0')
        (void)why(wrong, "%s", said(wrong, room, sizeof room));
    if (last_fault != 0)
        (void)snprintf(fault, sizeof fault, " (fault %u)", last_fault);
    (void)snprintf(sentence, sizeof sentence, "%s: %s%s: %s", name, what, fault, cause);
    return wrong;
}

int fails(int wrong, const char *name, const char *what) {
    return wrong == 0 ? 0 : say(wrong, name, what);
}

int refuses(int wrong, const char *name, struct subject it) {
    char what[64];
    if (wrong == 0)
        return 0;
    if (it.has_key && it.number == MSGQ_PRIVATE)
        (void)snprintf(what, sizeof what, "a private queue: %s", name_of(wrong));
    else
        (void)snprintf(what, sizeof what, "queue %s%lld: %s", it.has_key ? "" : "@", (long long)it.number, name_of(wrong));
    return say(wrong, name, what);
}

void spell_name(char *into, const char *path) {
    size_t length = strlen(path), from = length < NAME_BYTES ? 0 : length - (NAME_BYTES - 4);
    (void)snprintf(into, NAME_BYTES, "%s%s", from > 0 ? "..." : "", path + from);
    for (; *into != '\0'; into++)
        if ((unsigned char)*into < ' ' || *into == 127)
            *into = '?';
}

/* ---- files that are wrong */

/* The first page that is not sealed; as many as there are where each is. */
static size_t first_unsealed(const uint8_t *bytes, size_t count) {
    enum { PAYLOAD = PAGE_BYTES - DIGEST_BYTES };
    uint8_t sealed[4 + PAYLOAD], sum[DIGEST_BYTES];
    size_t page = 0;
    for (; page < count / PAGE_BYTES; page++) {
        const uint8_t *at = bytes + page * PAGE_BYTES;
        for (int i = 0; i < 4; i++)
            sealed[i] = (uint8_t)(page >> (24 - 8 * i));
        memcpy(sealed + 4, at, PAYLOAD);
        msgq_session_digest(sealed, sizeof sealed, sum);
        if (memcmp(sum, at + PAYLOAD, DIGEST_BYTES) != 0)
            break;
    }
    return page;
}

/* What a fault says (docs/FAULTS.md), but for 21 and 22. */
static const char *words_of(uint32_t fault) {
    switch (fault) {
    case 40:
        return "a page is malformed";
    case 41:
        return "page 0 is not the header of this file";
    case 42:
        return "the file is of another version";
    case 43:
        return "a record has no such value";
    case 70:
        return "a page does not go on with the chain of buckets";
    case 71:
        return "a page is neither on the chain nor on the list of free pages, or is on the list and not free";
    case 72:
        return "a bucket, an entry or a count of the directory is wrong";
    case 73:
        return "the records are those of no system of queues";
    case 74:
        return "a record belongs in another bucket, or is of no queue";
    default:
        return "it is wrong";
    }
}

void tell_fault(uint32_t code, const uint8_t *bytes, size_t count) {
    static const char magic[] = {'M', 'S', 'G', 'Q', 'F', 'I', 'L', 'E'};
    bool is_one = count >= 12 && memcmp(bytes + 4, magic, sizeof magic) == 0;
    const char *more = is_one ? "; 'msgq check' says where" : "; it is no file of message queues";
    if (code == 22 && count % PAGE_BYTES != 0)
        (void)why(0, "its length is no multiple of 4096, the bytes of a page%s", is_one ? "" : more);
    else if (code == 22)
        (void)why(0, "the file is cut%s", is_one ? "" : more);
    else if (code == 21)
        (void)why(0, "page %zu has a wrong digest%s", first_unsealed(bytes, count), is_one ? "" : more);
    else if (code == 42 && is_one && bytes[1] == 1)
        (void)why(0, "it is of version 1: 'msgq migrate' makes a file of today's version of it");
    else if (code >= 40 && code < WAITS && code != NO_ROOM && code != NO_MEMORY && code != FAILED)
        (void)why(0, "%s%s", words_of(code), more);
}
