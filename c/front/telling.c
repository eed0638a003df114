/* The sentences of refusals, and exit statuses. */
#include "telling.h"
#include "front.h"
#include "../msgq.h"

#include <errno.h>
#include <inttypes.h>
#include <stdio.h>
#include <string.h>

/* The library's sentence of a queue that it names by its id: where a key named it that stands there; and what raises a limit is a command. */
static void complain_by_key(const char *file, const struct name *queue, const char *reason, const char *id) {
    static const char RAISES[] = "msgq_set raises the limit, up to 65536";
    int digits = (int)strspn(id, "0123456789");
    const char *rest = id + digits, *raises = strstr(rest, RAISES);
    int length = raises == NULL ? (int)strlen(rest) : (int)(raises - rest);
    char command[512] = "";
    if (raises != NULL)
        (void)snprintf(command, sizeof command, "'msgq set %s @%.*s --qbytes 65536' allows user 0 more", file, digits, id);
    complain("%.*s: queue %s%" PRIu32 "%.*s%s", (int)(id - strlen(": queue @") - reason), reason, queue->is_id ? "@" : "",
             queue->number, length, rest, command);
}

void complain_of(const char *file, const struct name *queue, int wrong) {
    const char *reason = msgq_reason(), *at = strstr(reason, ": queue @");
    if (wrong == EACCES && *reason == '\0')
        complain("%s: queue %s%" PRIu32
                 ": EACCES: its mode does not let the caller read and write, as what is given back asks for",
                 file, queue->is_id ? "@" : "", queue->number);
    else if (*reason == '\0')
        complain("%s: %s", file, strerror(wrong));
    else if (at == NULL)
        complain("%s", reason);
    else
        complain_by_key(file, queue, reason, at + strlen(": queue @"));
}

int status_of(int wrong) {
    static const int refusals[] = {E2BIG, EACCES, EEXIST, EIDRM, EINTR, EINVAL, ENOENT, EPERM, ENOSPC};
    if (wrong == ENOMSG || wrong == EAGAIN)
        return NOTHING;
    if (msgq_last_fault() != 0)
        return FAULT;
    for (size_t at = 0; at < sizeof refusals / sizeof *refusals; at++)
        if (refusals[at] == wrong)
            return REFUSED;
    return FAULT;
}
