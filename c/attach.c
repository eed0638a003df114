/* A handle of a server: by its socket, or by the file that it may serve. */
#include "beside.h"
#include "served.h"

#include <errno.h>
#include <limits.h>
#include <stdlib.h>
#include <string.h>

#define SUFFIX ".socket"

/* Notes why nobody is spoken to. */
static int no_server(int wrong) {
    if (wrong == ENOENT || wrong == ECONNREFUSED)
        return why(wrong, "nobody serves it");
    if (wrong == ECONNRESET)
        return why(wrong, "it hangs up at once: it has as many clients as it may, or ends");
    if (wrong == ETIMEDOUT || wrong == EPROTO)
        return why(wrong, "who has the socket does not greet as a server of this version");
    return wrong;
}

int msgq_connect(const char *socket, msgq **queues) {
    static const char UNREACHED[] = "it can't be connected to";
    char name[NAME_BYTES] = "the socket";
    nothing_is_wrong();
    if (socket == NULL || queues == NULL)
        return fails(EINVAL, name, UNREACHED);
    spell_name(name, socket);
    return fails(no_server(served_connect(socket, socket, queues)), name, UNREACHED);
}

/* Connects to the server of a file; ENOENT or ECONNREFUSED where it has none. The file need not be there: a server that is about to be
 * started makes it, and one of another machine has it there. */
static int connect_beside(const char *path, msgq **queues) {
    char socket[BESIDE_BYTES];
    if (realpath(path, socket) == NULL) {
        if (errno != ENOENT || *path == '\0' || strlen(path) >= PATH_MAX)
            return ENOENT;
        strcpy(socket, path);
    }
    strcat(socket, SUFFIX);
    return served_connect(socket, path, queues);
}

int msgq_attach(const char *path, msgq **queues) {
    char name[NAME_BYTES];
    if (path == NULL || queues == NULL)
        return msgq_open(path, queues);
    int wrong = EBUSY;
    /* A server has the file before it has the socket. So a file that is in use may be served by now. */
    for (int turn = 0; turn < 2 && wrong == EBUSY; turn++) {
        nothing_is_wrong();
        int unserved = connect_beside(path, queues);
        if (unserved == 0)
            return 0;
        if (unserved != ENOENT && unserved != ECONNREFUSED) {
            spell_name(name, path);
            return fails(no_server(unserved), name, "its server can't be connected to");
        }
        wrong = msgq_open(path, queues);
    }
    return wrong;
}

int msgq_is_served(const msgq *queues) {
    return queues != NULL && queues->calls->is_served;
}
