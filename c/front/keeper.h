/* The server of a file that lives as long as commands of `msgq with` do. Where none serves the file, the first of them starts one,
 * with a keeper that ends it, after its checkpoint, once the last of them has ended.
 *
 * They meet in the lock file FILE.with, of which three bytes are locked: the first by who looks for a server or starts one, the
 * second by each command for as long as it runs, and by a keeper that ends its server; the third by a keeper as long as it lives. The
 * system lets go of the locks of who is killed, so that no server is left behind, and none is ended that a command still needs. */
#ifndef MSGQ_KEEPER_H
#define MSGQ_KEEPER_H

#include "../transfers.h"

struct hold {
    struct opened lock;
};

/* Finds a server at the socket, or starts one, and holds it. DONE or FAULT, which was said. The file is there, and its path begins
 * with a slash. A server that somebody else has started is used and never ended; it need not be held by one who may not write
 * the file. */
int hold_begin(struct hold *it, const char *file, const char *socket);

/* Lets go of it. The last one waits until the keeper has ended its server. */
void hold_end(struct hold *it);

#endif
