/* The socket to which clients connect. */
#ifndef MSGQ_LISTENER_H
#define MSGQ_LISTENER_H

#include "options.h"

#include <stdbool.h>
#include <sys/types.h>
#include <sys/un.h>

/* As many bytes has the path of a socket, with the zero behind it. */
#define SOCKET_BYTES sizeof((struct sockaddr_un *)NULL)->sun_path

struct listener {
    char path[SOCKET_BYTES + 1]; /* behind @ where it is no file's */
    int file;                    /* -1 where no more clients are taken */
    int lock;                    /* of PATH.lock; -1 for a socket that was handed over */
    dev_t device;
    ino_t inode; /* of the socket that was bound; 0 for none */
};

/* Takes the socket that a service manager handed over, of so many, or else the lock of the path. DONE, MISUSE or FAULT,
 * which was said. The path is told from here on. */
int listener_begin(struct listener *it, const struct options *options, int handed);

/* Binds the socket, where none was handed over, and listens: one that a server left which is no longer there is
 * replaced. False where it can't be, which was said. */
bool listener_open(struct listener *it, const struct options *options);

/* Takes no more clients: closes the socket, and removes it where it was bound here. */
void listener_close(struct listener *it);

/* The same, and lets go of the lock. */
void listener_end(struct listener *it);

#endif
