/* A file that another process serves. */
#ifndef MSGQ_SERVED_H
#define MSGQ_SERVED_H

#include "queues.h"

/* Connects to the server of a socket, of which sentences speak by the name. ENOENT or ECONNREFUSED where nobody serves; ETIMEDOUT or
 * EPROTO where it does not greet as a server does; or what the system says. Nothing is said of it. */
int served_connect(const char *socket, const char *name, msgq **queues);

#endif
