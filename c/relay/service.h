/* What a service manager hands to a server, and is told by it: sd_listen_fds(3) and sd_notify(3), without their
 * library. */
#ifndef MSGQ_SERVICE_H
#define MSGQ_SERVICE_H

#include <stdbool.h>

/* The descriptors from 3 on that were handed to this process, 0 for none, whose children get none. They and the words
 * of the environment that tell so are this process's alone from here on. */
int service_sockets(void);

/* Tells a service manager something, as `READY=1`, where there is one that asks for it. False where that can't be, with
 * errno. */
bool service_tell(const char *state);

#endif
