/* Commands on a file that a server has open. */
#ifndef MSGQ_SERVED_H
#define MSGQ_SERVED_H

#include "../msgq.h"

#include <stdbool.h>

/* Whether a file is served, by the socket beside it; then the server is connected to. */
bool connect_beside(const char *file, msgq **queues);

/* Does what a command line asks for where that is a call on a file that is served, and sets the exit status. False where it is
 * anything else, or a command line that is wrong: then the proved program does it, or says what is wrong. */
bool served_run(int count, char **words, int *status);

#endif
