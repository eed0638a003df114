/* A new file. */
#ifndef MSGQ_MAKING_H
#define MSGQ_MAKING_H

#include "session.h"

/* Makes a file of the pages of a session, whole or not at all. Gives 0 or the number of an error: EEXIST where its name is taken, EBUSY where
 * another process is making it. */
int make_file(const char *path, struct handle *session);

#endif
