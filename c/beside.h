/* A file that stands beside another: its name is the other's with a suffix. Who may not read or write the one may not
 * read or write the other. */
#ifndef MSGQ_BESIDE_H
#define MSGQ_BESIDE_H

#include "transfers.h"

#include <limits.h>

/* As many bytes has its name, with the zero behind it. */
#define BESIDE_BYTES (PATH_MAX + 16)

/* Opens what stands beside a file that is open, to be read and written, and makes it where there is none. Its name, in
 * which no link leads on, goes to `name`, which has BESIDE_BYTES. EACCES where it is no file, or was made by one who
 * may not write the other. */
int beside_open(struct opened *it, const char *path, const char *suffix, const struct opened *other, char *name);

#endif
