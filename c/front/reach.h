/* Which programs a library that is loaded before them reaches. */
#ifndef MSGQ_REACH_H
#define MSGQ_REACH_H

#include <limits.h>

/* As many bytes has the path of a command, with the zero behind it. */
#define COMMAND_BYTES (PATH_MAX + 1)

/* Finds a command as execvp(3) does: 0 and its path, ENOENT, or EACCES where what is there can't be run. */
int find_command(const char *name, char *path);

/* Why a library does not reach a program; NULL where it does, as far as its file says. Of a script it is said of what runs it. */
const char *why_not_reached(const char *path);

#endif
