/* What is said of a call that was not done, and the exit status. */
#ifndef MSGQ_TELLING_H
#define MSGQ_TELLING_H

#include "words.h"

/* The exit status of a command that ends by this error. */
int status_of(int wrong);

/* Says why a call on a file was not done: the sentence of the library, which names the queue as the command line did; or what the
 * system says. */
void complain_of(const char *file, const struct name *queue, int wrong);

#endif
