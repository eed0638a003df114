/* `msgq list --follow`: the messages of a queue of a file that is served, those that are there and then each that comes. */
#ifndef MSGQ_FOLLOW_H
#define MSGQ_FOLLOW_H

/* Prints them until the queue is removed, the server ends or standard output takes no more: the exit status. */
int follow(const char *file, const char *key);

#endif
