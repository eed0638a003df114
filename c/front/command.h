/* A command that is run on the body of a message. */
#ifndef MSGQ_COMMAND_H
#define MSGQ_COMMAND_H

#include "../msgq.h"

#include <signal.h>
#include <stdbool.h>

/* How it has ended. */
struct ending {
    int wrong;  /* it could not be run: the number of an error */
    int status; /* of waitpid(2), where it was run */
    int signal; /* what told this process to end meanwhile, 0 for nothing */
};

/* As many bytes has the longest text of an ending. */
enum { ENDING_BYTES = 128 };

/* Spells how a command has ended, behind "the command"; whether it was done, which is that it ended with 0. */
bool spell_ending(const struct ending *ended, char *how);

/* The signals that tell this process to end, but for those that it ignores, are held back from here on; and no
 * longer.
 * */
void signals_hold(sigset_t *before);
void signals_release(const sigset_t *before);

/* Whether one of them is held back. */
bool signals_are_held(void);

/* Whether a command is found as execvp(3) looks for it. */
bool command_is_found(const char *name);

/* Runs a command with this body on its standard input, and waits for its end. Its environment says of the message
 * MSGQ_SERIAL, MSGQ_TYPE and MSGQ_SENDER. A signal that tells this process to end is handed on to it, but where a
 * terminal sends it to both; the signals are held back, and as they were `before` for the command. It gets SIGTERM
 * where this process is killed. */
struct ending command_run(char **words, const void *body, const struct msgq_message *message, const sigset_t *before);

/* Ends this process by a signal, as it would have ended it before it was held back. */
void end_by(int signal);

#endif
