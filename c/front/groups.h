/* Names of users and groups in the place of their numbers. */
#ifndef MSGQ_GROUPS_H
#define MSGQ_GROUPS_H

#include "front.h"

/* Puts the numbers in the place of the names that `--group`, `--shared` and `--owner` of these words have, which are
 * those of a whole command line with a NULL behind them. DONE; or MISUSE or FAULT, which was said. What is put in
 * stays for as long as the program runs. */
int groups_resolve(char **words);

#endif
