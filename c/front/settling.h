/* Calls that a server has answered, or a program has noted, may stand in the journal of a file, and not in the file yet. */
#ifndef MSGQ_SETTLING_H
#define MSGQ_SETTLING_H

/* Brings them into the file, before it is read or changed here: by the server that has it open, or where nobody has it by the proved
 * core, which makes them. Where that can't be it is said, once in a process, and the file is as it was. */
void settle_file(const char *file);

/* So of each file that a command line names, behind the program and the verb. A word that is no such file is left alone. */
void settle_files(char *const *words);

#endif
