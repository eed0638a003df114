/* Transfers of files. Each function gives 0 or the number of an error, and goes on behind a signal. */
#ifndef MSGQ_TRANSFERS_H
#define MSGQ_TRANSFERS_H

#include <stddef.h>
#include <stdint.h>
#include <sys/types.h>

/* A file that is open, and which one it is: its number may be another file's, where the program closed it. */
struct opened {
    int file; /* -1 for none */
    dev_t device;
    ino_t inode;
};

#define NOT_OPENED ((struct opened){.file = -1})

/* Opens a file as open(2) does; with O_EXCL there is none where it fails. */
int open_it(struct opened *it, const char *path, int flags, mode_t mode);

/* EBADF where the number is no longer that file's. */
int test_opened(const struct opened *it);

/* Closes it, but not another file of its number. */
void close_it(struct opened *it);

/* Reads or writes all of so many bytes at a place. EIO where the file ends before. */
int read_at(const struct opened *it, void *bytes, size_t count, uint64_t at);
int write_at(const struct opened *it, const void *bytes, size_t count, uint64_t at);

/* Gives the file so many bytes. */
int cut_at(const struct opened *it, uint64_t size);

int size_of(const struct opened *it, uint64_t *size);

/* Brings it to where it outlasts a crash. */
int sync_it(const struct opened *it);

/* The same where its length is as it was: the time of its change is not waited for. */
int sync_bytes(const struct opened *it);

/* The same of the names in the folder of a file. */
int sync_folder_of(const char *path);

#endif
