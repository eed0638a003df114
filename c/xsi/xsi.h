/* What the parts of libmsgq_xsi.so share. */
#ifndef MSGQ_XSI_H
#define MSGQ_XSI_H

#include "../requests.h"

#include <stdbool.h>
#include <stddef.h>
#include <stdint.h>
#include <sys/msg.h>

/* A message of the program's is sent from where it stands: a long, and the bytes behind it. */
_Static_assert(sizeof(long) == 8 && __BYTE_ORDER__ == __ORDER_LITTLE_ENDIAN__, "type and body are those of a frame");

/* The limits of docs/QUEUES.md that a program is told. */
enum { XSI_BODY = 1024, XSI_QBYTES = 65536, XSI_QBYTES_AT_FIRST = 16384, XSI_QUEUES = 256 };

/* Codes of answers (docs/PROTOCOL.md). */
enum { XSI_EINVAL = 6, XSI_ENOSPC = 9, XSI_EACCES = 10, XSI_FULL = 50, XSI_NO_MEMORY = 60 };

/* Whether the process has MSGQ_SOCKET, so that its queues are those of a server. Else the calls are the system's. */
bool xsi_is_served(void);

/* That server; NULL where there was no memory for it, and then every call is refused. */
struct server *xsi_server(void);

/* Hangs up the calls of this thread that a longjmp leaves; and how often that was done. */
void xsi_leave(void);
unsigned xsi_jumps(void);

/* Sets errno to what the system's calls say in the place of this number, which is not 0. Gives -1. */
int xsi_refuse(int wrong);

/* The function of this name that stands behind this library's, which is looked for once. */
void *xsi_behind(const char *name, void *_Atomic *known);
#define BEHIND(NAME)                                                                                  \
    ((__typeof__(&(NAME)))({                                                                          \
        static void *_Atomic known_##NAME;                                                            \
        xsi_behind(#NAME, &known_##NAME);                                                             \
    }))

/* Copies as the system does: -EFAULT where the program's memory is none, and 0. */
int xsi_copy_in(void *mine, const void *theirs, size_t count);
int xsi_copy_out(const void *mine, void *theirs, size_t count);

/* As request_stat. */
int xsi_stat(uint32_t id, struct msqid_ds *found);

#endif
