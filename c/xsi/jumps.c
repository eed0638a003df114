/* What leads past the calls: a jump out of one that waits, and extensions that would bind the system's calls. */
#include "xsi.h"

#include <dlfcn.h>
#include <setjmp.h>

/* What waited must not be taken for nobody. */
#define JUMPS(NAME)                                                                                   \
    _Noreturn void NAME(struct __jmp_buf_tag where[1], int value);                                    \
    _Noreturn void NAME(struct __jmp_buf_tag where[1], int value) {                                   \
        xsi_leave();                                                                                  \
        BEHIND(NAME)(where, value);                                                                   \
        __builtin_unreachable();                                                                      \
    }
JUMPS(longjmp)
JUMPS(_longjmp)
JUMPS(siglongjmp)
JUMPS(__longjmp_chk)

/* With RTLD_DEEPBIND, by which PHP opens its extensions, they would see libc's msgget before this one. The last call takes the place of
 * this one, so that libc sees who called, and looks into the folders that it names. */
void *dlopen(const char *path, int flags) {
    return BEHIND(dlopen)(path, xsi_is_served() ? flags & ~RTLD_DEEPBIND : flags);
}
