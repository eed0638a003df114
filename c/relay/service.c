/* The protocol of service managers. */
#include "service.h"

#include <errno.h>
#include <fcntl.h>
#include <stddef.h>
#include <stdlib.h>
#include <string.h>
#include <sys/socket.h>
#include <sys/un.h>
#include <unistd.h>

enum { FIRST = 3, MOST = 1000 };

/* A number of the environment; -1 where there is none. */
static long number_of(const char *name) {
    const char *word = getenv(name);
    if (word == NULL || *word == '\0' || strlen(word) > 9 || strspn(word, "0123456789") != strlen(word))
        return -1;
    return strtol(word, NULL, 10);
}

int service_sockets(void) {
    long process = number_of("LISTEN_PID"), count = number_of("LISTEN_FDS");
    (void)unsetenv("LISTEN_PID");
    (void)unsetenv("LISTEN_FDS");
    (void)unsetenv("LISTEN_FDNAMES");
    if (process != (long)getpid() || count < 1 || count > MOST)
        return 0;
    for (int file = FIRST; file < FIRST + count; file++)
        (void)fcntl(file, F_SETFD, FD_CLOEXEC);
    return (int)count;
}

bool service_tell(const char *state) {
    struct sockaddr_un to = {.sun_family = AF_UNIX};
    const char *name = getenv("NOTIFY_SOCKET");
    size_t length = name == NULL ? 0 : strlen(name);
    if (length == 0)
        return true;
    if (length >= sizeof to.sun_path || (*name != '/' && *name != '@')) {
        errno = EINVAL;
        return false;
    }
    memcpy(to.sun_path, name, length);
    /* One that begins so has no name among the files. */
    if (*name == '@')
        to.sun_path[0] = '\0';
    int file = socket(AF_UNIX, SOCK_DGRAM | SOCK_CLOEXEC, 0);
    if (file < 0)
        return false;
    socklen_t size = (socklen_t)(offsetof(struct sockaddr_un, sun_path) + length);
    bool is_told = sendto(file, state, strlen(state), MSG_NOSIGNAL, (struct sockaddr *)&to, size) >= 0;
    int wrong = errno;
    (void)close(file);
    errno = wrong;
    return is_told;
}
