/* A terminal that shows one page. */
#include "screen.h"

#include <errno.h>
#include <poll.h>
#include <signal.h>
#include <stdio.h>
#include <string.h>
#include <sys/ioctl.h>
#include <sys/signalfd.h>
#include <unistd.h>

/* Its size, or that of old terminals where it does not tell. */
static void measure(struct screen *it) {
    struct winsize size;
    bool is_told = ioctl(STDOUT_FILENO, TIOCGWINSZ, &size) == 0;
    it->rows = is_told && size.ws_row > 0 ? size.ws_row : 24;
    it->columns = is_told && size.ws_col > 0 ? size.ws_col : 80;
}

static void watched(sigset_t *set) {
    static const int numbers[] = {SIGHUP, SIGINT, SIGTERM, SIGQUIT, SIGWINCH};
    (void)sigemptyset(set);
    for (size_t at = 0; at < sizeof numbers / sizeof *numbers; at++)
        (void)sigaddset(set, numbers[at]);
}

int screen_begin(struct screen *it) {
    sigset_t set;
    if (tcgetattr(STDIN_FILENO, &it->before) != 0)
        return errno;
    watched(&set);
    if ((it->signals = signalfd(-1, &set, SFD_CLOEXEC)) < 0)
        return errno;
    struct termios raw = it->before;
    raw.c_lflag &= (tcflag_t)~(ICANON | ECHO | ISIG);
    raw.c_cc[VMIN] = 0;
    raw.c_cc[VTIME] = 0;
    if (sigprocmask(SIG_BLOCK, &set, NULL) != 0 || tcsetattr(STDIN_FILENO, TCSANOW, &raw) != 0) {
        int wrong = errno;
        (void)close(it->signals);
        return wrong;
    }
    measure(it);
    /* the other screen, without its cursor and without breaking lines */
    (void)fputs("\033[?1049h\033[?25l\033[?7l", stdout);
    return 0;
}

void screen_end(struct screen *it) {
    (void)fputs("\033[?7h\033[?25h\033[?1049l", stdout);
    (void)fflush(stdout);
    (void)tcsetattr(STDIN_FILENO, TCSANOW, &it->before);
    (void)close(it->signals);
}

/* How many milliseconds are left to a moment. */
static int left_to(const struct timespec *end) {
    struct timespec now;
    if (clock_gettime(CLOCK_MONOTONIC, &now) != 0)
        return 0;
    int64_t left = (int64_t)(end->tv_sec - now.tv_sec) * 1000 + (end->tv_nsec - now.tv_nsec) / 1000000;
    return left < 0 ? 0 : left > 60000 ? 60000 : (int)left;
}

static int read_signal(struct screen *it) {
    struct signalfd_siginfo told;
    if (read(it->signals, &told, sizeof told) != sizeof told || told.ssi_signo != SIGWINCH)
        return SCREEN_ENDED;
    measure(it);
    return SCREEN_RESIZED;
}

int screen_wait(struct screen *it, const struct timespec *end) {
    struct pollfd files[2] = {{STDIN_FILENO, POLLIN, 0}, {it->signals, POLLIN, 0}};
    int found = poll(files, 2, left_to(end));
    if (found == 0 || (found < 0 && errno == EINTR))
        return SCREEN_WAITED;
    if (found < 0)
        return SCREEN_ENDED;
    if (files[1].revents != 0)
        return read_signal(it);
    unsigned char key;
    if (read(STDIN_FILENO, &key, 1) != 1 || key == 'q' || key == 'Q' || key == 3)
        return SCREEN_ENDED;
    return key;
}

void screen_put(const struct screen *it, size_t row, const char *line, bool is_bright) {
    if (row >= it->rows)
        return;
    size_t length = strnlen(line, it->columns);
    /* What was there is erased first: behind a line that fills the row that would erase its last letter. */
    (void)printf("\033[%zu;1H\033[K%s%.*s%s", row + 1, is_bright ? "\033[7m" : "", (int)length, line,
                 is_bright ? "\033[m" : "");
}
