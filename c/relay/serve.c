/* `msgq serve`: has a file open, by the core that it starts, and lets other processes make calls of it. */
#include "../front/front.h"
#include "../front/programs.h"
#include "core.h"
#include "listener.h"
#include "loop.h"
#include "options.h"
#include "service.h"

#include <errno.h>
#include <fcntl.h>
#include <signal.h>
#include <stdio.h>
#include <string.h>
#include <sys/resource.h>
#include <sys/stat.h>
#include <sys/wait.h>
#include <unistd.h>

/* ---- the process */

/* Sees to it that no file that is opened gets the number of a standard stream that is closed. */
static bool open_standard(void) {
    int file = 0;
    while (file >= 0 && file <= STDERR_FILENO)
        file = open("/dev/null", O_RDONLY | O_CLOEXEC);
    if (file >= 0)
        (void)close(file);
    return file >= 0;
}

/* As many descriptors as may be: a client takes two. */
static void raise_limit(void) {
    struct rlimit limit;
    if (getrlimit(RLIMIT_NOFILE, &limit) == 0 && limit.rlim_cur < limit.rlim_max) {
        limit.rlim_cur = limit.rlim_max;
        (void)setrlimit(RLIMIT_NOFILE, &limit);
    }
}

/* ---- the file */

/* Becomes the program that makes it, which says what is wrong; what else it prints is not wanted. */
static void become_maker(const char *program, const char *file, const char *pages) {
    int nothing = open("/dev/null", O_WRONLY | O_CLOEXEC);
    if (nothing >= 0 && dup2(nothing, STDOUT_FILENO) >= 0)
        (void)execl(program, "msgq", "new", file, pages, (char *)NULL);
    complain("%s: it can't be run: %s", program, strerror(errno));
    _exit(FAULT);
}

static bool make(const struct options *options) {
    char program[PROGRAM_BYTES], pages[16];
    int status = 0;
    if (!find_program("msgq", program))
        return false;
    (void)snprintf(pages, sizeof pages, "%u", options->pages);
    pid_t child = fork();
    if (child == 0)
        become_maker(program, options->file, pages);
    while (child > 0 && waitpid(child, &status, 0) < 0 && errno == EINTR)
        ;
    if (child < 0)
        complain("%s: it can't be made: %s", options->file, strerror(errno));
    else if (status != 0)
        complain("%s: it was not made", options->file);
    return child > 0 && status == 0;
}

/* Whether the file is there, or could be made where that was asked for. */
static bool see_to_file(const struct options *options) {
    struct stat found;
    int wrong = stat(options->file, &found) != 0 ? errno : S_ISDIR(found.st_mode) ? EISDIR : 0;
    if (wrong == ENOENT && options->creates)
        return make(options);
    if (wrong != 0)
        complain("%s: it can't be opened: %s", options->file, strerror(wrong));
    return wrong == 0;
}

/* ---- the server */

static bool start_core(struct relay *it) {
    static const char *const hows[] = {"--durable", "--every", "--in-memory"};
    const struct options *options = it->options;
    char program[PROGRAM_BYTES], waits[16];
    const char *words[] = {"msgqd", options->file, hows[options->durability], "--waits", waits, NULL};
    (void)snprintf(waits, sizeof waits, "%u", options->waits);
    return find_program("msgqd", program) && core_start(&it->core, program, words, options->most.clients);
}

/* Says that it serves, on standard output and to a service manager. */
static bool tell_ready(const struct relay *it) {
    if (printf("serving %s at %s\n", it->options->file, it->listener.path) < 0 || fflush(stdout) != 0) {
        complain("standard output: %s", strerror(errno));
        return false;
    }
    if (!service_tell("READY=1\n"))
        complain("NOTIFY_SOCKET: %s", strerror(errno));
    return true;
}

/* Serves, over a listener that has begun. */
static int serve(struct relay *it) {
    if (!start_core(it))
        return FAULT;
    bool is_ready = listener_open(&it->listener, it->options) && relay_begin(it) && tell_ready(it);
    if (is_ready)
        relay_run(it);
    listener_close(&it->listener);
    relay_end(it);
    /* What it was told so far is saved, also where nobody was served. */
    bool is_saved = core_end(&it->core, it->options->file);
    return is_ready && is_saved ? it->status : FAULT;
}

int serve_run(int count, char **words) {
    struct options options;
    struct relay relay = {.options = &options, .epoll = -1, .spare = -1, .signals.file = -1, .timer.file = -1};
    int status = read_options(&options, count, words);
    if (status != DONE)
        return status < 0 ? DONE : status;
    int handed = service_sockets();
    if (!open_standard()) {
        complain("/dev/null: %s", strerror(errno));
        return FAULT;
    }
    /* A client that has hung up, and a core that has ended, are told by errors. */
    (void)signal(SIGPIPE, SIG_IGN);
    raise_limit();
    if (!see_to_file(&options))
        return FAULT;
    status = listener_begin(&relay.listener, &options, handed);
    if (status == DONE)
        status = serve(&relay);
    listener_end(&relay.listener);
    return status;
}
