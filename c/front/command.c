/* Processes and signals of a command. */
#include "command.h"

#include <errno.h>
#include <fcntl.h>
#include <inttypes.h>
#include <limits.h>
#include <stdio.h>
#include <stdlib.h>
#include <string.h>
#include <sys/prctl.h>
#include <sys/stat.h>
#include <sys/wait.h>
#include <unistd.h>

/* ---- signals */

/* Those that tell this process to end, and that it does not ignore. */
static void signals_of(sigset_t *set) {
    static const int all[] = {SIGHUP, SIGINT, SIGQUIT, SIGTERM};
    struct sigaction now;
    (void)sigemptyset(set);
    for (size_t at = 0; at < sizeof all / sizeof *all; at++)
        if (sigaction(all[at], NULL, &now) == 0 && now.sa_handler != SIG_IGN)
            (void)sigaddset(set, all[at]);
}

/* The end of a child is told too, whoever ignored it before. (Of sets and numbers such as these the calls fail of
 * nothing.) */
void signals_hold(sigset_t *before) {
    sigset_t set;
    (void)signal(SIGCHLD, SIG_DFL);
    signals_of(&set);
    (void)sigaddset(&set, SIGCHLD);
    (void)sigprocmask(SIG_BLOCK, &set, before);
}

void signals_release(const sigset_t *before) {
    (void)sigprocmask(SIG_SETMASK, before, NULL);
}

bool signals_are_held(void) {
    sigset_t held, set;
    signals_of(&set);
    if (sigpending(&held) != 0)
        return false;
    for (int number = 1; number < NSIG; number++)
        if (sigismember(&set, number) == 1 && sigismember(&held, number) == 1)
            return true;
    return false;
}

void end_by(int number) {
    sigset_t set;
    (void)signal(number, SIG_DFL);
    (void)raise(number);
    (void)sigemptyset(&set);
    (void)sigaddset(&set, number);
    (void)sigprocmask(SIG_UNBLOCK, &set, NULL);
}

/* ---- how a command has ended */

bool spell_ending(const struct ending *ended, char *how) {
    if (ended->wrong != 0)
        (void)snprintf(how, ENDING_BYTES, "can't be run: %s", strerror(ended->wrong));
    else if (WIFSIGNALED(ended->status))
        (void)snprintf(how, ENDING_BYTES, "was ended by signal %d", WTERMSIG(ended->status));
    else
        (void)snprintf(how, ENDING_BYTES, "ended with status %d", WEXITSTATUS(ended->status));
    return ended->wrong == 0 && WIFEXITED(ended->status) && WEXITSTATUS(ended->status) == 0;
}

/* ---- a command */

bool command_is_found(const char *name) {
    char path[PATH_MAX];
    struct stat found;
    const char *folders = getenv("PATH");
    if (strchr(name, '/') != NULL)
        return access(name, X_OK) == 0 && stat(name, &found) == 0 && S_ISREG(found.st_mode);
    if (*name == '\0')
        return false;
    for (const char *at = folders == NULL ? "/bin:/usr/bin" : folders;; at++) {
        int length = (int)strcspn(at, ":");
        int made = snprintf(path, sizeof path, "%.*s%s%s", length, at, length > 0 ? "/" : "", name);
        if (made > 0 && (size_t)made < sizeof path && access(path, X_OK) == 0 && stat(path, &found) == 0
            && S_ISREG(found.st_mode))
            return true;
        at += length;
        if (*at == '\0')
            return false;
    }
}

/* A number of the message, for the command's environment. */
static int tell(const char *name, int64_t number) {
    char text[32];
    (void)snprintf(text, sizeof text, "%" PRId64, number);
    return setenv(name, text, 1) == 0 ? 0 : errno;
}

/* Becomes the command, in the child; tells the parent's pipe what is wrong where that can't be. */
static void become(char **words, int body, int told, const struct msgq_message *message, const sigset_t *before,
                   pid_t parent) {
    int wrong = 0;
    /* The parent may have ended before it was asked for. */
    if (prctl(PR_SET_PDEATHSIG, SIGTERM) != 0 || dup2(body, STDIN_FILENO) < 0)
        wrong = errno;
    else if (getppid() != parent)
        _exit(127);
    if (wrong == 0 && (wrong = tell("MSGQ_SERIAL", (int64_t)message->serial)) == 0
        && (wrong = tell("MSGQ_TYPE", message->type)) == 0 && (wrong = tell("MSGQ_SENDER", message->sender)) == 0) {
        signals_release(before);
        (void)execvp(words[0], words);
        wrong = errno;
    }
    (void)!write(told, &wrong, sizeof wrong);
    _exit(127);
}

/* Waits for the child's end, and hands on what tells this process to end. */
static struct ending wait_for(pid_t child) {
    struct ending ended = {0, 0, 0};
    sigset_t set;
    siginfo_t told;
    signals_of(&set);
    (void)sigaddset(&set, SIGCHLD);
    for (;;) {
        pid_t found = waitpid(child, &ended.status, WNOHANG);
        if (found == child)
            return ended;
        if (found < 0 && errno != EINTR) {
            ended.wrong = errno;
            return ended;
        }
        int number = sigwaitinfo(&set, &told);
        if (number <= 0 || number == SIGCHLD)
            continue;
        ended.signal = number;
        /* What the kernel sends comes from a terminal, which sends it to the command as well. */
        if (told.si_code != SI_KERNEL)
            (void)kill(child, number);
    }
}

/* Reads what the child tells where it can't become the command. */
static int read_wrong(int told) {
    int wrong = 0;
    ssize_t length;
    while ((length = read(told, &wrong, sizeof wrong)) < 0)
        if (errno != EINTR)
            return errno;
    return length == sizeof wrong ? wrong : 0;
}

static void close_all(int *files) {
    for (int at = 0; at < 4; at++)
        if (files[at] >= 0)
            (void)close(files[at]);
}

struct ending command_run(char **words, const void *body, const struct msgq_message *message,
                          const sigset_t *before) {
    int files[4] = {-1, -1, -1, -1}; /* of the body, and of what is wrong: where each is read and written */
    pid_t parent = getpid(), child = -1;
    int wrong = pipe2(files, O_CLOEXEC) == 0 && pipe2(files + 2, O_CLOEXEC) == 0 ? 0 : errno;
    /* A pipe has room for the longest body. */
    if (wrong == 0 && write(files[1], body, message->length) != (ssize_t)message->length)
        wrong = errno;
    if (wrong == 0 && (child = fork()) < 0)
        wrong = errno;
    if (child == 0)
        become(words, files[0], files[3], message, before, parent);
    if (wrong == 0) {
        (void)close(files[3]);
        files[3] = -1;
        wrong = read_wrong(files[2]);
    }
    close_all(files);
    struct ending ended = child < 0 ? (struct ending){wrong, 0, 0} : wait_for(child);
    if (wrong != 0)
        ended.wrong = wrong;
    return ended;
}
