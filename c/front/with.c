/* `msgq with`: runs a command whose message queues are those of a file. */
#include "command.h"
#include "front.h"
#include "keeper.h"
#include "programs.h"
#include "reach.h"
#include "words.h"

#include <errno.h>
#include <fcntl.h>
#include <limits.h>
#include <signal.h>
#include <stdio.h>
#include <stdlib.h>
#include <string.h>
#include <sys/prctl.h>
#include <sys/resource.h>
#include <sys/stat.h>
#include <sys/wait.h>
#include <unistd.h>

#define CALL "msgq with [OPTIONS] <FILE> -- <COMMAND> [ARGUMENT]..."

/* As a shell's. */
enum { CANNOT_RUN = 126, NOT_FOUND = 127 };

static const char USAGE[] =
    "Runs a command whose message queues are those of a file\n"
    "\n"
    "Usage: " CALL "\n"
    "\n"
    "Arguments:\n"
    "  <FILE>     The file of queues; it is made where there is none\n"
    "  <COMMAND>  Its msgget, msgsnd, msgrcv and msgctl, and those of what it runs, are made on FILE\n"
    "\n"
    "Options:\n"
    "  -p, --pages <N>  Make it of so many pages [default: 4096]\n"
    "  -h, --help       Print help\n"
    "\n"
    "Where no server serves FILE one is started, which ends with the last such command, after FILE is saved. A program that is linked\n"
    "statically, or runs as another user, is not reached: its queues are the system's.\n"
    "Exit status: that of COMMAND; 127 where there is none, 126 where it can't be run; 1 a fault; 2 the command line is wrong.\n"
    "More: docs/SHELL.md, msgq(1).\n";

struct order {
    const char *file, *pages;
    char **command;
};

/* The paths that are told to the command. */
struct paths {
    char file[PATH_MAX], socket[PATH_MAX + 16], library[PROGRAM_BYTES], program[COMMAND_BYTES];
};

/* ---- the command line */

/* Says what is wrong with it, as the proved program does. */
static int misuse(const char *format, const char *word) {
    char what[512];
    (void)snprintf(what, sizeof what, format, word == NULL ? "" : word);
    complain("%s\n\nUsage: " CALL "\n\nFor more information, try '--help'.", what);
    return MISUSE;
}

/* From 258 to 65,536, as a file may have. */
static bool is_pages(const char *word) {
    if (word == NULL || *word == '\0' || strlen(word) > 6 || strspn(word, "0123456789") != strlen(word))
        return false;
    long pages = strtol(word, NULL, 10);
    return pages >= 258 && pages <= 65536;
}

/* DONE or MISUSE, which was said; below 0 where help was asked for and given. */
static int read_order(struct order *it, int count, char **at) {
    struct words words = {count, at};
    const char *value;
    *it = (struct order){.pages = "4096"};
    while (words.count > 0 && strcmp(words.at[0], "--") != 0) {
        if (take_option(&words, "--help", 'h', &value))
            return fputs(USAGE, stdout) < 0 || fflush(stdout) != 0 ? FAULT : -1;
        if (take_option(&words, "--pages", 'p', &value)) {
            it->pages = take_value(&words, value);
            if (!is_pages(it->pages))
                return misuse("'%s' is no number of pages, from 258 to 65536", it->pages);
        } else if (words.at[0][0] == '-' || it->file != NULL) {
            return misuse("unexpected argument '%s' found", words.at[0]);
        } else {
            it->file = take_value(&words, NULL);
        }
    }
    if (it->file == NULL || *it->file == '\0')
        return misuse("the following required argument was not provided: %s", "<FILE>");
    if (words.count < 2)
        return misuse("the following required argument was not provided: %s",
                      words.count == 0 ? "-- <COMMAND>" : "<COMMAND>");
    it->command = words.at + 1;
    return DONE;
}

/* ---- the file */

/* Has the proved program make it. Where another command makes it meanwhile that is as good. */
static bool make(const struct order *it) {
    char program[PROGRAM_BYTES];
    int status = 0;
    struct stat found;
    if (!find_program("msgq", program))
        return false;
    pid_t child = fork();
    if (child == 0) {
        int nothing = open("/dev/null", O_WRONLY | O_CLOEXEC);
        if (nothing >= 0 && dup2(nothing, STDOUT_FILENO) >= 0)
            (void)execl(program, "msgq", "new", it->file, it->pages, (char *)NULL);
        complain("%s: it can't be run: %s", program, strerror(errno));
        _exit(FAULT);
    }
    while (child > 0 && waitpid(child, &status, 0) < 0 && errno == EINTR)
        ;
    if (child < 0)
        complain("%s: it can't be made: %s", it->file, strerror(errno));
    return child > 0 && (status == 0 || stat(it->file, &found) == 0);
}

/* Sees to it that it is there, and spells its path from the root on, where no link leads on. */
static bool find_file(const struct order *it, struct paths *paths) {
    struct stat found;
    bool is_there = stat(it->file, &found) == 0 || (errno == ENOENT && make(it));
    if (!is_there && errno == ENOENT)
        return false;
    if (!is_there || realpath(it->file, paths->file) == NULL) {
        complain("%s: it can't be opened: %s", it->file, strerror(errno));
        return false;
    }
    if (stat(paths->file, &found) == 0 && !S_ISREG(found.st_mode)) {
        complain("%s: it is no file", it->file);
        return false;
    }
    (void)snprintf(paths->socket, sizeof paths->socket, "%s.socket", paths->file);
    return true;
}

/* ---- the command */

static bool find_library(struct paths *paths) {
    if (!find_installed("lib/libmsgq_xsi.so", paths->library))
        return false;
    if (access(paths->library, R_OK) != 0) {
        complain("%s: %s", paths->library, strerror(errno));
        return false;
    }
    /* So the linker reads a list of such. */
    if (strpbrk(paths->library, " :") == NULL)
        return true;
    complain("%s: no program can be given a library whose path has a blank or a colon", paths->library);
    return false;
}

static bool tell_command(const struct paths *paths) {
    char libraries[PROGRAM_BYTES + 4096];
    const char *others = getenv("LD_PRELOAD");
    bool has_others = others != NULL && *others != '\0';
    int length = snprintf(libraries, sizeof libraries, "%s%s%s", paths->library, has_others ? ":" : "", has_others ? others : "");
    return length > 0 && (size_t)length < sizeof libraries && setenv("LD_PRELOAD", libraries, 1) == 0
        && setenv("MSGQ_SOCKET", paths->socket, 1) == 0;
}

/* Those that are handed on, but for what this process ignores. */
static void signals_handed_on(sigset_t *set) {
    static const int all[] = {SIGHUP, SIGINT, SIGQUIT, SIGTERM, SIGUSR1, SIGUSR2};
    struct sigaction now;
    (void)sigemptyset(set);
    for (size_t at = 0; at < sizeof all / sizeof *all; at++)
        if (sigaction(all[at], NULL, &now) == 0 && now.sa_handler != SIG_IGN)
            (void)sigaddset(set, all[at]);
}

/* Becomes the command, which is told to end where this process is killed. */
static void become(const struct order *it, const struct paths *paths, const sigset_t *before, pid_t parent) {
    if (prctl(PR_SET_PDEATHSIG, SIGTERM) == 0 && getppid() == parent && tell_command(paths)
        && sigprocmask(SIG_SETMASK, before, NULL) == 0)
        (void)execv(paths->program, it->command);
    int wrong = errno;
    complain("%s: it can't be run: %s", it->command[0], strerror(wrong));
    _exit(wrong == ENOENT ? NOT_FOUND : CANNOT_RUN);
}

/* Waits for its end, and hands signals on. What the kernel sends comes from a terminal, which sends it to the command too. */
static int wait_for(pid_t child, const sigset_t *set) {
    siginfo_t told;
    int status;
    for (;;) {
        pid_t found = waitpid(child, &status, WNOHANG);
        if (found == child)
            return status;
        if (found < 0 && errno != EINTR)
            return FAULT << 8;
        int number = sigwaitinfo(set, &told);
        if (number > 0 && number != SIGCHLD && told.si_code != SI_KERNEL)
            (void)kill(child, number);
    }
}

/* Runs the command, and tells its status as waitpid(2) does. */
static int run(const struct order *it, const struct paths *paths) {
    sigset_t set, before;
    pid_t parent = getpid();
    (void)signal(SIGCHLD, SIG_DFL);
    signals_handed_on(&set);
    (void)sigaddset(&set, SIGCHLD);
    (void)sigprocmask(SIG_BLOCK, &set, &before);
    pid_t child = fork();
    if (child == 0)
        become(it, paths, &before, parent);
    if (child < 0)
        complain("%s: it can't be run: %s", it->command[0], strerror(errno));
    int status = child < 0 ? FAULT << 8 : wait_for(child, &set);
    (void)sigprocmask(SIG_SETMASK, &before, NULL);
    return status;
}

/* ---- the verb */

/* Sees to it that no file that is opened gets the number of a standard stream that is closed; it is closed for the command. */
static bool open_standard(void) {
    int file = 0;
    while (file >= 0 && file <= STDERR_FILENO)
        file = open("/dev/null", O_RDWR | O_CLOEXEC);
    if (file >= 0)
        (void)close(file);
    return file >= 0;
}

/* Ends as the command has, without a second image of memory. */
static int end_as(int status) {
    const struct rlimit none = {0, 0};
    if (!WIFSIGNALED(status))
        return WEXITSTATUS(status);
    (void)setrlimit(RLIMIT_CORE, &none);
    end_by(WTERMSIG(status));
    return 128 + WTERMSIG(status);
}

int with_run(int count, char **words) {
    struct order it;
    struct paths paths;
    struct hold hold = {NOT_OPENED};
    int status = read_order(&it, count, words);
    if (status != DONE)
        return status < 0 ? DONE : status;
    int wrong = find_command(it.command[0], paths.program);
    if (wrong != 0) {
        complain("%s: it can't be run: %s", it.command[0], strerror(wrong));
        return wrong == ENOENT ? NOT_FOUND : CANNOT_RUN;
    }
    const char *why = why_not_reached(paths.program);
    if (why != NULL)
        complain("%s: %s: its queues are the system's, and not those of %s", paths.program, why, it.file);
    if (!open_standard() || !find_library(&paths) || !find_file(&it, &paths))
        return FAULT;
    status = hold_begin(&hold, paths.file, paths.socket);
    if (status == DONE)
        status = run(&it, &paths);
    else
        status = FAULT << 8;
    hold_end(&hold);
    return end_as(status);
}
