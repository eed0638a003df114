/* Calls that stand in the journal of a file, which a command finds: each call of the system fails in turn, the core refuses, dies or is
 * not there, and another process has the file. Run with the path of a new file. */
#include "../front/front.h"
#include "../front/programs.h"
#include "../front/settling.h"
#include "../relay/numbers.h"

#include <errno.h>
#include <fcntl.h>
#include <limits.h>
#include <signal.h>
#include <stdarg.h>
#include <stdio.h>
#include <stdlib.h>
#include <string.h>
#include <sys/file.h>
#include <sys/mman.h>
#include <sys/socket.h>
#include <sys/stat.h>
#include <sys/un.h>
#include <sys/wait.h>
#include <time.h>
#include <unistd.h>

/* What children of this process tell. */
static struct told {
    int runs, asked, complaints; /* of the core, of a server, and what was said */
    char first[512], last[512];
} *told;

static int passed, failed;
static char path[PATH_MAX - 16], journal[PATH_MAX], socket_path[sizeof((struct sockaddr_un *)NULL)->sun_path];

static void is(long long found, long long expected, const char *name, const char *what) {
    if (found == expected) {
        passed++;
        return;
    }
    failed++;
    fprintf(stderr, "%s: %s: %lld, not %lld\n", name, what, found, expected);
}

void complain(const char *format, ...) {
    char text[sizeof told->last];
    va_list words;
    va_start(words, format);
    (void)vsnprintf(text, sizeof text, format, words);
    va_end(words);
    strcpy(told->complaints++ == 0 ? told->first : told->last, text);
}

/* ---- calls that fail */

enum call { NONE, PROGRAM, REALPATH, OPEN, OPEN_IN_CORE, PREAD, FLOCK, ACCESS, FORK, DUP2, EXECL, WAITPID };

static enum call which;
static int number;
static bool is_core;

static bool is_now(enum call call) {
    if (call != which)
        return false;
    which = NONE;
    errno = number;
    return true;
}

#define WRAP(kind, name, call, fails, parameters, arguments) \
    kind __real_##name parameters; \
    kind __wrap_##name parameters; \
    kind __wrap_##name parameters { \
        return is_now(call) ? (fails) : __real_##name arguments; \
    }

WRAP(char *, realpath, REALPATH, NULL, (const char *file, char *to), (file, to))
WRAP(ssize_t, pread, PREAD, -1, (int file, void *to, size_t count, off_t at), (file, to, count, at))
WRAP(int, flock, FLOCK, -1, (int file, int how), (file, how))
WRAP(int, faccessat, ACCESS, -1, (int folder, const char *file, int mode, int flags), (folder, file, mode, flags))
WRAP(int, dup2, DUP2, -1, (int file, int to), (file, to))

/* It fails once the child has ended. */
pid_t __real_waitpid(pid_t child, int *status, int how);
pid_t __wrap_waitpid(pid_t child, int *status, int how);
pid_t __wrap_waitpid(pid_t child, int *status, int how) {
    if (!is_now(WAITPID))
        return __real_waitpid(child, status, how);
    if (number != EINTR)
        (void)__real_waitpid(child, status, how);
    errno = number;
    return -1;
}

pid_t __real_fork(void);
pid_t __wrap_fork(void);
pid_t __wrap_fork(void) {
    if (is_now(FORK))
        return -1;
    pid_t child = __real_fork();
    is_core = child == 0;
    return child;
}

int __real_open(const char *file, int flags, ...);
int __wrap_open(const char *file, int flags, ...);
int __wrap_open(const char *file, int flags, ...) {
    return is_now(is_core ? OPEN_IN_CORE : OPEN) ? -1 : __real_open(file, flags, 0600);
}

bool find_program(const char *name, char *to) {
    strcpy(to, name);
    if (!is_now(PROGRAM))
        return true;
    complain("the program's own path can't be read");
    return false;
}

/* ---- files */

static void write_all(const char *name, const void *bytes, size_t count) {
    FILE *file = fopen(name, "w");
    if (file == NULL || fwrite(bytes, 1, count, file) != count || fclose(file) != 0)
        exit(2);
}

static const uint8_t CALLS[80] = {'m', 's', 'g', 'q', 'u', 'n', 'd', 'o', 0, 0, 0, 3};

/* As a save ends it. */
static void end_calls(void) {
    int file = __real_open(journal, O_WRONLY);
    if (file < 0 || pwrite(file, "msgqdone\0\0\0\2", 12, 0) != 12 || close(file) != 0)
        _exit(9);
}

/* ---- the core */

static enum deed { SAVES, REFUSES, DIES } deed;

/* In its place: it has an input without a byte, and an output. */
int __wrap_execl(const char *program, const char *word, ...);
int __wrap_execl(const char *program, const char *word, ...) {
    char byte;
    va_list words;
    if (is_now(EXECL))
        return -1;
    va_start(words, word);
    const char *file = va_arg(words, const char *);
    bool is_end = va_arg(words, char *) == NULL;
    va_end(words);
    told->runs++;
    if (strcmp(program, "msgqd") != 0 || strcmp(word, "msgqd") != 0 || strcmp(file, path) != 0 || !is_end)
        _exit(7);
    if (read(STDIN_FILENO, &byte, 1) != 0 || write(STDOUT_FILENO, "x", 1) != 1
        || (fcntl(STDIN_FILENO, F_GETFD) | fcntl(STDOUT_FILENO, F_GETFD)) != 0)
        _exit(8);
    if (deed == DIES)
        raise(SIGKILL);
    if (deed == SAVES)
        end_calls();
    _exit(deed == REFUSES);
}

/* ---- a server, which answers a save with a code */

static pid_t serve(uint32_t code) {
    struct sockaddr_un name = {.sun_family = AF_UNIX};
    uint8_t greeting[36] = {32}, asked[16], answer[16] = {12};
    int listener = socket(AF_UNIX, SOCK_STREAM, 0);
    strcpy(name.sun_path, socket_path);
    unlink(socket_path);
    if (bind(listener, (struct sockaddr *)&name, sizeof name) != 0 || listen(listener, 5) != 0)
        exit(2);
    pid_t child = __real_fork();
    if (child != 0) {
        close(listener);
        return child;
    }
    put_u32(greeting + 12, 1);
    put_u32(greeting + 28, 1024);
    put_u32(answer + 8, code);
    for (int client; (client = accept(listener, NULL, NULL)) >= 0; close(client)) {
        if (write(client, greeting, sizeof greeting) != sizeof greeting || read(client, asked, sizeof asked) != sizeof asked)
            continue;
        memcpy(answer + 4, asked + 4, 4);
        told->asked += asked[8] == 9;
        if (code == 0)
            end_calls();
        (void)!write(client, answer, sizeof answer);
    }
    _exit(0);
}

static void end(pid_t child) {
    kill(child, SIGKILL);
    __real_waitpid(child, NULL, 0);
}

/* ---- what is found */

struct row {
    const char *name;
    enum call call; /* that fails, with an error */
    int wrong;
    enum deed deed;
    int runs, complaints; /* of the core, and what is said */
    const char *said;     /* the last of it, behind the name of the file */
};

#define LEFT "calls stand in its journal, and not in it, and are not seen here"

/* Settles the file in a process of its own, which says things once, and twice as `top` does. */
static void settle_twice(const struct row *row, bool is_closed) {
    memset(told, 0, sizeof *told);
    pid_t child = __real_fork();
    if (child == 0) {
        which = row->call;
        number = row->wrong;
        deed = row->deed;
        if (is_closed)
            (void)(close(STDIN_FILENO) | close(STDOUT_FILENO));
        settle_file(path);
        which = NONE;
        settle_file(path);
        _exit(0);
    }
    int status = 1;
    __real_waitpid(child, &status, 0);
    is(status, 0, row->name, "it ends");
}

static void judge(const struct row *row, bool is_left) {
    char wanted[sizeof told->last] = "", now[12] = "";
    const char *last = told->complaints < 2 ? told->first : told->last;
    int file = __real_open(journal, O_RDONLY);
    is(file >= 0 && read(file, now, sizeof now) == sizeof now, true, row->name, "the journal is there");
    close(file);
    is(memcmp(now, CALLS, sizeof now) == 0, is_left, row->name, "calls stand there");
    is(told->runs, row->runs, row->name, "runs of the core");
    is(told->complaints, row->complaints, row->name, "what was said");
    if (row->said != NULL)
        snprintf(wanted, sizeof wanted, "%.300s: %s", path, row->said);
    is(strcmp(last, wanted), 0, row->name, last);
}

static void each_fails(void) {
    static const struct row rows[] = {
        {"all goes well", NONE, 0, SAVES, 1, 0, NULL},
        {"the core refuses", NONE, 0, REFUSES, 1, 1, LEFT},
        {"the core dies", NONE, 0, DIES, 1, 1, LEFT},
        {"no path of programs", PROGRAM, 0, SAVES, 0, 2, LEFT},
        {"no fork", FORK, EAGAIN, SAVES, 0, 2, LEFT},
        {"no core", EXECL, ENOENT, SAVES, 0, 2, LEFT},
        {"no /dev/null", OPEN_IN_CORE, EMFILE, SAVES, 0, 2, LEFT},
        {"no stream", DUP2, EBADF, SAVES, 0, 2, LEFT},
        {"no status", WAITPID, ECHILD, REFUSES, 1, 1, LEFT},
        {"a wait that a signal ends", WAITPID, EINTR, SAVES, 1, 0, NULL},
        {"a file that may not be written", ACCESS, EACCES, SAVES, 0, 1, LEFT ": Permission denied"},
        {"a file that can't be written", ACCESS, EROFS, SAVES, 0, 1, LEFT ": Read-only file system"},
        /* What is not seen the first time is seen the next time. */
        {"no path of the file", REALPATH, EACCES, SAVES, 1, 0, NULL},
        {"no journal is opened", OPEN, EMFILE, SAVES, 1, 0, NULL},
        {"no head of the journal", PREAD, EIO, SAVES, 1, 0, NULL},
        {"no locks", FLOCK, ENOLCK, SAVES, 1, 0, NULL},
    };
    for (size_t at = 0; at < sizeof rows / sizeof *rows; at++)
        for (int is_closed = 0; is_closed < 2; is_closed++) {
            write_all(journal, CALLS, sizeof CALLS);
            settle_twice(rows + at, is_closed);
            judge(rows + at, rows[at].said != NULL);
        }
}

/* Another process has the file, or what seems to be one. */
static void others_have_it(void) {
    static const struct row alone = {"nobody answers", NONE, 0, SAVES, 0, 1, LEFT ": another process has it open, and none answers at its socket"},
                            refused = {"a server can't", NONE, 0, SAVES, 0, 1, alone.said}, asked = {"a server", NONE, 0, SAVES, 0, 0, NULL},
                            in_time = {"it lets go in time", NONE, 0, SAVES, 1, 0, NULL}, done = {"it does the same", NONE, 0, SAVES, 0, 0, NULL};
    struct timespec nap = {0, 200000000};
    write_all(journal, CALLS, sizeof CALLS);
    int lock = __real_open(journal, O_RDONLY | O_CLOEXEC);
    if (lock < 0 || __real_flock(lock, LOCK_EX) != 0)
        exit(2);
    settle_twice(&alone, false);
    judge(&alone, true);
    pid_t server = serve(62);
    settle_twice(&refused, false);
    judge(&refused, true);
    is(told->asked > 1, true, refused.name, "it is asked again");
    end(server);
    server = serve(0);
    settle_twice(&asked, false);
    judge(&asked, false);
    is(told->asked, 1, asked.name, "it is asked once");
    end(server);
    unlink(socket_path);
    for (int ends = 0; ends < 2; ends++) {
        write_all(journal, CALLS, sizeof CALLS);
        pid_t child = __real_fork();
        if (child == 0) {
            nanosleep(&nap, NULL);
            if (ends)
                end_calls();
            __real_flock(lock, LOCK_UN);
            _exit(0);
        }
        settle_twice(ends ? &done : &in_time, false);
        judge(ends ? &done : &in_time, false);
        __real_waitpid(child, NULL, 0);
        __real_flock(lock, LOCK_EX);
    }
    close(lock);
}

/* What is no journal with calls, and words that are no file. */
static void nothing_is_there(void) {
    static const struct row none = {"no calls", NONE, 0, SAVES, 0, 0, NULL};
    uint8_t older[80];
    char other[PATH_MAX];
    memcpy(older, CALLS, sizeof older);
    older[11] = 2;
    write_all(journal, older, sizeof older);
    settle_twice(&none, false);
    judge(&none, false);
    write_all(journal, CALLS, 11);
    settle_twice(&none, false);
    is(told->runs + told->complaints, 0, none.name, "a head that is cut");
    unlink(journal);
    settle_twice(&none, false);
    is(told->runs + told->complaints, 0, none.name, "no journal");
    if (mkfifo(journal, 0600) != 0)
        exit(2);
    settle_twice(&none, false);
    is(told->runs + told->complaints, 0, none.name, "a fifo");
    unlink(journal);
    snprintf(other, sizeof other, "%.4000s.other", path);
    write_all(other, CALLS, sizeof CALLS);
    if (symlink(other, journal) != 0)
        exit(2);
    settle_twice(&none, false);
    is(told->runs + told->complaints, 0, none.name, "a link");
    unlink(journal);
    unlink(other);
}

static void words(void) {
    static char program[] = "msgq", verb[] = "list", end[] = "--", option[] = "--json", none[] = "/no/file";
    char *rows[][6] = {{NULL}, {program, NULL}, {program, path, NULL}, {program, verb, option, none, NULL}, {program, verb, option, path, none, NULL},
                       {program, verb, end, option, path, NULL}};
    for (size_t at = 0; at < sizeof rows / sizeof *rows; at++) {
        memset(told, 0, sizeof *told);
        write_all(journal, CALLS, sizeof CALLS);
        settle_files(rows[at]);
        is(told->runs, at > 3, "words", "a file among them");
    }
}

int main(int argc, char **argv) {
    if (argc != 2)
        return 2;
    write_all(argv[1], "", 0);
    told = mmap(NULL, sizeof *told, PROT_READ | PROT_WRITE, MAP_SHARED | MAP_ANONYMOUS, -1, 0);
    char *found = __real_realpath(argv[1], NULL);
    if (told == MAP_FAILED || found == NULL || strlen(found) + sizeof ".socket" > sizeof socket_path)
        return 2;
    strcpy(path, found);
    free(found);
    snprintf(journal, sizeof journal, "%s.journal", path);
    snprintf(socket_path, sizeof socket_path, "%.90s.socket", path);
    each_fails();
    others_have_it();
    nothing_is_there();
    words();
    unlink(journal);
    printf("%d passed, %d failed\n", passed, failed);
    return failed > 0;
}
