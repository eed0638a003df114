/* The lock file of `msgq with`, and the keeper of a server. */
#include "keeper.h"
#include "../beside.h"
#include "../wire.h"
#include "front.h"
#include "programs.h"

#include <errno.h>
#include <fcntl.h>
#include <signal.h>
#include <stdio.h>
#include <stdlib.h>
#include <string.h>
#include <sys/mman.h>
#include <sys/prctl.h>
#include <sys/stat.h>
#include <sys/wait.h>
#include <time.h>
#include <unistd.h>

/* ---- locks */

enum byte { START, USE, LIFE };

/* Those of START and USE belong to the open file, so that a keeper has its own; that of LIFE to the process, which tells who it is. */
static int lock(int file, int how, short kind, enum byte byte) {
    struct flock range = {.l_type = kind, .l_whence = SEEK_SET, .l_start = byte, .l_len = 1};
    while (fcntl(file, how, &range) != 0)
        if (errno != EINTR)
            return errno;
    return 0;
}

/* The keeper that lives; 0 for none. */
static pid_t keeper_of(int file) {
    struct flock range = {.l_type = F_WRLCK, .l_whence = SEEK_SET, .l_start = LIFE, .l_len = 1};
    return fcntl(file, F_GETLK, &range) == 0 && range.l_type != F_UNLCK ? range.l_pid : 0;
}

static int open_lock(struct opened *it, const char *path) {
    char name[BESIDE_BYTES];
    struct opened file;
    *it = NOT_OPENED;
    int wrong = open_it(&file, path, O_RDONLY | O_NONBLOCK, 0);
    if (wrong == 0 && (wrong = beside_open(it, path, ".with", &file, name)) != 0)
        close_it(it);
    close_it(&file);
    return wrong;
}

/* Whether somebody serves there: 0, or why not. */
static int look_for_server(const char *socket) {
    struct wire wire;
    int wrong = wire_dial(&wire, socket, NULL);
    wire_hang_up(&wire);
    return wrong;
}

static bool is_absent(int wrong) {
    return wrong == ENOENT || wrong == ECONNREFUSED || wrong == ECONNRESET;
}

/* ---- the server */

/* What a server is started with. */
struct start {
    const char *file, *socket;
    int told; /* it says there that it serves */
    int said; /* memory for what it says on standard error */
    int lock;
};

static bool put_at(int file, int number) {
    return dup2(file, number) >= 0;
}

/* Becomes the server. It ends with its keeper, however that ends. */
static void become_server(const struct start *it, pid_t keeper) {
    char program[PROGRAM_BYTES];
    static const char *const variables[] = {"NOTIFY_SOCKET", "LISTEN_FDS", "LISTEN_PID", "LISTEN_FDNAMES", "MSGQ_SOCKET"};
    for (size_t at = 0; at < sizeof variables / sizeof *variables; at++)
        (void)unsetenv(variables[at]);
    if (prctl(PR_SET_PDEATHSIG, SIGTERM) != 0 || getppid() != keeper || !put_at(it->told, STDOUT_FILENO)
        || !put_at(it->said, STDERR_FILENO))
        _exit(FAULT);
    if (find_installed("bin/msgq", program)) {
        (void)execl(program, "msgq", "serve", "--socket", it->socket, it->file, (char *)NULL);
        complain("%s: it can't be run: %s", program, strerror(errno));
    }
    _exit(FAULT);
}

/* ---- the keeper */

static volatile sig_atomic_t server;

static void end_server(int number) {
    (void)number;
    (void)kill(server, SIGTERM);
}

static void end_with_server(int number) {
    (void)number;
    if (waitpid(server, NULL, WNOHANG) == server)
        _exit(DONE);
}

static bool on(int number, void (*handler)(int)) {
    const struct sigaction action = {.sa_handler = handler};
    return sigaction(number, &action, NULL) == 0;
}

/* Opens the lock file once more, for locks of its own, and leaves everything else that was inherited. */
static int leave_all(const struct start *it) {
    char name[64];
    (void)snprintf(name, sizeof name, "/proc/self/fd/%d", it->lock);
    int own = open(name, O_RDWR | O_CLOEXEC), nothing = open("/dev/null", O_RDWR | O_CLOEXEC);
    if (own < 0 || nothing < 0 || setsid() < 0 || chdir("/") != 0 || !put_at(nothing, STDIN_FILENO)
        || !put_at(nothing, STDOUT_FILENO))
        return -1;
    for (int file = STDERR_FILENO + 1; file < (int)sysconf(_SC_OPEN_MAX) && file < 4096; file++)
        if (file != own && file != it->told && file != it->said)
            (void)close(file);
    return own;
}

/* Takes the lock of a keeper that lives. One whose server was killed a moment ago may still have it. */
static bool begin_life(int own) {
    static const struct timespec nap = {0, 20000000};
    for (int left = 1000; left > 0; left--) {
        if (lock(own, F_SETLK, F_WRLCK, LIFE) == 0)
            return true;
        (void)nanosleep(&nap, NULL);
    }
    return false;
}

/* Starts the server, and ends it once no command needs it, or where the last command asks for that. */
static void keep(const struct start *it) {
    sigset_t both, none;
    int own = leave_all(it);
    (void)sigemptyset(&none);
    (void)sigemptyset(&both);
    (void)sigaddset(&both, SIGTERM);
    (void)sigaddset(&both, SIGCHLD);
    if (own < 0 || !begin_life(own) || sigprocmask(SIG_SETMASK, &both, NULL) != 0 || !on(SIGTERM, end_server)
        || !on(SIGCHLD, end_with_server)) {
        complain("%s: no server can be started: %s", it->file, strerror(errno));
        _exit(FAULT);
    }
    pid_t keeper = getpid(), child = fork();
    if (child == 0 && on(SIGTERM, SIG_DFL) && on(SIGCHLD, SIG_DFL) && sigprocmask(SIG_SETMASK, &none, NULL) == 0)
        become_server(it, keeper);
    if (child <= 0)
        _exit(FAULT);
    server = child;
    (void)close(it->told);
    (void)close(it->said);
    (void)!put_at(STDOUT_FILENO, STDERR_FILENO);
    (void)sigprocmask(SIG_SETMASK, &none, NULL);
    (void)lock(own, F_OFD_SETLKW, F_WRLCK, USE);
    end_server(0);
    for (;;)
        (void)pause();
}

/* ---- starting */

/* Copies what a server that does not serve has said. */
static void repeat(int said) {
    char text[4096];
    ssize_t length;
    (void)lseek(said, 0, SEEK_SET);
    while ((length = read(said, text, sizeof text)) > 0)
        (void)!write(STDERR_FILENO, text, (size_t)length);
}

/* Whether a line comes before the end. */
static bool is_told(int file) {
    char byte = '\0';
    ssize_t length;
    do
        length = read(file, &byte, 1);
    while ((length < 0 && errno == EINTR) || (length == 1 && byte != '\n'));
    return length == 1;
}

static int start(const char *file, const char *socket, int lock_file) {
    int ends[2] = {-1, -1}, said = memfd_create("msgq", MFD_CLOEXEC);
    pid_t child = -1;
    if (said >= 0 && pipe2(ends, O_CLOEXEC) == 0)
        child = fork();
    if (child == 0)
        keep(&(struct start){file, socket, ends[1], said, lock_file});
    int wrong = errno;
    if (ends[1] >= 0)
        (void)close(ends[1]);
    bool serves = child > 0 && is_told(ends[0]);
    if (child < 0)
        complain("%s: no server can be started: %s", file, strerror(wrong));
    else if (!serves)
        repeat(said);
    if (ends[0] >= 0)
        (void)close(ends[0]);
    if (said >= 0)
        (void)close(said);
    return serves ? DONE : FAULT;
}

int hold_begin(struct hold *it, const char *file, const char *socket) {
    int wrong = open_lock(&it->lock, file);
    if (wrong != 0) {
        if (look_for_server(socket) == 0)
            return DONE;
        complain("%s.with: it can't be opened: %s", file, strerror(wrong));
        return FAULT;
    }
    wrong = lock(it->lock.file, F_OFD_SETLKW, F_RDLCK, USE);
    if (wrong == 0)
        wrong = lock(it->lock.file, F_OFD_SETLKW, F_WRLCK, START);
    if (wrong != 0) {
        complain("%s.with: it can't be locked: %s", file, strerror(wrong));
        return FAULT;
    }
    wrong = look_for_server(socket);
    int status = wrong == 0 ? DONE : FAULT;
    if (is_absent(wrong))
        status = start(file, socket, it->lock.file);
    else if (wrong != 0)
        complain("%s: it can't be connected to: %s", socket, strerror(wrong));
    (void)lock(it->lock.file, F_OFD_SETLK, F_UNLCK, START);
    return status;
}

void hold_end(struct hold *it) {
    pid_t keeper;
    /* (where two end at once neither is the last, and the keeper sees that both have gone) */
    if (it->lock.file >= 0 && lock(it->lock.file, F_OFD_SETLK, F_WRLCK, USE) == 0
        && (keeper = keeper_of(it->lock.file)) > 0 && kill(keeper, SIGTERM) == 0)
        (void)lock(it->lock.file, F_SETLKW, F_WRLCK, LIFE);
    close_it(&it->lock);
}
