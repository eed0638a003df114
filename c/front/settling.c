/* Calls that stand in the journal of a file are brought into the file. */
#include "settling.h"
#include "afar.h"
#include "front.h"
#include "programs.h"

#include <errno.h>
#include <fcntl.h>
#include <limits.h>
#include <stdbool.h>
#include <stdint.h>
#include <stdlib.h>
#include <string.h>
#include <sys/file.h>
#include <sys/wait.h>
#include <time.h>
#include <unistd.h>

/* Who has the file and does not answer is waited for, so many naps of 20 ms: a server that begins or ends, or the core of another command.
 * A server whose socket stands elsewhere never answers here, nor does a program that has opened the file and noted calls. */
enum { NAPS = 50 };

/* The head of a journal that is under way, and has calls (docs/FORMAT.md): its magic and its version. */
static const uint8_t HEAD[12] = {'m', 's', 'g', 'q', 'u', 'n', 'd', 'o', 0, 0, 0, 3};

/* ---- the journal */

/* Opens the journal of a file; -1 where that can't be. */
static int open_journal(const char *file) {
    static const char SUFFIX[] = ".journal";
    char path[PATH_MAX + sizeof SUFFIX];
    if (realpath(file, path) == NULL)
        return -1;
    strcat(path, SUFFIX);
    return open(path, O_RDONLY | O_CLOEXEC | O_NONBLOCK | O_NOFOLLOW);
}

/* Whether calls may stand in it: the core, which reads all of it, knows. (A fifo can't be read so.) */
static bool may_have_calls(int journal) {
    uint8_t head[sizeof HEAD];
    return pread(journal, head, sizeof head, 0) == (ssize_t)sizeof head && memcmp(head, HEAD, sizeof head) == 0;
}

/* ---- by a server */

/* Has the server save. False where there is none, or it can't. */
static bool ask_server(const char *file) {
    struct afar server;
    struct word told;
    bool is_done = afar_begin(&server, file) && afar_ask(&server, ASK_SAVE, 0, &told) == 0 && told.code == 0;
    afar_end(&server);
    return is_done;
}

/* ---- by the core */

/* Becomes the core, which finds no request and so saves at once. (Its streams stay open, also in the place of such that were closed.) */
static void become_core(const char *program, const char *file) {
    int nothing = open("/dev/null", O_RDWR);
    if (nothing >= 0 && dup2(nothing, STDIN_FILENO) >= 0 && dup2(nothing, STDOUT_FILENO) >= 0)
        (void)execl(program, "msgqd", file, (char *)NULL);
    complain("%s: it can't be run: %s", program, strerror(errno));
    _exit(FAULT);
}

/* Runs it. False where that can't be, or it refuses the file, which it says. */
static bool run_core(const char *file) {
    char program[PROGRAM_BYTES];
    int status = 0;
    if (!find_program("msgqd", program))
        return false;
    pid_t core = fork();
    if (core == 0)
        become_core(program, file);
    if (core < 0) {
        complain("%s: it can't be run: %s", program, strerror(errno));
        return false;
    }
    while (waitpid(core, &status, 0) < 0)
        if (errno != EINTR)
            return false;
    return WIFEXITED(status) && WEXITSTATUS(status) == DONE;
}

/* ---- */

enum settled { SETTLED, BUSY, LEFT };

/* Tries it once; where it is LEFT, and why was not said, tells that. */
static enum settled try_to_settle(const char *file, const char **why) {
    int journal = open_journal(file);
    if (journal < 0)
        return SETTLED;
    bool has_calls = may_have_calls(journal);
    /* Who has the file to change it has its journal locked. */
    bool is_held = has_calls && flock(journal, LOCK_SH | LOCK_NB) != 0 && errno == EWOULDBLOCK;
    (void)close(journal);
    if (!has_calls)
        return SETTLED;
    if (is_held)
        return ask_server(file) ? SETTLED : BUSY;
    if (faccessat(AT_FDCWD, file, R_OK | W_OK, AT_EACCESS) != 0) {
        *why = strerror(errno);
        return LEFT;
    }
    return run_core(file) ? SETTLED : LEFT;
}

void settle_file(const char *file) {
    static const struct timespec NAP = {0, 20000000};
    /* (`top` looks each second) */
    static bool is_said;
    const char *why = NULL;
    enum settled came = is_said ? SETTLED : try_to_settle(file, &why);
    for (int nap = 0; came == BUSY && nap < NAPS; nap++) {
        (void)nanosleep(&NAP, NULL);
        came = try_to_settle(file, &why);
    }
    if (came == SETTLED)
        return;
    if (came == BUSY)
        why = "another process has it open, and none answers at its socket";
    complain("%s: calls stand in its journal, and not in it, and are not seen here%s%s", file,
             why == NULL ? "" : ": ", why == NULL ? "" : why);
    is_said = true;
}

void settle_files(char *const *words) {
    bool are_files = false;
    if (words[0] == NULL || words[1] == NULL)
        return;
    for (char *const *at = words + 2; *at != NULL; at++)
        if (!are_files && (*at)[0] == '-')
            are_files = strcmp(*at, "--") == 0;
        else
            settle_file(*at);
}
