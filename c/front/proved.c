/* The proved program is found, becomes this one, or runs beside it. */
#include "proved.h"
#include "front.h"
#include "programs.h"
#include "settling.h"

#include <errno.h>
#include <fcntl.h>
#include <string.h>
#include <sys/wait.h>
#include <unistd.h>

static int become(char **words) {
    char path[PROGRAM_BYTES];
    if (!find_program("msgq", path))
        return FAULT;
    (void)execv(path, words);
    complain("%s: it can't be run: %s", path, strerror(errno));
    return FAULT;
}

int proved_become(char **words) {
    settle_files(words);
    return become(words);
}

static void close_all(const int *files) {
    for (int at = 0; at < 4; at++)
        if (files[at] >= 0)
            (void)close(files[at]);
}

bool proved_begin(struct proved *it, char **words, bool hears) {
    int files[4] = {-1, -1, -1, -1}; /* of its output, and of its errors: where each is read and written */
    settle_files(words);
    *it = (struct proved){-1, NULL, NULL};
    int wrong = pipe2(files, O_CLOEXEC) == 0 && (!hears || pipe2(files + 2, O_CLOEXEC) == 0) ? 0 : errno;
    if (wrong == 0 && (it->child = fork()) < 0)
        wrong = errno;
    if (it->child == 0) {
        if (dup2(files[1], STDOUT_FILENO) < 0 || (hears && dup2(files[3], STDERR_FILENO) < 0))
            _exit(FAULT);
        _exit(become(words));
    }
    if (wrong == 0 && (it->output = fdopen(files[0], "r")) != NULL)
        files[0] = -1;
    if (wrong == 0 && hears && (it->errors = fdopen(files[2], "r")) != NULL)
        files[2] = -1;
    if (wrong == 0 && (it->output == NULL || (hears && it->errors == NULL)))
        wrong = errno;
    close_all(files);
    if (wrong != 0) {
        complain("the program can't be run: %s", strerror(wrong));
        (void)proved_end(it);
    }
    return wrong == 0;
}

int proved_end(struct proved *it) {
    int status;
    if (it->output != NULL)
        (void)fclose(it->output);
    if (it->errors != NULL)
        (void)fclose(it->errors);
    if (it->child < 0)
        return FAULT;
    while (waitpid(it->child, &status, 0) < 0)
        if (errno != EINTR)
            return FAULT;
    return WIFEXITED(status) ? WEXITSTATUS(status) : FAULT;
}

int proved_end_quietly(struct proved *it) {
    char said[2048];
    size_t count = fread(said, 1, sizeof said, it->errors);
    int status = proved_end(it);
    if (status != DONE)
        (void)fwrite(said, 1, count, stderr);
    return status;
}
