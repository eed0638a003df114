/* What becomes of the files that a process has open where it forks. */
#include "opened.h"

#include <errno.h>

/* The lock of a file belongs to all processes that have it open by one opening (flock(2)), so also to a child. The child of a
 * fork therefore closes what it has inherited, at once: else the file would stay locked while it lives, also behind the death of
 * its parent. Where a child was made without fork(2), msgq_close unlocks. */

static pthread_mutex_t lock = PTHREAD_MUTEX_INITIALIZER;
static struct opened_file *first;
static unsigned forks;

static void before_fork(void) {
    (void)pthread_mutex_lock(&lock);
}

static void behind_fork(void) {
    (void)pthread_mutex_unlock(&lock);
}

static void begin_child(void) {
    for (struct opened_file *it = first; it != NULL; it = it->next)
        pair_leave(&it->pair);
    first = NULL;
    forks++;
    behind_fork();
}

static int told;

static void begin(void) {
    told = pthread_atfork(before_fork, behind_fork, begin_child);
}

int begin_process(void) {
    static pthread_once_t once = PTHREAD_ONCE_INIT;
    int wrong = pthread_once(&once, begin);
    return wrong != 0 ? wrong : told;
}

void note_open(struct opened_file *file) {
    (void)pthread_mutex_lock(&lock);
    file->forks = forks;
    file->next = first;
    first = file;
    (void)pthread_mutex_unlock(&lock);
}

void note_closed(struct opened_file *file) {
    (void)pthread_mutex_lock(&lock);
    for (struct opened_file **at = &first; *at != NULL; at = &(*at)->next)
        if (*at == file) {
            *at = file->next;
            break;
        }
    (void)pthread_mutex_unlock(&lock);
}

bool is_own(const struct opened_file *file) {
    return file->forks == forks;
}
