/* Messages are printed as a server tells of them. */
#include "follow.h"
#include "afar.h"
#include "front.h"
#include "proved.h"
#include "served.h"
#include "telling.h"
#include "words.h"
#include "../msgq.h"
#include "../relay/numbers.h"

#include <errno.h>
#include <inttypes.h>
#include <stdio.h>
#include <stdlib.h>
#include <string.h>

enum { A_MESSAGE = 1, UNTOLD_MESSAGES = 2, MESSAGE = 24, EIDRM_CODE = 4, ENDS = 201 };

struct following {
    const char *file, *key;
    struct name queue;
    uint32_t id;
    struct afar server;
    uint64_t *serials; /* of the messages that were there, in their order */
    size_t count;
};

/* ---- what is there */

static bool note_serial(struct following *it, const char *line) {
    uint64_t *more = realloc(it->serials, (it->count + 1) * sizeof *more);
    if (more == NULL)
        return false;
    it->serials = more;
    it->serials[it->count++] = strtoull(line, NULL, 10);
    return true;
}

/* Prints the table of the proved program without its totals. */
static bool print_table(struct following *it, FILE *table) {
    char *line = NULL;
    size_t room = 0;
    bool is_noted = true, is_first = true;
    while (is_noted && getline(&line, &room, table) >= 0) {
        if (strncmp(line, "total\t", 6) == 0)
            break;
        is_noted = is_first || note_serial(it, line);
        is_first = false;
        (void)fputs(line, stdout);
    }
    free(line);
    return is_noted && fflush(stdout) == 0 && !ferror(stdout);
}

/* Prints what stands in the file. Of a server whose socket was named there is none. */
static int print_file(struct following *it) {
    static char name[] = "msgq", verb[] = "list", end[] = "--";
    char *words[] = {name, verb, end, (char *)(uintptr_t)it->file, (char *)(uintptr_t)it->key, NULL};
    struct proved proved;
    if (!it->server.is_of_file) {
        (void)printf("SERIAL\tTYPE\tSENDER\tLENGTH\tBODY\n");
        return fflush(stdout) == 0 ? DONE : FAULT;
    }
    if (!proved_begin(&proved, words, true))
        return FAULT;
    bool is_printed = print_table(it, proved.output);
    int status = proved_end_quietly(&proved);
    return status != DONE ? status : is_printed ? DONE : FAULT;
}

/* ---- what comes */

static bool was_there(const struct following *it, uint64_t serial) {
    for (size_t at = it->count; at > 0 && it->serials[at - 1] >= serial; at--)
        if (it->serials[at - 1] == serial)
            return true;
    return false;
}

/* Prints a message as the table does: of its body the first bytes, with a dot for each that is not printable. */
static void print_message(const struct following *it, const struct word *told) {
    const uint8_t *at = told->fields;
    uint64_t serial = get_u32(at) | (uint64_t)get_u32(at + 4) << 32, type = get_u32(at + 16) | (uint64_t)get_u32(at + 20) << 32;
    if (was_there(it, serial))
        return;
    (void)printf("%" PRIu64 "\t%" PRId64 "\t%" PRIu32 "\t%" PRIu32 "\t", serial, (int64_t)type, get_u32(at + 8), get_u32(at + 12));
    for (size_t byte = MESSAGE; byte < told->count; byte++)
        (void)putchar(at[byte] >= ' ' && at[byte] <= '~' ? at[byte] : '.');
    (void)putchar('\n');
}

/* How it ends, by the code of an answer. */
static int ends_by(const struct following *it, uint32_t code) {
    if (code == ENDS)
        complain("%s: the server has ended", it->file);
    else if (code == EIDRM_CODE)
        complain("%s: queue %s: EIDRM: it was removed", it->file, it->key);
    else
        complain("%s: queue %s: the server answered %" PRIu32, it->file, it->key, code);
    return code == EIDRM_CODE ? REFUSED : FAULT;
}

static int print_on(struct following *it) {
    struct word told;
    int wrong;
    while ((wrong = afar_hear(&it->server, &told)) == 0 && told.code == 0) {
        if (told.value == A_MESSAGE && told.count >= MESSAGE)
            print_message(it, &told);
        else if (told.value == UNTOLD_MESSAGES && told.count >= 8)
            complain("%s: queue %s: %" PRIu32 " messages came that were not told, since these were not read", it->file, it->key,
                     get_u32(told.fields));
        if (!afar_has_more(&it->server) && fflush(stdout) != 0) {
            complain("standard output: %s", strerror(errno));
            return FAULT;
        }
    }
    if (wrong == 0)
        return ends_by(it, told.code);
    complain("%s: the server: %s", it->file, strerror(wrong));
    return FAULT;
}

/* ---- it begins */

static int find(struct following *it, msgq *queues) {
    int wrong = 0;
    it->id = it->queue.number;
    if (!it->queue.is_id)
        wrong = msgq_get(queues, it->queue.number, 0, &it->id);
    return wrong;
}

/* Follows first, and then looks at what is there: so nothing is missed, and what comes twice is known by its serial. */
static int begin(struct following *it, msgq *queues) {
    struct word told;
    int wrong = find(it, queues);
    if (wrong != 0) {
        complain_of(it->file, &it->queue, wrong);
        return status_of(wrong);
    }
    wrong = afar_ask(&it->server, ASK_FOLLOW, it->id, &told);
    if (wrong != 0) {
        complain("%s: the server: %s", it->file, strerror(wrong));
        return FAULT;
    }
    if (told.code != 0) {
        struct msgq_info info;
        /* (the library says the same in words) */
        wrong = msgq_stat(queues, it->id, &info);
        if (wrong == 0)
            return ends_by(it, told.code);
        complain_of(it->file, &it->queue, wrong);
        return status_of(wrong);
    }
    (void)msgq_save(queues);
    int status = print_file(it);
    return status == DONE ? print_on(it) : status;
}

int follow(const char *file, const char *key) {
    static struct following it;
    msgq *queues;
    it.file = file;
    it.key = key;
    if (!read_name(key, &it.queue)) {
        complain("'%s' is no key, a number of 32 bits, nor @ and an id", key);
        return MISUSE;
    }
    bool is_served = afar_begin(&it.server, file);
    /* (by the file, so that sentences name it) */
    if (!is_served || !(it.server.is_of_file ? connect_beside(file, &queues) : msgq_connect(file, &queues) == 0)) {
        afar_end(&it.server);
        complain("%s: it is not served: --follow is for a file that a server has open (msgq serve)", file);
        return FAULT;
    }
    int status = begin(&it, queues);
    (void)msgq_abandon(queues);
    afar_end(&it.server);
    free(it.serials);
    return status;
}
