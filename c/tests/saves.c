/* The transfers of a save as session.h tells them, in the order of docs/FORMAT.md, "The journal". Each of them fails in turn, and what was to be
 * saved is still to be saved then. */
#include "../session.h"

#include <stdio.h>
#include <string.h>

enum { PAGES = 300, HEAD = 80, IMAGE = 4132, MOST = 100 };

static int passed, failed;

static bool is(long long found, long long expected, const char *what, int at) {
    if (found == expected) {
        passed++;
        return true;
    }
    failed++;
    fprintf(stderr, "%s, %d: %lld, not %lld\n", what, at, found, expected);
    return false;
}

/* The file, into which nothing is written here. */
static uint8_t file[PAGES * PAGE_BYTES];

static uint8_t *page_of_file(uint64_t page) {
    return file + page * PAGE_BYTES;
}

/* ---- what has to come */

static struct order all[3 * MOST + 7];
static int count;

static void add(uint32_t kind, uint32_t length, uint64_t at) {
    all[count++] = (struct order){kind, length, at};
}

/* The pages of a session that are not as the file has them. */
static uint32_t look(struct handle *session, uint32_t *changed) {
    uint8_t page[PAGE_BYTES];
    uint32_t many = 0;
    for (uint32_t n = 0; n < PAGES && many < MOST; n++)
        if (msgq_session_page(session, n, page) == DONE && memcmp(page, page_of_file(n), PAGE_BYTES) != 0)
            changed[many++] = n;
    return many;
}

/* A save beside a journal without bytes: the head, and an image of each page; these pages; the end. */
static void spell(const uint32_t *changed, uint32_t many) {
    add(READ_FILE, PAGE_BYTES, 0);
    add(WRITE_JOURNAL, HEAD, 0);
    for (uint32_t n = 0; n < many; n++) {
        add(READ_FILE, PAGE_BYTES, (uint64_t)changed[n] * PAGE_BYTES);
        add(WRITE_JOURNAL, IMAGE, HEAD + (uint64_t)n * IMAGE);
    }
    add(SYNC_JOURNAL, 0, 0);
    for (uint32_t n = 0; n < many; n++)
        add(WRITE_FILE, PAGE_BYTES, (uint64_t)changed[n] * PAGE_BYTES);
    add(SYNC_FILE_BYTES, 0, 0);
    add(WRITE_JOURNAL, HEAD, 0);
    add(SYNC_JOURNAL_BYTES, 0, 0);
    add(OVER, 0, 0);
}

/* ---- what comes */

/* A save whose transfer of this number fails; it is over where there is none. */
static void save(struct handle *session, int fails) {
    static const struct stands none;
    static const uint8_t sum[DIGEST_BYTES];
    uint8_t bytes[ORDER_BYTES];
    struct order order;
    is(msgq_session_save_begin(session, &none, sum), DONE, "begin", fails);
    for (int n = 0; n <= fails; n++) {
        if (!is(msgq_session_save_next(session, &order, bytes), DONE, "next", n) || !is(order.kind, all[n].kind, "which transfer", n)
            || !is(order.length, all[n].length, "its bytes", n) || !is((long long)order.at, (long long)all[n].at, "its place", n)
            || order.kind == OVER)
            return;
        bool is_done = n < fails;
        is(msgq_session_save_told(session, order.kind == READ_FILE ? file + order.at : bytes, is_done), is_done ? DONE : FAILED, "told", n);
    }
}

/* A session of a file with one queue and some messages, which the file does not have. */
static void begin(struct handle *session) {
    const struct owner owner = {42, 1, 1};
    const struct get_call get = {.key = 7, .has_key = true, .create = true, .mode = 0600};
    const struct send_call send = {.mtype = 1, .id = 1, .nowait = true};
    static const uint8_t body[1000];
    uint32_t id;
    uint64_t serial;
    is(msgq_session_create(session, &owner, PAGES), DONE, "create", 0);
    for (uint32_t n = 0; n < PAGES; n++)
        is(msgq_session_page(session, n, page_of_file(n)), DONE, "page", (int)n);
    is(msgq_session_close(session), DONE, "close", 0);
    is(msgq_session_open(session, &owner, file, sizeof file), DONE, "open", 0);
    is(msgq_session_get(session, &get, &id), DONE, "get", 0);
    for (int n = 0; n < 9; n++)
        is(msgq_session_send(session, &send, body, sizeof body, &serial), DONE, "send", n);
}

int main(void) {
    struct handle session = {0};
    struct order first;
    uint32_t changed[MOST];
    uint8_t bytes[ORDER_BYTES];
    begin(&session);
    uint32_t many = look(&session, changed);
    is(many > 2 && many < MOST, true, "pages have changed", (int)many);
    spell(changed, many);
    for (int n = 0; n < count; n++)
        save(&session, n);
    /* The last of these was over: nothing is left to be saved. */
    is(msgq_session_save_begin(&session, &(struct stands){0}, bytes), DONE, "begin", count);
    is(msgq_session_save_next(&session, &first, bytes), DONE, "next", count);
    is(first.kind, OVER, "a save of nothing", count);
    is(msgq_session_close(&session), DONE, "close", count);
    printf("%d passed, %d failed\n", passed, failed);
    return failed > 0;
}
