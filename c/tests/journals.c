/* Journals and pages written by hand from docs/FORMAT.md: what is put back, what is refused, and what is said of it (docs/FAULTS.md).
 * Run with the name of a new file, in the folder where it is to be. */
#include "../msgq.h"
#include "sha256.h"

#include <errno.h>
#include <stdio.h>
#include <stdlib.h>
#include <string.h>
#include <sys/stat.h>
#include <unistd.h>

enum { PAGE = 4096, PAYLOAD = 4064, SUM = 32, HEAD = 80, IMAGE = 4 + PAGE + SUM, PAGES = 300, ROOT = 257, MOST = 4 };

static int passed, failed;
static char path[200], journal[220];

static void is(long long found, long long expected, const char *what) {
    if (found == expected) {
        passed++;
        return;
    }
    failed++;
    fprintf(stderr, "%s: %lld, not %lld\n", what, found, expected);
}

/* ---- files */

static void number(uint8_t *at, uint32_t value) {
    for (int n = 0; n < 4; n++)
        at[n] = (uint8_t)(value >> (24 - 8 * n));
}

static uint8_t good[PAGES * PAGE], bytes[PAGES * PAGE];

static void write_all(const char *name, const uint8_t *from, size_t count) {
    FILE *file = fopen(name, "w");
    if (file == NULL || fwrite(from, 1, count, file) != count || fclose(file) != 0)
        exit(2);
}

static int begins(const char *name, const void *wanted, size_t count) {
    static uint8_t found[PAGES * PAGE];
    FILE *file = fopen(name, "r");
    size_t had = file == NULL ? 0 : fread(found, 1, count, file);
    return file != NULL && fclose(file) == 0 && had == count && memcmp(found, wanted, count) == 0;
}

static int holds(const char *name, const void *wanted, size_t count) {
    struct stat it;
    return stat(name, &it) == 0 && (size_t)it.st_size == count && begins(name, wanted, count);
}

/* Seals a page of the bytes. */
static void seal(uint32_t page) {
    uint8_t all[4 + PAYLOAD];
    number(all, page);
    memcpy(all + 4, bytes + (size_t)page * PAGE, PAYLOAD);
    digest(all, sizeof all, bytes + (size_t)page * PAGE + PAYLOAD);
}

/* ---- journals */

struct left {
    uint8_t bytes[HEAD + MOST * IMAGE], sum[SUM];
    size_t count;
};

/* Spells a head of the save that has a number, which version 1 does not have. */
static void begin(struct left *it, uint32_t version, uint32_t save, uint32_t pages, const uint8_t *first) {
    memcpy(it->bytes, "msgqundo", 8);
    number(it->bytes + 8, version);
    number(it->bytes + 12, pages);
    number(it->bytes + 16, 0);
    number(it->bytes + 20, save);
    memcpy(it->bytes + 24, first + PAYLOAD, 24);
    if (version == 1)
        digest(first, PAGE, it->bytes + 16);
    digest(it->bytes, 48, it->bytes + 48);
    memcpy(it->sum, it->bytes + 48, SUM);
    it->count = HEAD;
}

/* Whether the journal says that the save of this number was ended, and has no other number of bytes than before. */
static int is_ended(uint32_t save, size_t count) {
    uint8_t head[HEAD] = {0};
    struct stat it;
    memcpy(head, "msgqdone", 8);
    number(head + 8, 2);
    number(head + 20, save);
    digest(head, 48, head + 48);
    return stat(journal, &it) == 0 && (size_t)it.st_size == count && begins(journal, head, HEAD);
}

static void add(struct left *it, uint32_t page, const uint8_t *was) {
    uint8_t all[SUM + 4 + PAGE];
    memcpy(all, it->sum, SUM);
    number(all + SUM, page);
    memcpy(all + SUM + 4, was, PAGE);
    digest(all, sizeof all, it->sum);
    memcpy(it->bytes + it->count, all + SUM, 4 + PAGE);
    memcpy(it->bytes + it->count + 4 + PAGE, it->sum, SUM);
    it->count += IMAGE;
}

/* Adds an addition of calls: its length with the highest bit set, its bytes, and the digest. */
static void add_calls(struct left *it, const void *calls, uint32_t length) {
    uint8_t all[SUM + 4 + 256];
    memcpy(all, it->sum, SUM);
    number(all + SUM, 0x80000000u | length);
    memcpy(all + SUM + 4, calls, length);
    digest(all, SUM + 4 + length, it->sum);
    memcpy(it->bytes + it->count, all + SUM, 4 + length);
    memcpy(it->bytes + it->count + 4 + length, it->sum, SUM);
    it->count += 4 + length + SUM;
}

/* Adds what says that the images before it were put back. */
static void add_put_back(struct left *it) {
    uint8_t all[SUM + 4];
    memcpy(all, it->sum, SUM);
    number(all + SUM, 0x40000000u);
    digest(all, sizeof all, it->sum);
    memcpy(it->bytes + it->count, all + SUM, 4);
    memcpy(it->bytes + it->count + 4, it->sum, SUM);
    it->count += 4 + SUM;
}

enum { CALL = 62 };

/* Spells the call by which this process sent two bytes to queue 1, by NOWAIT at moment 5, and was told a serial. */
static void spell_call(uint8_t *at, uint8_t serial) {
    static const uint8_t sent[CALL] = {[0] = 5, [8] = 42, [36] = 2, [37] = 1, [40] = 1, [44] = 7, [52] = 'a', 'b'};
    const uint32_t caller[3] = {(uint32_t)getpid(), (uint32_t)geteuid(), (uint32_t)getegid()};
    memcpy(at, sent, CALL);
    for (int n = 0; n < 12; n++)
        at[20 + n] = (uint8_t)(caller[n / 4] >> (n % 4 * 8));
    at[54] = serial;
}

static void says(const char *words) {
    char whole[400];
    snprintf(whole, sizeof whole, "%s: %s", path, words);
    is(strcmp(msgq_reason(), whole), 0, words);
    if (strcmp(msgq_reason(), whole) != 0)
        fprintf(stderr, "said: %s\n", msgq_reason());
}

/* Opens the bytes with a journal, which is refused, and nothing is written. */
static void is_refused(const struct left *it, int wrong, const char *words) {
    msgq *queues;
    write_all(path, bytes, sizeof bytes);
    write_all(journal, it->bytes, it->count);
    is(msgq_open(path, &queues), wrong, words);
    says(words);
    is(holds(path, bytes, sizeof bytes), 1, "the file is as it was");
    is(holds(journal, it->bytes, it->count), 1, "the journal is as it was");
}

/* The same of calls behind which a page stands: that is put back, and let go, so that it is not put back again. */
static void is_let_go(const struct left *it, const struct left *then, int wrong, const char *words) {
    msgq *queues;
    write_all(path, bytes, sizeof bytes);
    write_all(journal, it->bytes, it->count);
    is(msgq_open(path, &queues), wrong, words);
    says(words);
    is(holds(path, good, sizeof good), 1, "the page is put back");
    is(begins(journal, then->bytes, then->count), 1, "it is let go");
    write_all(path, bytes, sizeof bytes);
    is(msgq_open(path, &queues) == EBADMSG && holds(path, bytes, sizeof bytes), 1, "and is not put back again");
}

/* Opens the bytes with a journal, which leads to the good file and has no head of that save then. */
static void is_put_back(const struct left *it, size_t count, uint32_t save, const char *what) {
    msgq *queues;
    write_all(path, bytes, count);
    write_all(journal, it->bytes, it->count);
    is(msgq_open(path, &queues), 0, what);
    is(msgq_abandon(queues), 0, "abandon");
    is(holds(path, good, sizeof good), 1, what);
    is(is_ended(save, it->count), 1, "the journal is ended");
}

/* The same of what is no whole journal: both stay, and the next save that changes something writes over it, and has this number. */
static void is_none(const struct left *it, size_t count, uint32_t save, const char *what) {
    msgq *queues;
    uint32_t id;
    write_all(path, good, sizeof good);
    write_all(journal, it->bytes, count);
    is(msgq_open(path, &queues), 0, what);
    is(msgq_save(queues), 0, "a save of nothing");
    is(holds(path, good, sizeof good), 1, what);
    is(holds(journal, it->bytes, count), 1, what);
    is(msgq_get(queues, 8, MSGQ_CREATE | 0600, &id), 0, "get");
    is(msgq_save(queues), 0, "save");
    is(holds(path, good, sizeof good), 0, "the file is changed");
    is(is_ended(save, count < HEAD + IMAGE ? HEAD + IMAGE : count), 1, what);
    is(msgq_close(queues), 0, "close");
}

/* Opens the bytes with a journal with calls: they are brought in, with two messages more, and it is ended. */
static void are_made(const struct left *it, const char *what) {
    msgq *queues;
    struct msgq_info info;
    struct msgq_message got;
    char body[8];
    write_all(path, bytes, sizeof bytes);
    write_all(journal, it->bytes, it->count);
    is(msgq_open(path, &queues), 0, what);
    is(msgq_abandon(queues), 0, "abandon");
    is(holds(path, bytes, sizeof bytes), 0, "they are in the file");
    is(begins(journal, "msgqdone", 8), 1, "the journal is ended");
    is(msgq_open(path, &queues), 0, "open");
    is(msgq_stat(queues, 1, &info), 0, "stat");
    is((long long)info.qnum, 3, what);
    is((long long)info.stime, 5, what);
    for (uint64_t serial = 2; serial < 4; serial++) {
        is(msgq_receive(queues, 1, 7, body, sizeof body, MSGQ_NOWAIT, NULL, &got), 0, what);
        is((long long)got.serial, (long long)serial, what);
        is(got.length == 2 && memcmp(body, "ab", 2) == 0, 1, what);
    }
    is(msgq_abandon(queues), 0, "abandon");
}

/* Calls that a server has answered, behind which a save may have begun. */
static void calls(void) {
    static const char NOT_ITS[] =
        "it can't be opened: the calls in its journal are of another file: put the file or the journal that belongs there";
    static struct left it, before;
    uint8_t call[2 * CALL];
    memcpy(bytes, good, sizeof bytes);
    spell_call(call, 2);
    spell_call(call + CALL, 3);
    begin(&it, 3, 7, PAGES, good);
    add_calls(&it, call, 2 * CALL);
    are_made(&it, "calls of one addition");
    begin(&it, 3, 7, PAGES, good);
    add_calls(&it, call, CALL);
    add_put_back(&it);
    add_calls(&it, call + CALL, CALL);
    are_made(&it, "calls of two additions");
    before = it;
    memset(bytes + ROOT * PAGE, 'x', PAGE);
    add(&it, ROOT, good + ROOT * PAGE);
    are_made(&it, "calls, and a page that is put back");
    it.bytes[it.count - 1]++;
    memcpy(bytes, good, sizeof bytes);
    are_made(&it, "calls, and an image that is wrong");
    it = before;
    add_put_back(&it);
    add(&it, PAGES, good);
    is_refused(&it, EBADMSG, "it can't be opened: its journal is of another file: put the file or the journal that belongs there");
    /* A serial that was not told, bytes behind the last call, and calls that are none. */
    begin(&it, 3, 7, PAGES, good);
    add_calls(&it, call + CALL, CALL);
    is_refused(&it, EBADMSG, NOT_ITS);
    begin(&it, 3, 7, PAGES, good);
    add_calls(&it, call, CALL + 1);
    is_refused(&it, EBADMSG, NOT_ITS);
    begin(&it, 3, 7, PAGES, good);
    add_calls(&it, "calls", 5);
    is_refused(&it, EBADMSG, NOT_ITS);
    struct left image = it, then = it;
    add(&image, ROOT, good + ROOT * PAGE);
    add_put_back(&then);
    memset(bytes + ROOT * PAGE, 'x', PAGE);
    is_let_go(&image, &then, EBADMSG, NOT_ITS);
    memcpy(bytes, good, sizeof bytes);
    /* Where none is whole there is no journal. */
    is_none(&it, it.count - 1, 8, "calls that are cut");
    it.bytes[it.count - 1]++;
    is_none(&it, it.count, 8, "calls whose digest is wrong");
    is_none(&it, HEAD + 3, 8, "calls without their length");
    begin(&it, 3, 7, PAGES, good);
    add(&it, ROOT, good + ROOT * PAGE);
    is_none(&it, it.count, 8, "a page where calls have to stand");
    begin(&it, 3, 7, PAGES, good);
    add_put_back(&it);
    is_none(&it, it.count, 8, "images that were put back, and no calls");
}

static void journals(void) {
    static const char FOREIGN[] = "it can't be opened: its journal is of another file: put the file or the journal that belongs there";
    static struct left it;
    static uint8_t more[(PAGES + 1) * PAGE];
    uint8_t *page = bytes + ROOT * PAGE, *first = bytes;
    memcpy(bytes, good, sizeof bytes);
    memset(page, 'x', PAGE);
    for (uint32_t version = 1; version < 3; version++) {
        uint32_t save = version == 1 ? 0 : 7;
        memcpy(first, good, PAGE);
        begin(&it, version, 7, PAGES, good);
        add(&it, ROOT, good + ROOT * PAGE);
        is_put_back(&it, sizeof bytes, save, "a page is put back");
        add(&it, 0, good);
        memset(first, 'y', PAGE);
        is_put_back(&it, sizeof bytes, save, "page 0 is put back");
        add(&it, 1, page);
        it.bytes[it.count - 1]++;
        is_put_back(&it, sizeof bytes, save, "behind a wrong image there is none");
        it.count -= 1;
        is_put_back(&it, sizeof bytes, save, "nor is one that is cut");
        memcpy(more, bytes, sizeof bytes);
        write_all(path, more, sizeof more);
        write_all(journal, it.bytes, it.count);
        msgq *queues;
        is(msgq_open(path, &queues), 0, "a file that had grown");
        is(msgq_abandon(queues), 0, "abandon");
        is(holds(path, good, sizeof good), 1, "it is cut");

        begin(&it, version, 7, PAGES, good);
        add(&it, ROOT, good + ROOT * PAGE);
        is_refused(&it, EBADMSG, FOREIGN);
        memcpy(first, good, PAGE);
        begin(&it, version, 7, PAGES + 1, good);
        is_refused(&it, EBADMSG, FOREIGN);
        begin(&it, version, 7, PAGES, good);
        add(&it, ROOT, good + ROOT * PAGE);
        add(&it, PAGES, good);
        is_refused(&it, EBADMSG, FOREIGN);
    }
    begin(&it, 4, 7, PAGES, good);
    is_refused(&it, ENOTSUP, "it can't be opened: its journal is of another version");
    calls();
    memcpy(bytes, good, sizeof bytes);
    memset(page, 'x', PAGE);
    begin(&it, 2, 7, PAGES, good);
    add(&it, ROOT, page);
    is_none(&it, 1, 1, "a journal of one byte");
    is_none(&it, HEAD - 1, 1, "a journal without a head");
    memcpy(it.bytes, "msgqdone", 8);
    digest(it.bytes, 48, it.bytes + 48);
    is_none(&it, it.count, 8, "a journal that was ended");
    it.bytes[23]++;
    it.count = HEAD + IMAGE;
    is_none(&it, it.count, 1, "a journal whose head is wrong");
    is(unlink(journal), 0, "no journal");
}

/* ---- pages */

/* Opens the bytes, of which a page was changed and sealed anew. */
static void is_wrong(uint32_t page, unsigned fault, const char *words) {
    msgq *queues;
    seal(page);
    write_all(path, bytes, sizeof bytes);
    is(msgq_open(path, &queues), EBADMSG, words);
    is(msgq_last_fault(), fault, words);
    says(words);
    memcpy(bytes, good, sizeof bytes);
}

static void pages(void) {
    uint8_t *root = bytes + ROOT * PAGE;
    memcpy(bytes, good, sizeof bytes);
    bytes[0] = 9;
    is_wrong(0, 41, "it can't be opened (fault 41): page 0 is not the header of this file; 'msgq check' says where");
    bytes[4] = 'm';
    is_wrong(0, 41, "it can't be opened (fault 41): page 0 is not the header of this file; it is no file of message queues");
    bytes[1] = 1;
    is_wrong(0, 42, "it can't be opened (fault 42): it is of version 1: 'msgq migrate' makes a file of today's version of it");
    bytes[1] = 3;
    is_wrong(0, 42, "it can't be opened (fault 42): the file is of another version; 'msgq check' says where");
    root[0] = 9;
    is_wrong(ROOT, 40, "it can't be opened (fault 40): a page is malformed; 'msgq check' says where");
    number(root + 8, ROOT + 1);
    is_wrong(ROOT, 70, "it can't be opened (fault 70): a page does not go on with the chain of buckets; 'msgq check' says where");
    number(bytes + 16, 0);
    is_wrong(0, 71, "it can't be opened (fault 71): a page is neither on the chain nor on the list of free pages, or is on the list and "
                    "not free; 'msgq check' says where");
    number(bytes + 20, 2);
    is_wrong(0, 72, "it can't be opened (fault 72): a bucket, an entry or a count of the directory is wrong; 'msgq check' says where");
    /* The first record is the Counter: its length (2), its key (13), the next id and how many queues are alive. */
    number(root + 16 + 15 + 4, 7);
    is_wrong(ROOT, 73, "it can't be opened (fault 73): the records are those of no system of queues; 'msgq check' says where");
    root[16 + 2 + 4] = 1;
    is_wrong(ROOT, 43, "it can't be opened (fault 43): a record has no such value; 'msgq check' says where");
}

int main(int argc, char **argv) {
    msgq *queues;
    uint32_t id;
    if (argc < 2)
        return 2;
    snprintf(path, sizeof path, "%s", argv[1]);
    snprintf(journal, sizeof journal, "%s.journal", path);
    is(msgq_create(path, PAGES), 0, "create");
    is(msgq_open(path, &queues), 0, "open");
    is(msgq_get(queues, 7, MSGQ_CREATE | 0600, &id), 0, "get");
    is(msgq_send(queues, id, 1, "good", 4, 0, NULL), 0, "send");
    is(msgq_close(queues), 0, "close");
    FILE *file = fopen(path, "r");
    if (file == NULL || fread(good, 1, sizeof good, file) != sizeof good || fclose(file) != 0)
        return 2;
    journals();
    if (argc == 2)
        pages();
    printf("%d passed, %d failed\n", passed, failed);
    return failed > 0;
}
