/* A recovery in plain C, typed from docs/FORMAT.md ("The journal"), as a stand-in for that of crates/msgq_c. */
#ifndef MSGQ_TESTS_RECOVERING_H
#define MSGQ_TESTS_RECOVERING_H

#include "heads.h"
#include "routine.h"

enum { IMAGE_BYTES = 4 + PAGE_BYTES + DIGEST_BYTES, LEAST_ENTRY = 4 + DIGEST_BYTES };

/* The highest bit of a word says that calls follow; the other word that images were put back. */
#define CALLS_FOLLOW 0x80000000u
#define WERE_PUT_BACK 0x40000000u

/* Where entries have been passed to. */
struct passed {
    uint64_t at;
    uint8_t sum[DIGEST_BYTES];
};

static struct {
    uint64_t journal, file;
    uint8_t head[HEAD_BYTES];
    struct passed calls, passed;
    uint64_t images;
    bool has_calls;
    struct stands stands;
} recovering;

static bool is_first_version(void) {
    return number_at(recovering.head + 8) == 1;
}

static bool is_page_zero(const uint8_t *page) {
    const uint8_t *named = recovering.head + 16;
    return is_first_version() ? has_digest(page, PAGE_BYTES, named) : memcmp(page + PAGE_BYTES - DIGEST_BYTES, named + 8, 24) == 0;
}

/* Whether an entry of so many bytes, which were read, ends with the right digest; then it is passed by. */
static bool pass(struct passed *passed, const uint8_t *entry, size_t length) {
    uint8_t *all = malloc(DIGEST_BYTES + length);
    bool is_right = all != NULL;
    if (is_right) {
        memcpy(all, passed->sum, DIGEST_BYTES);
        memcpy(all + DIGEST_BYTES, entry, length);
        is_right = has_digest(all, length, entry + length - DIGEST_BYTES);
    }
    free(all);
    if (is_right) {
        passed->at += length;
        memcpy(passed->sum, entry + length - DIGEST_BYTES, DIGEST_BYTES);
    }
    return is_right;
}

/* Reads an addition of calls, or what says that images were put back, before a place: how many bytes of calls it has; -1 where none is whole,
 * and -2 where a transfer has failed. */
static int64_t next_calls(struct passed *passed, uint64_t size) {
    if (size - passed->at < LEAST_ENTRY)
        return -1;
    if (!ask(READ_JOURNAL, passed->at, 4, NULL))
        return -2;
    uint32_t word = number_at(routine.bytes), count = word == WERE_PUT_BACK ? 0 : word & ~CALLS_FOLLOW;
    if ((word != WERE_PUT_BACK && (word & CALLS_FOLLOW) == 0) || count > 0x3fffffff || size - passed->at < (uint64_t)LEAST_ENTRY + count)
        return -1;
    if (!ask(READ_JOURNAL, passed->at, LEAST_ENTRY + count, NULL))
        return -2;
    return pass(passed, routine.bytes, LEAST_ENTRY + count) ? (int64_t)count : -1;
}

static uint32_t pass_calls(void) {
    int64_t count;
    while ((count = next_calls(&recovering.calls, recovering.journal)) >= 0)
        recovering.has_calls = recovering.has_calls || count > 0;
    return count == -2 ? FAILED : DONE;
}

/* Reads all images, and whether they are of this file. */
static uint32_t test_images(void) {
    uint64_t count = number_at(recovering.head + COUNT_AT);
    if (recovering.file < count * PAGE_BYTES || recovering.file < PAGE_BYTES)
        return OTHER_FILE;
    if (!ask(READ_FILE, 0, PAGE_BYTES, NULL))
        return FAILED;
    bool is_its = is_page_zero(routine.bytes);
    recovering.passed = recovering.calls;
    while (recovering.journal - recovering.passed.at >= IMAGE_BYTES) {
        if (!ask(READ_JOURNAL, recovering.passed.at, IMAGE_BYTES, NULL))
            return FAILED;
        if (!pass(&recovering.passed, routine.bytes, IMAGE_BYTES))
            break;
        if (number_at(routine.bytes) >= count)
            return OTHER_FILE;
        is_its = is_its || (number_at(routine.bytes) == 0 && is_page_zero(routine.bytes + 4));
        recovering.images++;
    }
    return is_its ? DONE : OTHER_FILE;
}

/* Looks at the journal: whether it is whole. */
static uint32_t look(bool *is_whole) {
    uint8_t *head = recovering.head;
    *is_whole = false;
    if (recovering.journal < HEAD_BYTES)
        return DONE;
    if (!ask(READ_JOURNAL, 0, HEAD_BYTES, NULL))
        return FAILED;
    memcpy(head, routine.bytes, HEAD_BYTES);
    if (!has_digest(head, SUM_AT, head + SUM_AT) || memcmp(head, "msgqundo", 8) != 0)
        return DONE;
    uint32_t version = number_at(head + 8);
    if (version < 1 || version > VERSION_OF_CALLS)
        return OTHER_VERSION;
    recovering.calls.at = HEAD_BYTES;
    memcpy(recovering.calls.sum, head + SUM_AT, DIGEST_BYTES);
    if (version == VERSION_OF_CALLS && pass_calls() != DONE)
        return FAILED;
    *is_whole = version != VERSION_OF_CALLS || recovering.has_calls;
    return *is_whole ? test_images() : DONE;
}

/* Writes each image over its page. */
static bool put_back(void) {
    recovering.passed = recovering.calls;
    for (uint64_t index = 0; index < recovering.images; index++) {
        if (!ask(READ_JOURNAL, recovering.passed.at, IMAGE_BYTES, NULL) || !pass(&recovering.passed, routine.bytes, IMAGE_BYTES))
            return false;
        uint64_t page = number_at(routine.bytes);
        memmove(routine.bytes, routine.bytes + 4, PAGE_BYTES);
        if (!ask(WRITE_FILE, page * PAGE_BYTES, PAGE_BYTES, NULL))
            return false;
    }
    return true;
}

/* Says behind the calls that images were put back. */
static bool let_images_go(void) {
    uint8_t all[DIGEST_BYTES + LEAST_ENTRY];
    struct stands *stands = &recovering.stands;
    memcpy(all, recovering.calls.sum, DIGEST_BYTES);
    put_number(all + DIGEST_BYTES, WERE_PUT_BACK);
    msgq_session_digest(all, DIGEST_BYTES + 4, all + DIGEST_BYTES + 4);
    if (!ask(WRITE_JOURNAL, stands->end, LEAST_ENTRY, all + DIGEST_BYTES))
        return false;
    stands->end += LEAST_ENTRY;
    stands->size = stands->size > stands->end ? stands->size : stands->end;
    memcpy(recovering.calls.sum, all + DIGEST_BYTES + 4, DIGEST_BYTES);
    return ask(SYNC_JOURNAL, 0, 0, NULL);
}

/* Ends a journal without calls. */
static bool end_journal(void) {
    uint8_t head[HEAD_BYTES];
    bool is_long = recovering.journal > HEAD_BYTES + 256 * IMAGE_BYTES;
    head_end(head, head_save(recovering.head));
    if (is_long)
        return ask(CUT_JOURNAL, 0, 0, NULL) && ask(SYNC_JOURNAL, 0, 0, NULL);
    return ask(WRITE_JOURNAL, 0, HEAD_BYTES, head) && ask(SYNC_JOURNAL_BYTES, 0, 0, NULL);
}

static uint32_t recover(void) {
    bool is_whole;
    uint32_t code = look(&is_whole);
    uint64_t count = number_at(recovering.head + COUNT_AT);
    if (code != DONE)
        return code;
    if (is_whole && recovering.has_calls)
        recovering.stands = (struct stands){recovering.journal, recovering.calls.at, head_save(recovering.head)};
    if (!is_whole || (recovering.has_calls && recovering.images == 0 && recovering.file / PAGE_BYTES == count))
        return ask(SYNC_FILE, 0, 0, NULL) && ask(SYNC_JOURNAL, 0, 0, NULL) ? DONE : FAILED;
    bool is_done = ask(SYNC_JOURNAL, 0, 0, NULL) && ask(CUT_FILE, count * PAGE_BYTES, 0, NULL) && put_back()
        && ask(SYNC_FILE, 0, 0, NULL) && (recovering.has_calls ? let_images_go() : end_journal());
    return is_done ? DONE : FAILED;
}

/* Hands on the calls, one addition behind the other. */
static uint32_t hand_on(void) {
    struct passed passed = {.at = HEAD_BYTES};
    memcpy(passed.sum, recovering.head + SUM_AT, DIGEST_BYTES);
    while (passed.at < recovering.stands.end) {
        int64_t count = next_calls(&passed, recovering.stands.end);
        if (count < 0 || (count > 0 && !ask(REMAKE, 4, (uint32_t)count, NULL)))
            return FAILED;
    }
    return DONE;
}

/* Both, one after the other. */
static void run_recovery(void) {
    rest(recover());
    rest(hand_on());
}

/* ---- the exports */

uint32_t msgq_recovery_begin(struct recovery *it, uint64_t journal, uint64_t file) {
    memset(&recovering, 0, sizeof recovering);
    recovering.journal = journal;
    recovering.file = file;
    it->is_begun = true;
    return begin_routine(run_recovery);
}

uint32_t msgq_recovery_next(struct recovery *it, struct order *order, uint8_t *bytes) {
    (void)it;
    return next_of_routine(order, bytes);
}

uint32_t msgq_recovery_told(struct recovery *it, const uint8_t *read, size_t count, bool is_done) {
    (void)it;
    (void)count;
    return told_of_routine(read, is_done);
}

uint32_t msgq_recovery_calls(struct recovery *it) {
    (void)it;
    return DONE;
}

uint32_t msgq_recovery_stands(struct recovery *it, struct stands *stands, uint8_t *sum) {
    (void)it;
    *stands = recovering.stands;
    memcpy(sum, recovering.calls.sum, DIGEST_BYTES);
    return DONE;
}

uint32_t msgq_recovery_end(struct recovery *it) {
    if (!it->is_begun)
        return NO_SESSION;
    end_routine();
    it->is_begun = false;
    return DONE;
}

#endif
