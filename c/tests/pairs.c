/* Opens a file by c/pair.c, over a stand-in for the session that has its pages in memory, and does what words say:
 *     pairs FILE [WORD ..]
 * `like` takes the pages of the file of that name, as many as FILE has, and saves them; `7=1` makes a call, which fills page 7 with ones;
 * `save` saves, `note` notes, `due` has the next note save, and `state` writes the pages that the session has to the file of that name.
 * Without a word FILE is opened, so that what a save has left is undone; else the calls of its journal are brought in, of five bytes
 * each: a page, and what fills it. Ends with status 0, or with 1 and the number of the error. */
#include "../pair.h"
#include "../reason.h"
#include "heads.h"
#include "recovering.h"
#include "sha256.h"

#include <stdio.h>
#include <stdlib.h>

/* ---- a stand-in for the session: what it has stands in `now`, what was saved last in `saved` */

static uint8_t *now, *saved;
static uint32_t count;

/* The calls that are to be noted. */
static uint8_t made[5000];
static size_t length;
static bool is_due;

void msgq_session_digest(const uint8_t *bytes, size_t many, uint8_t *into) {
    digest(bytes, many, into);
}

uint32_t msgq_session_pages(struct handle *it, uint32_t *pages) {
    (void)it;
    *pages = count;
    return DONE;
}

uint32_t msgq_session_page(struct handle *it, uint32_t page, uint8_t *into) {
    (void)it;
    memcpy(into, now + (size_t)page * PAGE_BYTES, PAGE_BYTES);
    return DONE;
}

/* The next page from one on that has changed; `count` where there is none. */
static uint32_t next_changed(uint32_t from) {
    while (from < count && memcmp(now + (size_t)from * PAGE_BYTES, saved + (size_t)from * PAGE_BYTES, PAGE_BYTES) == 0)
        from++;
    return from;
}

/* ---- its saves: the transfers of docs/FORMAT.md, "The journal", one after another */

enum { READ_HEAD, CUT, SYNC_CUT, READ_ZERO, WRITE_HEAD, READ_PAGE, WRITE_IMAGE, SYNC_IMAGES, WRITE_PAGE, SYNC_PAGES, END, SYNC_END, ENDED };
enum { IMAGE = 4 + PAGE_BYTES + DIGEST_BYTES };

static struct {
    int step;
    uint32_t page;
    struct stands stands;
    bool has_calls;
    uint8_t sum[DIGEST_BYTES], head[HEAD_BYTES], image[DIGEST_BYTES + IMAGE];
} at;

static void go_to(int step, uint32_t from) {
    at.step = step;
    at.page = next_changed(from);
}

uint32_t msgq_session_save_begin(struct handle *it, const struct stands *stands, const uint8_t *sum) {
    (void)it;
    at.stands = *stands;
    at.has_calls = stands->end > 0;
    memcpy(at.sum, sum, DIGEST_BYTES);
    go_to(at.has_calls ? READ_PAGE : stands->size >= HEAD_BYTES ? READ_HEAD : stands->size > 0 ? CUT : READ_ZERO, 0);
    if (!at.has_calls)
        at.stands.number = 1;
    if (at.page == count)
        at.step = at.has_calls ? SYNC_IMAGES : ENDED;
    return DONE;
}

/* Whether the journal is cut where it is ended. */
static bool is_long(void) {
    uint64_t most = at.has_calls ? 8 << 20 : HEAD_BYTES + 256 * IMAGE;
    return (at.stands.size > at.stands.end ? at.stands.size : at.stands.end) > most;
}

/* Spells the image behind what stands before it. */
static void spell_image(void) {
    memcpy(at.image, at.sum, DIGEST_BYTES);
    put_number(at.image + DIGEST_BYTES, at.page);
    digest(at.image, DIGEST_BYTES + 4 + PAGE_BYTES, at.image + DIGEST_BYTES + 4 + PAGE_BYTES);
}

uint32_t msgq_session_save_next(struct handle *it, struct order *order, uint8_t *bytes) {
    uint64_t place = (uint64_t)at.page * PAGE_BYTES;
    (void)it;
    switch (at.step) {
    case READ_HEAD: *order = (struct order){READ_JOURNAL, HEAD_BYTES, 0}; break;
    case CUT: *order = (struct order){CUT_JOURNAL, 0, 0}; break;
    case SYNC_CUT: *order = (struct order){SYNC_JOURNAL, 0, 0}; break;
    case READ_ZERO: *order = (struct order){READ_FILE, PAGE_BYTES, 0}; break;
    case WRITE_HEAD: *order = (struct order){WRITE_JOURNAL, HEAD_BYTES, 0}; break;
    case READ_PAGE: *order = (struct order){READ_FILE, PAGE_BYTES, place}; break;
    case WRITE_IMAGE: *order = (struct order){WRITE_JOURNAL, IMAGE, at.stands.end}; break;
    case SYNC_IMAGES: *order = (struct order){at.stands.end > at.stands.size ? SYNC_JOURNAL : SYNC_JOURNAL_BYTES, 0, 0}; break;
    case WRITE_PAGE: *order = (struct order){WRITE_FILE, PAGE_BYTES, place}; break;
    case SYNC_PAGES: *order = (struct order){SYNC_FILE_BYTES, 0, 0}; break;
    case END: *order = is_long() ? (struct order){CUT_JOURNAL, 0, 0} : (struct order){WRITE_JOURNAL, HEAD_BYTES, 0}; break;
    case SYNC_END: *order = (struct order){is_long() ? SYNC_JOURNAL : SYNC_JOURNAL_BYTES, 0, 0}; break;
    default: *order = (struct order){OVER, 0, 0};
    }
    if (at.step == WRITE_HEAD)
        memcpy(bytes, at.head, HEAD_BYTES);
    if (at.step == WRITE_IMAGE)
        memcpy(bytes, at.image + DIGEST_BYTES, IMAGE);
    if (at.step == WRITE_PAGE)
        memcpy(bytes, now + place, PAGE_BYTES);
    if (at.step == END)
        head_end(bytes, at.stands.number);
    return DONE;
}

/* Takes the number above that of the head that was read; the journal is cut where none stands there. */
static void number(const uint8_t *read) {
    if (is_head(read))
        at.stands.number = head_save(read) + 1;
    at.step = is_head(read) ? READ_ZERO : CUT;
}

/* The journal is synced with its images. */
static void end_images(void) {
    at.stands.size = at.stands.size > at.stands.end ? at.stands.size : at.stands.end;
    go_to(WRITE_PAGE, 0);
}

static void end_save(void) {
    memcpy(saved, now, (size_t)count * PAGE_BYTES);
    length = 0;
    is_due = false;
}

uint32_t msgq_session_save_told(struct handle *it, const uint8_t *read, bool is_done) {
    (void)it;
    if (!is_done)
        return FAILED;
    switch (at.step++) {
    case READ_HEAD: number(read); break;
    case SYNC_CUT: at.stands.size = 0; break;
    case READ_ZERO: head_begin(at.head, VERSION, at.stands.number, count, read + PAGE_BYTES - DIGEST_BYTES); break;
    case WRITE_HEAD:
        memcpy(at.sum, at.head + SUM_AT, DIGEST_BYTES);
        at.stands.end = HEAD_BYTES;
        break;
    case READ_PAGE:
        memcpy(at.image + DIGEST_BYTES + 4, read, PAGE_BYTES);
        spell_image();
        break;
    case WRITE_IMAGE:
        memcpy(at.sum, at.image + DIGEST_BYTES + 4 + PAGE_BYTES, DIGEST_BYTES);
        at.stands.end += IMAGE;
        go_to(READ_PAGE, at.page + 1);
        break;
    case SYNC_IMAGES: end_images(); break;
    case WRITE_PAGE: go_to(WRITE_PAGE, at.page + 1); break;
    case SYNC_END: end_save(); break;
    }
    if (at.page == count && at.step == READ_PAGE)
        at.step = SYNC_IMAGES;
    if (at.page == count && at.step == WRITE_PAGE)
        at.step = SYNC_PAGES;
    return DONE;
}

/* ---- its calls */

uint32_t msgq_session_notes(struct handle *it, uint8_t *into, size_t room, size_t *many) {
    (void)it;
    if (is_due || length > room)
        return DUE;
    memcpy(into, made, length);
    *many = length;
    return DONE;
}

static struct {
    struct stands stands;
    uint8_t sum[DIGEST_BYTES], head[HEAD_BYTES], word[4], behind[DIGEST_BYTES];
    bool is_first;
} noting;

/* Writes the head before calls that are the first: its number is above that of the head that stands there, or the journal is cut. */
static bool begin_calls(void) {
    struct stands *stands = &noting.stands;
    bool is_numbered = stands->size >= HEAD_BYTES && ask(READ_JOURNAL, 0, HEAD_BYTES, NULL) && is_head(routine.bytes);
    stands->number = is_numbered ? head_save(routine.bytes) + 1 : 1;
    if (!is_numbered && stands->size > 0) {
        if (!ask(CUT_JOURNAL, 0, 0, NULL) || !ask(SYNC_JOURNAL, 0, 0, NULL))
            return false;
        stands->size = 0;
    }
    if (!ask(READ_FILE, 0, PAGE_BYTES, NULL))
        return false;
    head_begin(noting.head, VERSION_OF_CALLS, stands->number, count, routine.bytes + PAGE_BYTES - DIGEST_BYTES);
    memcpy(noting.sum, noting.head + SUM_AT, DIGEST_BYTES);
    stands->end = HEAD_BYTES;
    noting.is_first = true;
    return true;
}

/* Adds zeros in steps, where the addition has no room. */
static bool take_zeros(uint64_t end) {
    enum { STEP = 256 << 10, PART = 64 << 10 };
    struct stands *stands = &noting.stands;
    if (end <= stands->size)
        return true;
    for (uint64_t wanted = stands->size + ((end - stands->size) / STEP + 1) * STEP; stands->size < wanted; stands->size += PART)
        if (!ask(WRITE_ZEROS, stands->size, PART, NULL))
            return false;
    return ask(SYNC_JOURNAL, 0, 0, NULL);
}

/* Spells what stands before the calls and behind them. */
static void spell_calls(void) {
    static uint8_t all[DIGEST_BYTES + 4 + sizeof made];
    put_number(noting.word, CALLS_FOLLOW | (uint32_t)length);
    memcpy(all, noting.sum, DIGEST_BYTES);
    memcpy(all + DIGEST_BYTES, noting.word, 4);
    memcpy(all + DIGEST_BYTES + 4, made, length);
    digest(all, DIGEST_BYTES + 4 + length, noting.behind);
}

static bool note(void) {
    if (noting.stands.end == 0 && !begin_calls())
        return false;
    uint64_t end = noting.stands.end + LEAST_ENTRY + length;
    if (!take_zeros(end))
        return false;
    spell_calls();
    uint32_t many = (uint32_t)(LEAST_ENTRY + length);
    if (!(noting.is_first ? ask(WRITE_CALLS, 0, many + HEAD_BYTES, NULL) : ask(WRITE_CALLS, noting.stands.end, many, NULL)))
        return false;
    noting.stands.end = end;
    memcpy(noting.sum, noting.behind, DIGEST_BYTES);
    return ask(SYNC_JOURNAL_BYTES, 0, 0, NULL);
}

static void run_note(void) {
    bool is_done = note();
    if (is_done)
        length = 0;
    rest(is_done ? DONE : FAILED);
}

uint32_t msgq_session_note_begin(struct handle *it, const struct stands *stands, const uint8_t *sum) {
    (void)it;
    memset(&noting, 0, sizeof noting);
    noting.stands = *stands;
    memcpy(noting.sum, sum, DIGEST_BYTES);
    return begin_routine(run_note);
}

uint32_t msgq_session_note_next(struct handle *it, struct order *order, uint8_t *front, uint8_t *back) {
    (void)it;
    uint32_t code = next_of_routine(order, routine.bytes);
    if (order->kind == WRITE_CALLS) {
        memcpy(front, noting.head, HEAD_BYTES);
        memcpy(front + HEAD_BYTES, noting.word, 4);
        memcpy(back, noting.behind, DIGEST_BYTES);
    }
    return code;
}

uint32_t msgq_session_note_told(struct handle *it, const uint8_t *read, bool is_done) {
    (void)it;
    return told_of_routine(read, is_done);
}

uint32_t msgq_session_note_stands(struct handle *it, struct stands *stands, uint8_t *sum) {
    (void)it;
    *stands = noting.stands;
    memcpy(sum, noting.sum, DIGEST_BYTES);
    end_routine();
    return DONE;
}

/* ---- and are made again */

/* Makes a call: fills a page, and seals it. */
static bool make(const uint8_t *call) {
    uint8_t all[PAGE_BYTES - DIGEST_BYTES + 4];
    uint32_t page = (uint32_t)call[0] << 24 | (uint32_t)call[1] << 16 | (uint32_t)call[2] << 8 | call[3];
    if (page >= count)
        return false;
    memcpy(all, call, 4);
    memset(all + 4, call[4], sizeof all - 4);
    memcpy(now + (size_t)page * PAGE_BYTES, all + 4, sizeof all - 4);
    digest(all, sizeof all, now + (size_t)page * PAGE_BYTES + sizeof all - 4);
    return true;
}

uint32_t msgq_session_remake(struct handle *it, const uint8_t *calls, size_t many) {
    (void)it;
    for (size_t at = 0; at < many; at += 5)
        if (many - at < 5 || !make(calls + at))
            return FOREIGN;
    return DONE;
}

/* ---- */

static void must(int wrong, const char *what) {
    if (wrong != 0) {
        fprintf(stderr, "pairs: %s: %d\n", what, wrong);
        exit(1);
    }
}

/* The pages of a file, of which there are so many. */
static uint8_t *pages_of(const char *path) {
    uint8_t *bytes = malloc((size_t)count * PAGE_BYTES);
    FILE *file = fopen(path, "r");
    must(bytes == NULL || file == NULL || fread(bytes, PAGE_BYTES, count, file) != count, path);
    fclose(file);
    return bytes;
}

/* Makes the call that a word spells. */
static void call(const char *word) {
    unsigned page, byte;
    must(sscanf(word, "%u=%u", &page, &byte) != 2 || length + 5 > sizeof made, word);
    uint8_t spelled[5] = {(uint8_t)(page >> 24), (uint8_t)(page >> 16), (uint8_t)(page >> 8), (uint8_t)page, (uint8_t)byte};
    must(!make(spelled), word);
    memcpy(made + length, spelled, sizeof spelled);
    length += sizeof spelled;
}

static void write_state(const char *path) {
    FILE *file = fopen(path, "w");
    must(file == NULL || fwrite(now, PAGE_BYTES, count, file) != count || fclose(file) != 0, path);
}

static void act(struct pair *pair, const char *word) {
    struct handle session = {0};
    if (strcmp(word, "save") == 0) {
        must(pair_save(pair, &session), word);
    } else if (strcmp(word, "note") == 0) {
        must(pair_note(pair, &session), word);
    } else if (strcmp(word, "due") == 0) {
        is_due = true;
    } else if (strcmp(word, "state") == 0) {
        write_state(word);
    } else if (strcmp(word, "like") == 0) {
        free(now);
        now = pages_of(word);
        must(pair_save(pair, &session), word);
    } else {
        call(word);
    }
}

int main(int argc, char **argv) {
    struct pair pair;
    struct handle session = {0};
    size_t bytes;
    must(argc < 2, "usage: pairs FILE [WORD ..]");
    must(pair_open(&pair, argv[1]), "open");
    if (argc > 2) {
        must(pair_read(&pair, &saved, &bytes), "read");
        count = (uint32_t)(bytes / PAGE_BYTES);
        now = malloc(bytes + 1);
        must(now == NULL, "memory");
        memcpy(now, saved, bytes);
        must(pair_bring_in(&pair, &session), "bring in");
    }
    for (int word = 2; word < argc; word++)
        act(&pair, argv[word]);
    free(now);
    free(saved);
    pair_close(&pair);
    return 0;
}
