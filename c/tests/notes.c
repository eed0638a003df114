/* What msgq_note leaves, by docs/FORMAT.md, and when it saves. Run with the path of a new file. */
#include "../msgq.h"
#include "sha256.h"

#include <errno.h>
#include <stdio.h>
#include <stdlib.h>
#include <string.h>
#include <unistd.h>

enum { PAGE = 4096, PAGES = 258, HEAD = 80, SUM = 32, SEND = 60 };

static int passed, failed;
static char path[200], journal[220];
static msgq *queues;
static uint32_t id;

static void is(long long found, long long expected, const char *what) {
    if (found == expected) {
        passed++;
        return;
    }
    failed++;
    fprintf(stderr, "%s: %lld, not %lld\n", what, found, expected);
}

static uint8_t file[PAGES * PAGE], left[1000];

static size_t read_all(const char *name, uint8_t *into, size_t most) {
    FILE *from = fopen(name, "r");
    if (from == NULL)
        exit(2);
    size_t count = fread(into, 1, most, from);
    fclose(from);
    return count;
}

/* Whether the file is as it was saved last. */
static int is_as_saved(void) {
    static uint8_t now[PAGES * PAGE];
    return read_all(path, now, sizeof now) == sizeof now && memcmp(now, file, sizeof now) == 0;
}

static long length_of(const char *name) {
    FILE *from = fopen(name, "r");
    if (from == NULL || fseek(from, 0, SEEK_END) != 0)
        exit(2);
    long length = ftell(from);
    fclose(from);
    return length;
}

static int journal_is(const char *magic) {
    uint8_t head[8];
    return read_all(journal, head, sizeof head) == sizeof head && memcmp(head, magic, sizeof head) == 0;
}

static void send(const char *body, size_t length) {
    is(msgq_send(queues, id, 7, body, length, MSGQ_NOWAIT, NULL), 0, "send");
}

static void receive(void) {
    is(msgq_receive(queues, id, 0, NULL, 0, MSGQ_NOERROR, NULL, NULL), 0, "receive");
}

/* Saves, and keeps the file as it is then. */
static void save(void) {
    is(msgq_save(queues), 0, "save");
    is((long long)read_all(path, file, sizeof file), sizeof file, "the file");
}

/* Lets the file go as it was noted, and opens it again: so many messages are there. */
static void reopen(unsigned messages) {
    struct msgq_info info;
    is(msgq_abandon(queues), 0, "abandon");
    is(msgq_open(path, &queues), 0, "open");
    is(msgq_stat(queues, id, &info), 0, "stat");
    is(info.qnum, messages, "messages");
}

/* ---- what it leaves */

static void number(uint8_t *at, uint32_t value) {
    for (int n = 0; n < 4; n++)
        at[n] = (uint8_t)(value >> (24 - 8 * n));
}

/* Whether the journal has, from a place on, an addition of the Send of so many bytes that was told a serial, behind this digest; and which is
 * the next one. The moment is that of the call. */
static int has_send(size_t *at, uint8_t *sum, const char *body, uint32_t length, uint8_t serial) {
    uint8_t all[SUM + 4 + SEND + 64] = {0}, *call = all + SUM + 4, *record = call + 8;
    uint32_t count = SEND + length;
    const uint32_t caller[3] = {(uint32_t)getpid(), (uint32_t)geteuid(), (uint32_t)getegid()};
    memcpy(all, sum, SUM);
    number(all + SUM, 0x80000000u | count);
    memcpy(call, left + *at + 4, 8);
    record[0] = (uint8_t)(40 + length);
    for (int n = 0; n < 12; n++)
        record[12 + n] = (uint8_t)(caller[n / 4] >> (n % 4 * 8));
    record[28] = 2;
    record[29] = 1;
    record[32] = 1;
    record[36] = 7;
    memcpy(record + 44, body, length);
    call[count - 8] = serial;
    digest(all, SUM + 4 + count, sum);
    int is = memcmp(left + *at, all + SUM, 4 + count) == 0 && memcmp(left + *at + 4 + count, sum, SUM) == 0;
    *at += 4 + count + SUM;
    return is;
}

static void leaves(void) {
    uint8_t head[HEAD] = "msgqundo\0\0\0\3\0\0\1\2", sum[SUM];
    size_t at = HEAD;
    save();
    send("ab", 2);
    is(msgq_note(queues), 0, "note");
    send("cde", 3);
    is(msgq_note(queues), 0, "a second note");
    is(msgq_note(queues), 0, "a note of nothing");
    is(is_as_saved(), 1, "the file is as it was saved");
    is((long long)read_all(journal, left, sizeof left), sizeof left, "the journal");
    /* (the second save, behind that of the queue) */
    head[23] = 2;
    memcpy(head + 24, file + PAGE - SUM, 24);
    digest(head, 48, head + 48);
    is(memcmp(left, head, HEAD), 0, "the head");
    memcpy(sum, head + 48, SUM);
    is(has_send(&at, sum, "ab", 2, 1), 1, "the first call");
    is(has_send(&at, sum, "cde", 3, 2), 1, "the second");
    send("lost", 4);
    reopen(2);
    is(is_as_saved(), 0, "an opening saves them");
    is(journal_is("msgqdone"), 1, "and ends the journal");
    /* A save ends what was noted, and so does a close. */
    send("x", 1);
    is(msgq_note(queues), 0, "note");
    is(journal_is("msgqundo"), 1, "a note");
    save();
    is(journal_is("msgqdone"), 1, "a save behind it");
    receive();
    is(msgq_note(queues), 0, "note");
    is(msgq_close(queues), 0, "close");
    is(journal_is("msgqdone"), 1, "a close behind it");
    is(msgq_open(path, &queues), 0, "open");
    reopen(2);
}

/* ---- when it saves */

static void is_a_save(const char *what, int keeps_journal) {
    is(msgq_note(queues), 0, what);
    is(journal_is("msgqdone"), keeps_journal, what);
    is(is_as_saved(), 0, what);
    save();
}

static void is_a_note(const char *what) {
    is(msgq_note(queues), 0, what);
    is(journal_is("msgqundo"), 1, what);
    is(is_as_saved(), 1, what);
}

static const char long_body[1000];

static void send_and_receive(int times) {
    for (int n = 0; n < times; n++) {
        int wrong = msgq_send(queues, id, 1, long_body, sizeof long_body, MSGQ_NOWAIT, NULL);
        if (wrong == 0)
            wrong = msgq_receive(queues, id, 0, NULL, 0, MSGQ_NOERROR, NULL, NULL);
        if (wrong != 0)
            is(wrong, 0, "send and receive");
    }
}

/* A call was told that there is no room: a file of 258 pages has some for three long messages. */
static void saves_without_room(void) {
    for (int n = 0; n < 3; n++)
        send(long_body, sizeof long_body);
    is_a_note("messages for which there is room");
    is(msgq_send(queues, id, 1, long_body, sizeof long_body, MSGQ_NOWAIT, NULL), ENOSPC, "one for which there is none");
    is(msgq_last_fault(), 50, "its fault");
    is_a_note("there is nothing to note");
    receive();
    is_a_save("a note behind it", 1);
    receive();
    is_a_note("a note behind that");
    receive();
    save();
}

static void saves_what_is_long(void) {
    /* 1,124 bytes for each two: more than a mebibyte, and more than eight in the journal, which is cut then */
    send_and_receive(940);
    is_a_save("many calls", 1);
    long before = length_of(journal);
    for (int n = 0; n < 9; n++) {
        send_and_receive(930);
        is_a_note("many calls, in parts");
        is((length_of(journal) - before) % (256 << 10), 0, "the journal gets zeros first, in steps");
    }
    send_and_receive(1);
    is_a_save("a long journal", 0);
}

int main(int argc, char **argv) {
    if (argc != 2)
        return 2;
    snprintf(path, sizeof path, "%s", argv[1]);
    snprintf(journal, sizeof journal, "%s.journal", path);
    is(msgq_create(path, PAGES), 0, "create");
    is(msgq_open(path, &queues), 0, "open");
    is(msgq_get(queues, 7, MSGQ_CREATE | 0600, &id), 0, "get");
    leaves();
    receive();
    receive();
    save();
    saves_without_room();
    saves_what_is_long();
    is(msgq_abandon(queues), 0, "abandon");
    printf("%d passed, %d failed\n", passed, failed);
    return failed > 0;
}
