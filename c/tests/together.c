/* What msgq_send_all makes of a server that has several requests at once: in which order it asks, and what is told where one is refused,
 * the server ends, or says what is none. What is expected stands in msgq.h and line.h. Run with the path of a new socket. */
#include "../msgq.h"
#include "scripted.h"

enum { SOME = 3, MANY = 70 };

static struct msgq_outgoing all[MANY];
static msgq *queues;

/* ---- the server's side */

/* Answers a Stat: so many messages, and bytes, of 100. */
static void knows(int fd, unsigned messages, unsigned bytes) {
    uint8_t fields[72] = {0};
    put_number(fields + 24 + 4 * 2, messages, 4);
    put_number(fields + 24 + 4 * 3, bytes, 4);
    put_number(fields + 24 + 4 * 4, 100, 4);
    tell(fd, hear(fd, 4).number, 0, 0, fields, sizeof fields);
}

/* Hears a Send that does not wait, whose body is this letter. */
static uint32_t hears(int fd, char letter) {
    struct heard it = hear(fd, 2);
    must(it.flags == 1 && it.id == 3 && it.length == 12 + 9 && it.fields[8] == letter, "the message");
    return it.number;
}

static void tells(int fd, uint32_t number, uint32_t code, uint8_t serial) {
    const uint8_t field[8] = {serial};
    tell(fd, number, code, 0, field, code == 0 ? sizeof field : 0);
}

/* Hears three before it answers any. */
static int three(uint32_t *numbers) {
    int fd = client();
    knows(fd, 0, 97);
    for (int n = 0; n < SOME; n++)
        numbers[n] = hears(fd, (char)('a' + n));
    return fd;
}

static void backwards(void) {
    uint32_t numbers[SOME];
    int fd = three(numbers);
    for (int n = SOME; n-- > 0;)
        tells(fd, numbers[n], 0, (uint8_t)(n + 1));
    /* One has nobody beside it, and is not asked about. */
    tells(fd, hears(fd, 'a'), 0, 4);
    gone(fd);
}

static void refuses_one(void) {
    uint32_t numbers[SOME];
    int fd = three(numbers);
    tells(fd, numbers[0], 0, 4);
    tells(fd, numbers[1], 2, 0);
    tells(fd, numbers[2], 0, 5);
    knows(fd, 9, 100);
    gone(fd);
}

/* One by one where not all have room, in bytes or in number, or nothing is known of the queue. */
static void has_no_room(void) {
    int fd = client();
    knows(fd, 0, 98);
    tells(fd, hears(fd, 'a'), 0, 1);
    tells(fd, hears(fd, 'b'), 2, 0);
    knows(fd, 1024, 98);
    knows(fd, 1022, 1);
    for (int n = 0; n < SOME; n++)
        tells(fd, hears(fd, (char)('a' + n)), 0, (uint8_t)(n + 2));
    tell(fd, hear(fd, 4).number, 10, 0, NULL, 0);
    tells(fd, hears(fd, 'a'), 10, 0);
    gone(fd);
}

static void ends_between(void) {
    uint32_t numbers[SOME];
    int fd = three(numbers);
    tells(fd, numbers[0], 0, 1);
    tells(fd, numbers[1], 201, 0);
    tells(fd, numbers[2], 201, 0);
    close(fd);
    fd = client();
    tells(fd, hears(fd, 'b'), 0, 2);
    tells(fd, hears(fd, 'c'), 0, 3);
    gone(fd);
}

static void is_lost_between(void) {
    uint32_t numbers[SOME];
    int fd = three(numbers);
    tells(fd, numbers[0], 0, 1);
    close(fd);
    fd = client();
    (void)hear(fd, 4);
    close(fd);
    fd = client();
    for (int n = 0; n < SOME; n++)
        tells(fd, hears(fd, (char)('a' + n)), 0, (uint8_t)(n + 1));
    gone(fd);
}

static const struct {
    const char *what;
    uint32_t number, code; /* the number behind the first */
    size_t count;
} WRONG[] = {
    {"an answer to none", 3, 0, 8},      {"an answer to one before", UINT32_MAX, 0, 8}, {"a second answer", 0, 0, 8},
    {"fields that are too short", 1, 0, 7}, {"fields that are too long", 1, 0, 9},         {"a wrong frame", 1, 203, 0},
    {"what nobody has cancelled", 1, 200, 0}, {"more than there is room for", 1, 7, 1020},
};
enum { WRONGS = sizeof WRONG / sizeof *WRONG };

static void tells_what_is_none(void) {
    static const uint8_t fields[1020] = {2};
    uint32_t numbers[SOME];
    int fd;
    for (int n = 0; n < WRONGS; n++) {
        fd = three(numbers);
        tells(fd, numbers[0], 0, 1);
        tell(fd, numbers[0] + WRONG[n].number, WRONG[n].code, 0, fields, WRONG[n].count);
        gone(fd);
    }
    fd = three(numbers);
    give(fd, "\10\0\0\0\1\0\0\0\0\0\0\0\0\0\0\0", 16);
    gone(fd);
}

static void hears_many(void) {
    int fd = client();
    for (int at = 0; at < MANY; at += 32) {
        uint32_t numbers[32];
        int count = MANY - at < 32 ? MANY - at : 32;
        uint8_t frames[32 * 24];
        size_t length = 0;
        knows(fd, (unsigned)at, (unsigned)at);
        for (int n = 0; n < count; n++)
            numbers[n] = hears(fd, 'x');
        for (int n = 0; n < count; n++) {
            const uint8_t field[8] = {(uint8_t)(at + n + 1)};
            length += answer(frames + length, numbers[n], 0, 0, field, 8);
        }
        /* Answers in pieces. */
        for (size_t done = 0, more; done < length; done += more) {
            more = length - done < 37 ? length - done : 37;
            give(fd, frames + done, more);
            usleep(500);
        }
    }
    gone(fd);
}

/* ---- the client's side */

static void connects(void (*act)(void)) {
    serves(act);
    if (msgq_connect(path, &queues) != 0)
        exit(2);
}

static void leaves(const char *what) {
    is(msgq_close(queues), 0, "close");
    has_ended(what);
}

static int puts_all(size_t count) {
    for (size_t n = 0; n < MANY; n++)
        all[n] = (struct msgq_outgoing){5, count == MANY ? "x" : "a\0b\0c" + 2 * (n % SOME), 1, 77};
    return msgq_send_all(queues, 3, all, count);
}

static void serials(uint64_t first, uint64_t second, uint64_t third, const char *what) {
    is((long long)all[0].serial, (long long)first, what);
    is((long long)all[1].serial, (long long)second, what);
    is((long long)all[2].serial, (long long)third, what);
}

static bool says(const char *words) {
    return strstr(msgq_reason(), words) != NULL;
}

static void at_once(void) {
    connects(backwards);
    is(puts_all(SOME), 0, "three at once");
    serials(1, 2, 3, "each has its own answer");
    is((long long)msgq_last_serial(), 3, "the last one");
    is(puts_all(1), 0, "one");
    is((long long)all[0].serial, 4, "one");
    leaves("three at once");
    connects(hears_many);
    is(puts_all(MANY), 0, "seventy");
    for (int n = 0; n < MANY; n++)
        is((long long)all[n].serial, n + 1, "one of seventy");
    leaves("seventy");
}

static void refused(void) {
    connects(refuses_one);
    is(puts_all(SOME), EAGAIN, "one is refused");
    serials(4, 0, 5, "one is refused");
    is(says("queue @3: EAGAIN: there is no room on it: its messages have 100 of 100 bytes, and this one 1"), true, "why");
    leaves("one is refused");
    connects(has_no_room);
    is(puts_all(SOME), EAGAIN, "not all have room");
    serials(1, 0, 0, "none behind the first that is refused");
    is(says("it has 1024 messages"), true, "why");
    is(puts_all(SOME), 0, "too many messages, by their number");
    serials(2, 3, 4, "too many messages, by their number");
    is(puts_all(SOME), EACCES, "a queue that may not be read");
    serials(0, 0, 0, "nor be written to");
    leaves("no room");
}

static void servers_end(void) {
    connects(ends_between);
    is(puts_all(SOME), 0, "what was not made is made by the next server");
    serials(1, 2, 3, "what was not made is made by the next server");
    leaves("ends between");
    connects(is_lost_between);
    is(puts_all(SOME), ECONNRESET, "a server is lost");
    serials(1, 0, 0, "a server is lost");
    is(puts_all(SOME), 0, "a server goes before it tells what the queue is like");
    serials(1, 2, 3, "a server goes before it tells what the queue is like");
    leaves("is lost between");
    connects(tells_what_is_none);
    for (int n = 0; n < WRONGS; n++) {
        is(puts_all(SOME), EPROTO, WRONG[n].what);
        serials(1, 0, 0, WRONG[n].what);
    }
    is(puts_all(SOME), EPROTO, "an answer without a head");
    leaves("what is none");
    is(msgq_connect(path, &queues), ECONNREFUSED, "nobody serves");
}

static void greets(void) {
    int fd = client();
    gone(fd);
}

/* A file that is not there, whose socket is. */
static void without_file(const char *name) {
    char none[2000];
    snprintf(none, sizeof none, "%s.none", name);
    snprintf(path, sizeof path, "%s.socket", none);
    serves(greets);
    is(msgq_attach(none, &queues), 0, "attach");
    is(msgq_is_served(queues), 1, "it is served");
    leaves("without a file");
    unlink(path);
    is(msgq_attach(none, &queues), ENOENT, "neither is there");
    is(msgq_attach("", &queues), ENOENT, "no name");
}

int main(int argc, char **argv) {
    if (argc != 2)
        return 2;
    without_file(argv[1]);
    snprintf(path, sizeof path, "%s", argv[1]);
    at_once();
    refused();
    servers_end();
    unlink(path);
    printf("%d passed, %d failed\n", passed, failed);
    return failed > 0;
}
