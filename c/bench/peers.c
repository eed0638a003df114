/* The protocols of docs/PROTOCOL.md, of redis (RESP) and of beanstalkd. */
#include "peers.h"
#include "../relay/numbers.h"

#include <arpa/inet.h>
#include <errno.h>
#include <netinet/in.h>
#include <netinet/tcp.h>
#include <stdio.h>
#include <stdlib.h>
#include <string.h>
#include <sys/socket.h>
#include <sys/un.h>
#include <unistd.h>

void fail(const char *what) {
    fprintf(stderr, "server: %s: %s\n", what, strerror(errno));
    exit(1);
}

static void refuse(const char *what, const char *said) {
    fprintf(stderr, "server: %s: it was answered %.60s\n", what, said);
    exit(1);
}

/* ---- bytes */

void dial(struct line *it, const char *address) {
    struct sockaddr_un path = {.sun_family = AF_UNIX};
    struct sockaddr_in port = {.sin_family = AF_INET, .sin_addr.s_addr = htonl(INADDR_LOOPBACK)};
    int is_port = *address != '/', yes = 1;
    it->begin = it->end = 0;
    if (strlen(address) >= sizeof path.sun_path)
        fail(address);
    strcpy(path.sun_path, address);
    port.sin_port = htons((uint16_t)atoi(address));
    it->file = socket(is_port ? AF_INET : AF_UNIX, SOCK_STREAM, 0);
    if (it->file < 0
        || connect(it->file, is_port ? (struct sockaddr *)&port : (struct sockaddr *)&path, is_port ? sizeof port : sizeof path) != 0
        || (is_port && setsockopt(it->file, IPPROTO_TCP, TCP_NODELAY, &yes, sizeof yes) != 0))
        fail(address);
}

static void put(struct line *it, const void *bytes, size_t count) {
    if (write(it->file, bytes, count) != (ssize_t)count)
        fail("write");
}

/* Reads until so many bytes are there, and tells where they begin. */
static char *have(struct line *it, size_t count) {
    if (it->begin + count > ROOM) {
        memmove(it->room, it->room + it->begin, it->end - it->begin);
        it->end -= it->begin;
        it->begin = 0;
    }
    while (it->end - it->begin < count) {
        ssize_t more = read(it->file, it->room + it->end, ROOM - it->end);
        if (more <= 0)
            fail("read");
        it->end += (size_t)more;
    }
    return it->room + it->begin;
}

static char *take_bytes(struct line *it, size_t count) {
    char *at = have(it, count);
    it->begin += count;
    if (it->begin == it->end)
        it->begin = it->end = 0;
    return at;
}

/* The next line, which ends with a zero in the place of its end. */
static char *take_line(struct line *it) {
    size_t count = 1;
    while (have(it, count)[count - 1] != '\n')
        count++;
    char *at = take_bytes(it, count);
    at[count - 1] = '\0';
    return at;
}

/* ---- msgq */

enum { GET = 1, SEND = 2, RECEIVE = 3, REMOVE = 6 };

/* Takes a frame, from its number on. */
static uint8_t *take_frame(struct line *it) {
    size_t length = get_u32((uint8_t *)have(it, 4));
    return (uint8_t *)take_bytes(it, 4 + length) + 4;
}

uint32_t ask(struct line *it, uint8_t operation, uint32_t id, const void *fields, size_t count) {
    uint8_t frame[16 + 8 + MOST_BODY] = {0};
    put_u32(frame, (uint32_t)(12 + count));
    frame[8] = operation;
    frame[10] = operation == GET ? 0600 & 0xff : 0;
    frame[11] = operation == GET ? 0600 >> 8 : 0;
    put_u32(frame + 12, id);
    if (count > 0)
        memcpy(frame + 16, fields, count);
    put(it, frame, 16 + count);
    const uint8_t *answer = take_frame(it);
    if (get_u32(answer + 4) != 0) {
        fprintf(stderr, "server: operation %u was answered %u\n", operation, get_u32(answer + 4));
        exit(1);
    }
    return get_u32(answer + 8);
}

static void begin_msgq(struct line *it, int place) {
    static const uint8_t no_key[4];
    (void)place;
    (void)take_frame(it);
    it->queue = ask(it, GET, 0, no_key, sizeof no_key);
}

static void send_msgq(struct line *it, const char *body, size_t count) {
    uint8_t fields[8 + MOST_BODY] = {1};
    memcpy(fields + 8, body, count);
    (void)ask(it, SEND, it->queue, fields, 8 + count);
}

static void take_msgq(struct line *it) {
    uint8_t fields[12] = {0};
    put_u32(fields + 8, MOST_BODY);
    (void)ask(it, RECEIVE, it->queue, fields, sizeof fields);
}

static void end_msgq(struct line *it) {
    (void)ask(it, REMOVE, it->queue, NULL, 0);
}

/* ---- redis */

static void begin_redis(struct line *it, int place) {
    (void)snprintf(it->name, sizeof it->name, "q%02d", place);
}

static void send_redis(struct line *it, const char *body, size_t count) {
    char words[64 + MOST_BODY];
    int head = snprintf(words, 64, "*3\r\n$5\r\nLPUSH\r\n$3\r\n%s\r\n$%zu\r\n", it->name, count);
    memcpy(words + head, body, count);
    memcpy(words + head + count, "\r\n", 2);
    put(it, words, (size_t)head + count + 2);
    const char *said = take_line(it);
    if (*said != ':')
        refuse("LPUSH", said);
}

static void take_redis(struct line *it) {
    char words[64];
    int count = snprintf(words, sizeof words, "*2\r\n$4\r\nRPOP\r\n$3\r\n%s\r\n", it->name);
    put(it, words, (size_t)count);
    const char *said = take_line(it);
    if (*said != '$' || said[1] == '-')
        refuse("RPOP", said);
    (void)take_bytes(it, (size_t)atoi(said + 1) + 2);
}

static void end_redis(struct line *it) {
    (void)it;
}

/* ---- beanstalkd */

static void begin_beanstalkd(struct line *it, int place) {
    char words[64];
    int count = snprintf(words, sizeof words, "use q%02d\r\nwatch q%02d\r\nignore default\r\n", place, place);
    put(it, words, (size_t)count);
    for (int line = 0; line < 3; line++)
        (void)take_line(it);
}

static void send_beanstalkd(struct line *it, const char *body, size_t count) {
    char words[64 + MOST_BODY];
    int head = snprintf(words, 64, "put 0 0 60 %zu\r\n", count);
    memcpy(words + head, body, count);
    memcpy(words + head + count, "\r\n", 2);
    put(it, words, (size_t)head + count + 2);
    const char *said = take_line(it);
    if (strncmp(said, "INSERTED", 8) != 0)
        refuse("put", said);
}

static void take_beanstalkd(struct line *it) {
    unsigned long long id;
    size_t bytes;
    char words[64];
    put(it, "reserve\r\n", 9);
    const char *said = take_line(it);
    if (sscanf(said, "RESERVED %llu %zu", &id, &bytes) != 2)
        refuse("reserve", said);
    (void)take_bytes(it, bytes + 2);
    int count = snprintf(words, sizeof words, "delete %llu\r\n", id);
    put(it, words, (size_t)count);
    said = take_line(it);
    if (strncmp(said, "DELETED", 7) != 0)
        refuse("delete", said);
}

const struct peer PEERS[] = {
    {"msgq", begin_msgq, send_msgq, take_msgq, end_msgq},
    {"redis", begin_redis, send_redis, take_redis, end_redis},
    {"beanstalkd", begin_beanstalkd, send_beanstalkd, take_beanstalkd, end_redis},
    {NULL, NULL, NULL, NULL, NULL},
};
