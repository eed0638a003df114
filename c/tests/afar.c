/* What `msgq top`, `stat --metrics` and `list --follow` ask a server by themselves: of one that answers in pieces, says what is none, ends, or
 * is not there, and where there is no memory. Run with the path of a new file. */
#include "../front/census.h"
#include "../relay/counts.h"
#include "../relay/numbers.h"

#include <errno.h>
#include <fcntl.h>
#include <signal.h>
#include <stdio.h>
#include <stdlib.h>
#include <string.h>
#include <sys/socket.h>
#include <sys/un.h>
#include <sys/wait.h>
#include <unistd.h>

static int passed, failed;

static void is(long long found, long long expected, const char *what) {
    if (found == expected) {
        passed++;
        return;
    }
    failed++;
    fprintf(stderr, "%s: %lld, not %lld\n", what, found, expected);
}

/* ---- memory that is not there: the next time but so many */

static int left = -1;

void *__real_malloc(size_t size);
void *__real_realloc(void *at, size_t size);
void *__wrap_malloc(size_t size);
void *__wrap_realloc(void *at, size_t size);

static bool lacks(void) {
    return left >= 0 && left-- == 0;
}

void *__wrap_malloc(size_t size) {
    return lacks() ? NULL : __real_malloc(size);
}

void *__wrap_realloc(void *at, size_t size) {
    return lacks() ? NULL : __real_realloc(at, size);
}

/* ---- a server, which says what it is given to say */

static uint8_t script[16384];
static size_t script_count;

static void say(const void *bytes, size_t count) {
    memcpy(script + script_count, bytes, count);
    script_count += count;
}

static void say_answer(uint32_t code, uint32_t value, const void *fields, size_t count) {
    uint8_t head[16] = {0};
    put_u32(head, (uint32_t)(12 + count));
    put_u32(head + 4, 1);
    put_u32(head + 8, code);
    put_u32(head + 12, value);
    say(head, sizeof head);
    say(fields, count);
}

static char file_path[4000], socket_path[sizeof((struct sockaddr_un *)NULL)->sun_path];
static int listener;

/* Greets, and says the script in pieces of so many bytes, of 0 nothing. It then reads on, so that its end is no reset. */
static pid_t serve(size_t piece) {
    uint8_t greeting[36] = {32}, came[4096];
    put_u32(greeting + 12, 1);
    put_u32(greeting + 28, 1024);
    pid_t child = fork();
    if (child != 0)
        return child;
    (void)signal(SIGPIPE, SIG_IGN);
    int file = accept(listener, NULL, NULL);
    if (write(file, greeting, sizeof greeting) != (ssize_t)sizeof greeting)
        _exit(0);
    for (size_t at = 0; piece > 0 && at < script_count; at += piece) {
        size_t count = script_count - at < piece ? script_count - at : piece;
        if (write(file, script + at, count) != (ssize_t)count)
            _exit(0);
    }
    if (piece > 0)
        (void)shutdown(file, SHUT_WR);
    while (read(file, came, sizeof came) > 0)
        ;
    _exit(0);
}

static void reap(pid_t child) {
    int status = -1;
    (void)waitpid(child, &status, 0);
    is(status, 0, "the server's end");
}

/* Asks what the script answers, and tells the error. */
static int asks(size_t piece, struct word *told) {
    struct afar it;
    pid_t child = serve(piece);
    is(afar_begin(&it, file_path), true, "a file that is served");
    int wrong = afar_ask(&it, ASK_INFO, 0, told);
    afar_end(&it);
    reap(child);
    script_count = 0;
    return wrong;
}

static void each_answer(void) {
    struct word told;
    uint8_t long_one[6000] = {7};
    say_answer(3, 9, "", 0);
    is(asks(1, &told) == 0 && told.code == 3 && told.value == 9 && told.number == 1, true, "an answer byte by byte");
    say_answer(0, 1, long_one, sizeof long_one);
    is(asks(1000, &told) == 0 && told.count == sizeof long_one, true, "one that is longer than its first room");
    say("\x0b\0\0\0\1\0\0\0\0\0\0\0\0\0\0\0", 16);
    is(asks(16, &told), EPROTO, "a length of 11");
    say("\0\0\x10\0\1\0\0\0\0\0\0\0\0\0\0\0", 16);
    is(asks(16, &told), EPROTO, "a length over the most");
    say("\x0c\0\0\0\1\0\0\0", 8);
    is(asks(8, &told), ECONNRESET, "half an answer");
    is(asks(1, &told), ECONNRESET, "none");
    is(asks(0, &told), ETIMEDOUT, "a server that does not answer");
    say_answer(0, 0, "", 0);
    left = 0;
    is(asks(16, &told), ENOMEM, "no memory for an answer");
    left = -1;
}

static void each_place(void) {
    struct afar it;
    struct word told;
    char folder[8] = "/tmp";
    is(afar_begin(&it, "/no/file"), false, "no file");
    afar_end(&it);
    is(afar_begin(&it, folder), false, "a folder without a server");
    afar_end(&it);
    pid_t child = serve(1);
    is(afar_begin(&it, socket_path), true, "a socket");
    is(it.is_of_file, false, "which is no file's");
    is(afar_has_more(&it), false, "nothing is there");
    is(afar_hear(&it, &told), ECONNRESET, "its end");
    afar_end(&it);
    reap(child);
}

/* ---- a census */

static void say_count(uint8_t *at, uint32_t kind, uint32_t label, uint64_t value) {
    put_u32(at, kind);
    put_u32(at + 4, label);
    put_u64(at + 8, value);
}

/* Two queues, of which the caller may not read one, and what a server counts. */
static void say_census(size_t info) {
    uint8_t counts[5 * COUNT_BYTES], fields[72] = {0};
    say_count(counts, COUNTED_SENT, 5, 77);
    say_count(counts + COUNT_BYTES, COUNTED_WAITS, 5, 2);
    say_count(counts + 2 * COUNT_BYTES, COUNTED_GROUPS, 250, 3);
    say_count(counts + 3 * COUNT_BYTES, COUNTED_GROUPS, UINT32_MAX, 4);
    say_count(counts + 4 * COUNT_BYTES, 999, 1, 1);
    say_answer(0, 0, counts, sizeof counts);
    put_u64(fields + 8, 12);
    put_u32(fields + 32, 600);
    say_answer(0, 0, fields, info);
    memset(fields, 0, sizeof fields);
    say_answer(0, 4, "", 0);
    say_answer(10, 0, "", 0);
    say_answer(0, 5, "", 0);
    put_u32(fields + 24, 5);
    put_u32(fields + 28, 4000000000);
    put_u32(fields + 32, 3);
    fields[70] = 1;
    say_answer(0, 0, fields, sizeof fields);
    say_answer(6, 0, "", 0);
}

/* Reads what the script tells; what it prints of it, where that is right. */
static int counts(char *text, size_t room) {
    static struct table table;
    struct afar it;
    struct census census;
    pid_t child = serve(100);
    int wrong = afar_begin(&it, file_path) ? census_begin(&census, &it) : ENOENT;
    if (wrong == 0)
        wrong = census_queues(&it, &census, &table);
    if (wrong == 0) {
        FILE *to = fmemopen(text, room, "w");
        census_waits(&census, &table);
        census_print_queues(&table, QUEUE_MESSAGES, to);
        census_print(&census, to);
        fclose(to);
    }
    census_end(&census);
    afar_end(&it);
    reap(child);
    script_count = 0;
    return wrong;
}

static void each_census(void) {
    static const char *const lines[] = {
        "\nmsgq_queue_messages{id=\"5\",queue=\"4000000000\"} 3\n", "\nmsgq_queue_sent_total{id=\"5\",queue=\"4000000000\"} 77\n",
        "\nmsgq_queue_waiting_calls{id=\"5\",queue=\"4000000000\"} 2\n", "\nmsgq_server_saves_total 12\n",
        "\nmsgq_server_file_pages 600\n", "\nmsgq_server_group_seconds_bucket{le=\"0.00025\"} 3\n",
        "\nmsgq_server_group_seconds_bucket{le=\"+Inf\"} 4\n", "\nmsgq_server_refusals_total{errno=\"EAGAIN\"} 0\n",
    };
    static char text[32768];
    say_census(40);
    is(counts(text, sizeof text), 0, "a census");
    for (size_t at = 0; at < sizeof lines / sizeof *lines; at++)
        is(strstr(text, lines[at]) != NULL, true, lines[at]);
    is(strstr(text, "id=\"4\"") == NULL, true, "a queue that may not be read is left out");
    say_answer(60, 0, "", 0);
    is(counts(text, sizeof text), EPROTO, "counts that are refused");
    say_census(39);
    is(counts(text, sizeof text), EPROTO, "a short answer");
    say_census(40);
    left = 1;
    is(counts(text, sizeof text), ENOMEM, "no memory for counts");
    left = -1;
    for (size_t cut = 1; cut < 250; cut += 7) {
        say_census(40);
        script_count -= cut;
        is(counts(text, sizeof text), ECONNRESET, "a server that ends in between");
    }
}

int main(int argc, char **argv) {
    struct sockaddr_un name = {.sun_family = AF_UNIX};
    if (argc != 2)
        return 2;
    close(open(argv[1], O_RDWR | O_CREAT | O_CLOEXEC, 0600));
    if (realpath(argv[1], file_path) == NULL || strlen(file_path) > 90)
        return 2;
    snprintf(socket_path, sizeof socket_path, "%.90s.socket", file_path);
    strcpy(name.sun_path, socket_path);
    listener = socket(AF_UNIX, SOCK_STREAM | SOCK_CLOEXEC, 0);
    if (bind(listener, (struct sockaddr *)&name, sizeof name) != 0 || listen(listener, 5) != 0)
        return 2;
    each_answer();
    each_place();
    each_census();
    unlink(socket_path);
    unlink(file_path);
    printf("%d passed, %d failed\n", passed, failed);
    return failed > 0;
}
