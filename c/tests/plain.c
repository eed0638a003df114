/* A program that asks for no more than its standard has: it must compile without a warning, with a limit of time. Run with the path
 * of a new file. */
#include <msgq.h>
#include <errno.h>
#include <stdio.h>

int main(int argc, char **argv) {
    msgq *queues;
    uint32_t id;
    char body[MSGQ_MAX_BODY];
    struct msgq_message got;
    if (argc != 2 || msgq_create(argv[1], 300) != 0)
        return 2;
    if (msgq_open_wait(argv[1], msgq_within(10), &queues) != 0 || msgq_get(queues, 7, MSGQ_CREATE | 0600, &id) != 0)
        return 3;
    if (msgq_receive(queues, id, 0, body, sizeof body, 0, msgq_within(10), &got) != ETIMEDOUT)
        return 4;
    if (msgq_within(-1) != NULL || msgq_send(queues, id, 1, "hello", 5, 0, msgq_within(-1)) != 0)
        return 5;
    if (msgq_receive(queues, id, 0, body, sizeof body, 0, msgq_within(0), &got) != 0 || got.length != 5)
        return 6;
    if (msgq_close(queues) != 0) {
        puts(msgq_reason());
        return 7;
    }
    return 0;
}
