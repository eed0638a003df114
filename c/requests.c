/* Each request of a client by its fields. */
#include "requests.h"

static const struct waiting SOON = {.waits = false};

/* Makes a request whose answer has no fields but its value. */
static int ask_value(struct server *server, const struct request *asked, uint32_t *value) {
    struct answer told = {0};
    int done = server_ask(server, asked, &told);
    if (done == 0 && value != NULL)
        *value = told.value;
    return done;
}

/* Makes a request whose answer has so many bytes of fields. */
static int ask_fields(struct server *server, const struct request *asked, uint8_t *fields, size_t count) {
    const struct iovec room = {fields, count};
    struct answer told = {.room = &room, .parts = 1, .least = count};
    return server_ask(server, asked, &told);
}

int request_get(struct server *server, uint32_t key, uint8_t flags, uint16_t mode, uint32_t *id) {
    uint8_t fields[4];
    const struct iovec part = {fields, sizeof fields};
    put_number(fields, key, 4);
    const struct request asked = {.operation = GET, .flags = flags, .mode = mode, .fields = &part, .parts = 1, .how = SOON};
    return ask_value(server, &asked, id);
}

int request_send(struct server *server, uint32_t id, uint8_t flags, const struct iovec *message, size_t parts,
                 const struct waiting *how, uint64_t *serial) {
    uint8_t field[8];
    const struct request asked = {
        .operation = SEND, .flags = flags, .id = id, .fields = message, .parts = parts, .how = *how};
    int done = ask_fields(server, &asked, field, sizeof field);
    if (done == 0)
        *serial = number_at(field, sizeof field);
    return done;
}

int request_send_all(struct server *server, uint32_t id, struct outgoing *all, size_t count) {
    enum { SERIAL = 8 };
    struct request asked[MOST_AT_ONCE] = {{0}};
    struct answer told[MOST_AT_ONCE] = {{0}};
    struct iovec room[MOST_AT_ONCE];
    uint8_t fields[MOST_AT_ONCE][SERIAL];
    int done[MOST_AT_ONCE];
    for (size_t n = 0; n < count; n++) {
        room[n] = (struct iovec){fields[n], SERIAL};
        asked[n] = (struct request){
            .operation = SEND, .flags = NO_WAIT, .id = id, .fields = all[n].message, .parts = 2, .how = SOON};
        told[n] = (struct answer){.room = &room[n], .parts = 1, .least = SERIAL};
    }
    int wrong = server_ask_all(server, asked, told, done, count);
    for (size_t n = 0; wrong == 0 && n < count; n++) {
        all[n].done = done[n];
        all[n].serial = done[n] == 0 ? number_at(fields[n], SERIAL) : 0;
    }
    return wrong;
}

/* Takes a message, by a request with so many bytes of fields. */
static int take(struct server *server, const struct request *asked, const struct selection *it, struct taken *told) {
    enum { BEFORE = 16, TYPE = 8 };
    uint8_t before[BEFORE];
    struct iovec room[MOST_PARTS] = {{before, BEFORE}};
    for (size_t n = 0; n < it->parts; n++)
        room[1 + n] = it->message[n];
    struct answer answer = {.room = room, .parts = 1 + it->parts, .least = BEFORE + TYPE};
    int done = server_ask(server, asked, &answer);
    if (done == 0)
        *told = (struct taken){
            .serial = number_at(before, 8),
            .sender = (uint32_t)number_at(before + 8, 4),
            .holding = asked->operation == RESERVE ? answer.value : 0,
            .length = answer.length - BEFORE - TYPE,
        };
    return done;
}

int request_receive(struct server *server, const struct selection *it, const struct waiting *how, struct taken *told) {
    uint8_t fields[12];
    const struct iovec part = {fields, sizeof fields};
    put_number(fields, (uint64_t)it->type, 8);
    put_number(fields + 8, it->size, 4);
    const struct request asked = {
        .operation = RECEIVE, .flags = it->flags, .id = it->id, .fields = &part, .parts = 1, .how = *how};
    return take(server, &asked, it, told);
}

int request_reserve(struct server *server, const struct selection *it, const struct waiting *how, struct taken *told) {
    uint8_t fields[8];
    const struct iovec part = {fields, sizeof fields};
    put_number(fields, (uint64_t)it->type, 8);
    const struct request asked = {
        .operation = RESERVE, .flags = it->flags, .id = it->id, .fields = &part, .parts = 1, .how = *how};
    return take(server, &asked, it, told);
}

int request_stat(struct server *server, uint32_t id, struct known *told) {
    enum { TIMES = 3, WORDS = 11, BYTES = TIMES * 8 + WORDS * 4 + 4 };
    uint8_t fields[BYTES];
    const struct request asked = {.operation = STAT, .id = id, .how = SOON};
    int done = ask_fields(server, &asked, fields, sizeof fields);
    if (done != 0)
        return done;
    uint64_t *times[TIMES] = {&told->stime, &told->rtime, &told->ctime};
    uint32_t *words[WORDS] = {&told->id,    &told->key,   &told->qnum, &told->cbytes, &told->qbytes, &told->lspid,
                              &told->lrpid, &told->uid,   &told->gid,  &told->cuid,   &told->cgid};
    for (int n = 0; n < TIMES; n++)
        *times[n] = number_at(fields + 8 * n, 8);
    for (int n = 0; n < WORDS; n++)
        *words[n] = (uint32_t)number_at(fields + 8 * TIMES + 4 * n, 4);
    told->mode = (uint16_t)number_at(fields + BYTES - 4, 2);
    told->has_key = number_at(fields + BYTES - 2, 2) != 0;
    return 0;
}

int request_set(struct server *server, uint32_t id, const struct setting *it) {
    uint8_t fields[12];
    const struct iovec part = {fields, sizeof fields};
    put_number(fields, it->qbytes, 4);
    put_number(fields + 4, it->uid, 4);
    put_number(fields + 8, it->gid, 4);
    const struct request asked = {
        .operation = SET, .flags = it->flags, .mode = it->mode, .id = id, .fields = &part, .parts = 1, .how = SOON};
    return ask_value(server, &asked, NULL);
}

int request_next(struct server *server, uint32_t after, uint32_t *id) {
    return ask_value(server, &(struct request){.operation = NEXT, .id = after, .how = SOON}, id);
}

int request_nth(struct server *server, uint32_t place, uint32_t *id) {
    return ask_value(server, &(struct request){.operation = NTH, .id = place, .how = SOON}, id);
}

int request_plain(struct server *server, enum operation operation, uint32_t id) {
    return ask_value(server, &(struct request){.operation = (uint8_t)operation, .id = id, .how = SOON}, NULL);
}

int request_info(struct server *server, struct census *told) {
    uint8_t fields[40];
    int done = ask_fields(server, &(struct request){.operation = INFO, .how = SOON}, fields, sizeof fields);
    if (done == 0)
        *told = (struct census){
            .answered = number_at(fields, 8),
            .saves = number_at(fields + 8, 8),
            .tries = number_at(fields + 16, 8),
            .queues = (uint32_t)number_at(fields + 24, 4),
            .waiting = (uint32_t)number_at(fields + 28, 4),
            .pages = (uint32_t)number_at(fields + 32, 4),
            .highest = (uint32_t)number_at(fields + 36, 4),
        };
    return done;
}
