/* SQLite: a database in memory without locks, with statements that are compiled once, and a transaction for each call. Its pages are small,
 * since each that a call changes is kept meanwhile as it was. */
#include "head.h"
#include "store.h"

#include <errno.h>
#include <sqlite3.h>
#include <stdlib.h>
#include <string.h>

/* Rows of messages stand by their serials, and by_type leads to them: it is named below, where SQLite would walk over messages else. */
static const char TABLES[] =
    "pragma page_size = 1024;"
    "create table queues(id integer primary key, stime, rtime, ctime, next_serial, qnum, cbytes, qbytes, lspid, lrpid, uid, gid, cuid, cgid, mode);"
    "create table messages(queue, serial, mtype, sender, body blob, primary key(queue, serial)) without rowid;"
    "create index by_type on messages(queue, mtype, serial);";

enum statement { BEGIN, COMMIT, ROLLBACK, MAKE, LOOK, SENT, RECEIVED, PUT, FIRST, OF_TYPE, LOWEST, DROP, STATEMENTS };

static const char *const TEXTS[STATEMENTS] = {
    [BEGIN] = "begin",
    [COMMIT] = "commit",
    [ROLLBACK] = "rollback",
    [MAKE] = "insert into queues values(null, 0, 0, ?, 1, 0, 0, ?, 0, 0, ?, ?, ?, ?, ?)",
    [LOOK] = "select qnum, cbytes, qbytes, next_serial, uid, gid, cuid, cgid, mode from queues where id = ?",
    [SENT] = "update queues set qnum = ?2, cbytes = ?3, lspid = ?4, stime = ?5, next_serial = ?6 where id = ?1",
    [RECEIVED] = "update queues set qnum = ?2, cbytes = ?3, lrpid = ?4, rtime = ?5 where id = ?1",
    [PUT] = "insert into messages values(?, ?, ?, ?, ?)",
    [FIRST] = "select mtype, serial, body from messages where queue = ?1 order by serial limit 1",
    [OF_TYPE] = "select mtype, serial, body from messages indexed by by_type where queue = ?1 and mtype = ?2 order by serial limit 1",
    [LOWEST] = "select mtype, serial, body from messages indexed by by_type where queue = ?1 and mtype <= ?2 order by mtype, serial limit 1",
    [DROP] = "delete from messages where queue = ? and serial = ?",
};

struct base {
    sqlite3 *at;
    sqlite3_stmt *made[STATEMENTS];
    struct caller caller;
};

/* ---- statements */

/* Gives a statement its numbers, from its first parameter on. */
static sqlite3_stmt *with_numbers(struct base *it, enum statement which, const int64_t *numbers, int count) {
    for (int at = 0; at < count; at++)
        must(sqlite3_bind_int64(it->made[which], at + 1, numbers[at]) == SQLITE_OK, "SQLite: a number");
    return it->made[which];
}

/* Runs a statement that has no row. */
static void run(struct base *it, enum statement which, const int64_t *numbers, int count) {
    sqlite3_stmt *made = with_numbers(it, which, numbers, count);
    must(sqlite3_step(made) == SQLITE_DONE && sqlite3_reset(made) == SQLITE_OK, TEXTS[which]);
}

/* Has the first row of a statement, which is to be reset. */
static bool has_row(sqlite3_stmt *made) {
    int code = sqlite3_step(made);
    must(code == SQLITE_ROW || code == SQLITE_DONE, "SQLite: a select");
    return code == SQLITE_ROW;
}

static uint32_t number_at(sqlite3_stmt *made, int column) {
    return (uint32_t)sqlite3_column_int64(made, column);
}

/* ---- calls */

static bool load(struct base *it, uint32_t id, struct head *head) {
    sqlite3_stmt *made = with_numbers(it, LOOK, (int64_t[]){id}, 1);
    bool is_there = has_row(made);
    if (is_there)
        *head = (struct head){.qnum = number_at(made, 0), .cbytes = number_at(made, 1), .qbytes = number_at(made, 2),
                              .next_serial = (uint64_t)sqlite3_column_int64(made, 3), .uid = number_at(made, 4), .gid = number_at(made, 5),
                              .cuid = number_at(made, 6), .cgid = number_at(made, 7), .mode = number_at(made, 8)};
    must(sqlite3_reset(made) == SQLITE_OK, "SQLite: a reset");
    return is_there;
}

/* Ends a call, which changes nothing where it is refused. */
static int end(struct base *it, int wrong) {
    run(it, wrong == 0 ? COMMIT : ROLLBACK, NULL, 0);
    return wrong;
}

static uint32_t get(void *with) {
    struct base *it = with;
    struct head head = new_head(&it->caller);
    run(it, MAKE, (int64_t[]){(int64_t)head.ctime, head.qbytes, head.uid, head.gid, head.cuid, head.cgid, head.mode}, 7);
    return (uint32_t)sqlite3_last_insert_rowid(it->at);
}

static int send(void *with, uint32_t id, int64_t type, const void *body, size_t length, uint64_t *serial) {
    struct base *it = with;
    struct head head;
    run(it, BEGIN, NULL, 0);
    int wrong = load(it, id, &head) ? refuse_send(&head, &it->caller, type, length) : EINVAL;
    if (wrong != 0)
        return end(it, wrong);
    *serial = head.next_serial;
    must(sqlite3_bind_blob(it->made[PUT], 5, body, (int)length, SQLITE_STATIC) == SQLITE_OK, "SQLite: a body");
    run(it, PUT, (int64_t[]){id, (int64_t)*serial, type, it->caller.pid}, 4);
    note_send(&head, &it->caller, length);
    run(it, SENT, (int64_t[]){id, head.qnum, head.cbytes, head.lspid, (int64_t)head.stime, (int64_t)head.next_serial}, 6);
    return end(it, 0);
}

/* Reads the message that a type selects into a room. */
static int read_message(struct base *it, uint32_t id, int64_t type, void *room, size_t size, struct answer *answer) {
    enum statement which = type == 0 ? FIRST : type > 0 ? OF_TYPE : LOWEST;
    int64_t bound = type == INT64_MIN ? INT64_MAX : type < 0 ? -type : type;
    sqlite3_stmt *made = with_numbers(it, which, (int64_t[]){id, bound}, type == 0 ? 1 : 2);
    int wrong = has_row(made) ? 0 : ENOMSG;
    if (wrong == 0) {
        const void *body = sqlite3_column_blob(made, 2);
        *answer = (struct answer){sqlite3_column_int64(made, 0), (uint64_t)sqlite3_column_int64(made, 1), (size_t)sqlite3_column_bytes(made, 2)};
        if (answer->length > size)
            wrong = E2BIG;
        else if (answer->length > 0)
            memcpy(room, body, answer->length);
    }
    must(sqlite3_reset(made) == SQLITE_OK, "SQLite: a reset");
    return wrong;
}

static int receive(void *with, uint32_t id, int64_t type, void *room, size_t size, struct answer *answer) {
    struct base *it = with;
    struct head head;
    run(it, BEGIN, NULL, 0);
    int wrong = load(it, id, &head) ? refuse_receive(&head, &it->caller) : EINVAL;
    if (wrong == 0)
        wrong = read_message(it, id, type, room, size, answer);
    if (wrong != 0)
        return end(it, wrong);
    run(it, DROP, (int64_t[]){id, (int64_t)answer->serial}, 2);
    note_receive(&head, &it->caller, answer->length);
    run(it, RECEIVED, (int64_t[]){id, head.qnum, head.cbytes, head.lrpid, (int64_t)head.rtime}, 5);
    return end(it, 0);
}

/* ---- databases */

static void *open_sqlite(const char *path, uint32_t pages) {
    static bool is_set;
    struct base *it = calloc(1, sizeof *it);
    (void)path;
    (void)pages;
    must(it != NULL, "SQLite: memory");
    if (!is_set)
        must(sqlite3_config(SQLITE_CONFIG_SINGLETHREAD) == SQLITE_OK && sqlite3_config(SQLITE_CONFIG_MEMSTATUS, 0) == SQLITE_OK, "SQLite: a setting");
    is_set = true;
    it->caller = this_caller();
    must(sqlite3_open(":memory:", &it->at) == SQLITE_OK && sqlite3_exec(it->at, TABLES, NULL, NULL, NULL) == SQLITE_OK, "SQLite: a database");
    for (int which = 0; which < STATEMENTS; which++)
        must(sqlite3_prepare_v3(it->at, TEXTS[which], -1, SQLITE_PREPARE_PERSISTENT, &it->made[which], NULL) == SQLITE_OK, TEXTS[which]);
    return it;
}

static void close_sqlite(void *with) {
    struct base *it = with;
    for (int which = 0; which < STATEMENTS; which++)
        must(sqlite3_finalize(it->made[which]) == SQLITE_OK, TEXTS[which]);
    must(sqlite3_close(it->at) == SQLITE_OK, "SQLite: a close");
    free(it);
}

const struct store STORE_SQLITE = {"SQLite", open_sqlite, get, send, receive, close_sqlite};
