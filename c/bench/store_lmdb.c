/* LMDB: one tree over a mapped file that is not brought to the disk, and a transaction for each call. Its keys are in order: by the types of a
 * queue its messages, and by their serials where each stands. */
#include "head.h"
#include "store.h"

#include <endian.h>
#include <errno.h>
#include <lmdb.h>
#include <stdlib.h>
#include <string.h>

static const size_t ROOM = (size_t)1 << 28;

/* (in front of the queue, so that each kind has its part of the tree) */
enum kind { COUNTER, QUEUE, PLACE, MESSAGE };

/* Its parts are big-endian: so keys are in the order of their numbers. Of a place the number is a serial, of a message type and serial. */
struct key {
    uint32_t kind, queue;
    uint64_t number, serial;
};

struct message {
    uint32_t sender;
    char body[MOST_BODY];
};

struct tree {
    MDB_env *env;
    MDB_dbi at;
    struct caller caller;
};

static void hold(int code, const char *what) {
    must(code == 0, what);
}

static struct key key_of(enum kind kind, uint32_t queue, uint64_t number, uint64_t serial) {
    struct key it = {htobe32(kind), htobe32(queue), htobe64(number), htobe64(serial)};
    return it;
}

static MDB_val bytes_of(const void *bytes, size_t count) {
    MDB_val it = {count, (void *)bytes};
    return it;
}

/* ---- records */

static bool fetch(struct tree *it, MDB_txn *call, const struct key *key, MDB_val *value) {
    MDB_val name = bytes_of(key, sizeof *key);
    int code = mdb_get(call, it->at, &name, value);
    must(code == 0 || code == MDB_NOTFOUND, "LMDB: a get");
    return code == 0;
}

static void put(struct tree *it, MDB_txn *call, const struct key *key, MDB_val value) {
    MDB_val name = bytes_of(key, sizeof *key);
    hold(mdb_put(call, it->at, &name, &value, 0), "LMDB: a put");
}

static void drop(struct tree *it, MDB_txn *call, const struct key *key) {
    MDB_val name = bytes_of(key, sizeof *key);
    hold(mdb_del(call, it->at, &name, NULL), "LMDB: a delete");
}

/* A cursor on the first record from a key on, which is read into it; NULL where there is none. It is closed with its transaction. */
static MDB_cursor *seek(struct tree *it, MDB_txn *call, struct key *key, MDB_val *value) {
    MDB_cursor *cursor;
    MDB_val name = bytes_of(key, sizeof *key);
    hold(mdb_cursor_open(call, it->at, &cursor), "LMDB: a cursor");
    int code = mdb_cursor_get(cursor, &name, value, MDB_SET_RANGE);
    must(code == 0 || code == MDB_NOTFOUND, "LMDB: a seek");
    if (code != 0)
        return NULL;
    memcpy(key, name.mv_data, sizeof *key);
    return cursor;
}

static bool load(struct tree *it, MDB_txn *call, uint32_t id, struct head *head) {
    struct key key = key_of(QUEUE, id, 0, 0);
    MDB_val value;
    if (!fetch(it, call, &key, &value))
        return false;
    memcpy(head, value.mv_data, sizeof *head);
    return true;
}

static void save(struct tree *it, MDB_txn *call, uint32_t id, const struct head *head) {
    struct key key = key_of(QUEUE, id, 0, 0);
    put(it, call, &key, bytes_of(head, sizeof *head));
}

/* ---- calls */

static MDB_txn *begin(struct tree *it) {
    MDB_txn *call;
    hold(mdb_txn_begin(it->env, NULL, 0, &call), "LMDB: a transaction");
    return call;
}

/* Ends a call, which changes nothing where it is refused. */
static int end(MDB_txn *call, int wrong) {
    if (wrong != 0)
        mdb_txn_abort(call);
    else
        hold(mdb_txn_commit(call), "LMDB: a commit");
    return wrong;
}

static uint32_t get(void *with) {
    struct tree *it = with;
    struct head head = new_head(&it->caller);
    struct key key = key_of(COUNTER, 0, 0, 0);
    MDB_txn *call = begin(it);
    MDB_val value;
    uint32_t id = 0;
    if (fetch(it, call, &key, &value))
        memcpy(&id, value.mv_data, sizeof id);
    id++;
    put(it, call, &key, bytes_of(&id, sizeof id));
    save(it, call, id, &head);
    (void)end(call, 0);
    return id;
}

static int send(void *with, uint32_t id, int64_t type, const void *body, size_t length, uint64_t *serial) {
    struct tree *it = with;
    MDB_txn *call = begin(it);
    struct head head;
    int wrong = load(it, call, id, &head) ? refuse_send(&head, &it->caller, type, length) : EINVAL;
    if (wrong != 0)
        return end(call, wrong);
    struct key place = key_of(PLACE, id, head.next_serial, 0), key = key_of(MESSAGE, id, (uint64_t)type, head.next_serial);
    struct message message = {.sender = it->caller.pid};
    memcpy(message.body, body, length);
    put(it, call, &place, bytes_of(&type, sizeof type));
    put(it, call, &key, bytes_of(&message, offsetof(struct message, body) + length));
    *serial = head.next_serial;
    note_send(&head, &it->caller, length);
    save(it, call, id, &head);
    return end(call, 0);
}

static bool is_of(const struct key *key, enum kind kind, uint32_t id) {
    return be32toh(key->kind) == kind && be32toh(key->queue) == id;
}

/* The key and the bytes of the message that a type selects, and a cursor on its place (type 0) or on itself; NULL for none. */
static MDB_cursor *select_message(struct tree *it, MDB_txn *call, uint32_t id, int64_t type, struct key *key, MDB_val *value) {
    *key = type == 0 ? key_of(PLACE, id, 0, 0) : key_of(MESSAGE, id, type > 0 ? (uint64_t)type : 0, 0);
    MDB_cursor *found = seek(it, call, key, value);
    if (found == NULL || !is_of(key, type == 0 ? PLACE : MESSAGE, id))
        return NULL;
    if (type == 0) {
        int64_t here;
        memcpy(&here, value->mv_data, sizeof here);
        *key = key_of(MESSAGE, id, (uint64_t)here, be64toh(key->number));
        return fetch(it, call, key, value) ? found : NULL;
    }
    int64_t here = (int64_t)be64toh(key->number);
    return (type > 0 ? here == type : here + type <= 0) ? found : NULL;
}

static int receive(void *with, uint32_t id, int64_t type, void *room, size_t size, struct answer *answer) {
    struct tree *it = with;
    MDB_txn *call = begin(it);
    struct head head;
    struct key key;
    MDB_val value;
    int wrong = load(it, call, id, &head) ? refuse_receive(&head, &it->caller) : EINVAL;
    if (wrong != 0)
        return end(call, wrong);
    MDB_cursor *found = select_message(it, call, id, type, &key, &value);
    if (found == NULL)
        return end(call, ENOMSG);
    *answer = (struct answer){(int64_t)be64toh(key.number), be64toh(key.serial), value.mv_size - offsetof(struct message, body)};
    if (answer->length > size)
        return end(call, E2BIG);
    memcpy(room, (char *)value.mv_data + offsetof(struct message, body), answer->length);
    struct key place = key_of(PLACE, id, answer->serial, 0);
    hold(mdb_cursor_del(found, 0), "LMDB: a delete");
    drop(it, call, type == 0 ? &key : &place);
    note_receive(&head, &it->caller, answer->length);
    save(it, call, id, &head);
    return end(call, 0);
}

/* ---- files */

static void *open_lmdb(const char *path, uint32_t pages) {
    struct tree *it = calloc(1, sizeof *it);
    (void)pages;
    must(it != NULL, "LMDB: memory");
    it->caller = this_caller();
    hold(mdb_env_create(&it->env), "LMDB: memory");
    hold(mdb_env_set_mapsize(it->env, ROOM), "LMDB: a size");
    hold(mdb_env_open(it->env, path, MDB_NOSUBDIR | MDB_NOLOCK | MDB_NOSYNC | MDB_WRITEMAP, 0600), "LMDB: a file");
    MDB_txn *call = begin(it);
    hold(mdb_dbi_open(call, NULL, 0, &it->at), "LMDB: a tree");
    (void)end(call, 0);
    return it;
}

static void close_lmdb(void *with) {
    struct tree *it = with;
    mdb_env_close(it->env);
    free(it);
}

const struct store STORE_LMDB = {"LMDB", open_lmdb, get, send, receive, close_lmdb};
