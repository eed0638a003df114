/* TDB: a mapped file that is neither locked nor brought to the disk, with as many chains as it has records at most, and the quicker of its two
 * ways to tell them apart. */
#include "records.h"

#include <fcntl.h>
#include <stdlib.h>
#include <string.h>
#include <tdb.h>

enum { CHAINS = 16411 };

static TDB_DATA data_of(const void *bytes, size_t count) {
    TDB_DATA it = {(unsigned char *)bytes, count};
    return it;
}

struct copy {
    void *room;
    size_t size, count;
};

static int take(TDB_DATA key, TDB_DATA found, void *with) {
    struct copy *it = with;
    (void)key;
    it->count = found.dsize;
    memcpy(it->room, found.dptr, found.dsize < it->size ? found.dsize : it->size);
    return 0;
}

static size_t fetch(void *at, const struct key *key, void *room, size_t size) {
    struct copy it = {room, size, 0};
    int told = tdb_parse_record(at, data_of(key, sizeof *key), take, &it);
    must(told == 0 || tdb_error(at) == TDB_ERR_NOEXIST, "TDB: a fetch");
    return it.count;
}

static void put(void *at, const struct key *key, const void *bytes, size_t count) {
    must(tdb_store(at, data_of(key, sizeof *key), data_of(bytes, count), TDB_REPLACE) == 0, "TDB: a store");
}

static void drop(void *at, const struct key *key) {
    must(tdb_delete(at, data_of(key, sizeof *key)) == 0, "TDB: a delete");
}

static void *open_tdb(const char *path, uint32_t pages) {
    struct records *it = calloc(1, sizeof *it);
    (void)pages;
    must(it != NULL, "TDB: memory");
    *it = (struct records){.fetch = fetch, .put = put, .drop = drop, .caller = this_caller()};
    it->at = tdb_open(path, CHAINS, TDB_NOLOCK | TDB_NOSYNC | TDB_INCOMPATIBLE_HASH, O_RDWR | O_CREAT | O_TRUNC, 0600);
    must(it->at != NULL, "TDB: a file");
    return it;
}

static void close_tdb(void *with) {
    struct records *it = with;
    must(tdb_close(it->at) == 0, "TDB: a close");
    free(it);
}

const struct store STORE_TDB = {"TDB", open_tdb, records_get, records_send, records_receive, close_tdb};
