/* GDBM: a file that is not brought to the disk, with room in memory for all of its buckets, which are small, since a call writes whole ones. */
#include "records.h"

#include <gdbm.h>
#include <stdlib.h>
#include <string.h>

enum { BLOCK = 1024 };

static datum datum_of(const void *bytes, size_t count) {
    datum it = {(char *)bytes, (int)count};
    return it;
}

static size_t fetch(void *at, const struct key *key, void *room, size_t size) {
    datum found = gdbm_fetch(at, datum_of(key, sizeof *key));
    if (found.dptr == NULL) {
        must(gdbm_errno == GDBM_ITEM_NOT_FOUND, "GDBM: a fetch");
        return 0;
    }
    size_t count = (size_t)found.dsize;
    memcpy(room, found.dptr, count < size ? count : size);
    free(found.dptr);
    return count;
}

static void put(void *at, const struct key *key, const void *bytes, size_t count) {
    must(gdbm_store(at, datum_of(key, sizeof *key), datum_of(bytes, count), GDBM_REPLACE) == 0, "GDBM: a store");
}

static void drop(void *at, const struct key *key) {
    must(gdbm_delete(at, datum_of(key, sizeof *key)) == 0, "GDBM: a delete");
}

static void *open_gdbm(const char *path, uint32_t pages) {
    size_t cache = pages;
    struct records *it = calloc(1, sizeof *it);
    must(it != NULL, "GDBM: memory");
    *it = (struct records){.fetch = fetch, .put = put, .drop = drop, .caller = this_caller()};
    it->at = gdbm_open(path, BLOCK, GDBM_NEWDB | GDBM_NOLOCK, 0600, NULL);
    must(it->at != NULL && gdbm_setopt(it->at, GDBM_SETCACHESIZE, &cache, sizeof cache) == 0, "GDBM: a file");
    return it;
}

static void close_gdbm(void *with) {
    struct records *it = with;
    must(gdbm_close(it->at) == 0, "GDBM: a close");
    free(it);
}

const struct store STORE_GDBM = {"GDBM", open_gdbm, records_get, records_send, records_receive, close_gdbm};
