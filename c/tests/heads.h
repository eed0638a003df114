/* The heads of journals in plain C, typed from docs/FORMAT.md ("The journal"), for the stand-ins of the session. */
#ifndef MSGQ_TESTS_HEADS_H
#define MSGQ_TESTS_HEADS_H

#include "../session.h"

#include <string.h>

enum { HEAD_BYTES = 80, COUNT_AT = 12, SUM_AT = 48 };

/* Versions that are written: behind a head of the second calls stand, and before the images. */
enum { VERSION = 2, VERSION_OF_CALLS };

static inline void put_number(uint8_t *at, uint32_t number) {
    for (int i = 0; i < 4; i++)
        at[i] = (uint8_t)(number >> (24 - 8 * i));
}

static inline uint32_t number_at(const uint8_t *at) {
    return (uint32_t)at[0] << 24 | (uint32_t)at[1] << 16 | (uint32_t)at[2] << 8 | at[3];
}

static inline bool has_digest(const uint8_t *bytes, size_t count, const uint8_t *digest) {
    uint8_t sum[DIGEST_BYTES];
    msgq_session_digest(bytes, count, sum);
    return memcmp(sum, digest, DIGEST_BYTES) == 0;
}

/* Whether a head stands there, of a save that is under way or was ended. */
static inline bool is_head(const uint8_t *head) {
    uint32_t version = number_at(head + 8);
    bool is_under_way = memcmp(head, "msgqundo", 8) == 0 && version >= 1 && version <= VERSION_OF_CALLS;
    bool is_ended = memcmp(head, "msgqdone", 8) == 0 && version == VERSION;
    return has_digest(head, SUM_AT, head + SUM_AT) && (is_under_way || is_ended);
}

/* The number of the save whose head that is; in version 1 it has none. */
static inline uint64_t head_save(const uint8_t *head) {
    return number_at(head + 8) == 1 ? 0 : (uint64_t)number_at(head + 16) << 32 | number_at(head + 20);
}

/* Spells a head whose count and seal stand. */
static inline void spell_head(uint8_t *head, const char *magic, uint32_t version, uint64_t save) {
    memcpy(head, magic, 8);
    put_number(head + 8, version);
    put_number(head + 16, (uint32_t)(save >> 32));
    put_number(head + 20, (uint32_t)save);
    msgq_session_digest(head, SUM_AT, head + SUM_AT);
}

/* The head of a save of a file of so many pages, whose page 0 ends with this digest. */
static inline void head_begin(uint8_t *head, uint32_t version, uint64_t save, uint32_t pages, const uint8_t *digest) {
    put_number(head + COUNT_AT, pages);
    memcpy(head + 24, digest, 24);
    spell_head(head, "msgqundo", version, save);
}

/* What takes its place where the save is ended. */
static inline void head_end(uint8_t *head, uint64_t save) {
    memset(head, 0, HEAD_BYTES);
    spell_head(head, "msgqdone", VERSION, save);
}

#endif
