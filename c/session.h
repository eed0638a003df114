/* The functions of crates/msgq_c. Their contracts are proved; who calls them sees to it that a handle is zeros or as the last
 * call left it, and in one call at a time. */
#ifndef MSGQ_SESSION_H
#define MSGQ_SESSION_H

#include <stdbool.h>
#include <stddef.h>
#include <stdint.h>

#define PAGE_BYTES 4096
#define DIGEST_BYTES 32
#define ORDER_BYTES 4132 /* as many bytes are transferred at most, but for calls */
#define FRONT_BYTES 84   /* before calls that are noted: a head and a word */

enum {
    DONE = 0,
    NO_ROOM = 50,
    NO_MEMORY = 60,
    FAILED = 62,
    WAITS = 100,
    NO_SESSION = 101,
    IN_USE = 102,
    NO_PAGE = 103,
    FOREIGN = 104,
    DUE = 105,
    OTHER_VERSION = 106,
    OTHER_FILE = 107,
};

struct handle {
    void *at;
    bool is_open;
};

/* The same of a file that is recovered. */
struct recovery {
    void *at;
    bool is_begun;
};

struct owner {
    uint32_t pid, uid, gid;
};

struct get_call {
    uint32_t key;
    bool has_key, create, excl;
    uint16_t mode;
    uint64_t moment;
};

struct send_call {
    int64_t mtype;
    uint64_t moment;
    uint32_t id;
    bool nowait;
};

struct receive_call {
    int64_t mtype;
    uint64_t moment;
    uint32_t id;
    bool nowait, noerror;
};

struct set_call {
    uint64_t moment;
    uint32_t id, qbytes, uid, gid;
    uint16_t mode;
    bool has_uid, has_gid, has_mode;
};

struct got {
    uint64_t serial;
    int64_t mtype;
    size_t length;
    uint32_t sender;
};

struct info {
    uint64_t stime, rtime, ctime;
    uint32_t id, key, qnum, cbytes, qbytes, lspid, lrpid, uid, gid, cuid, cgid;
    uint16_t mode;
    bool has_key;
};

/* What a transfer is. */
enum {
    OVER, /* none: all is done */
    READ_JOURNAL,
    READ_FILE,
    WRITE_JOURNAL,
    WRITE_FILE,
    CUT_JOURNAL,
    SYNC_JOURNAL,
    SYNC_JOURNAL_BYTES,
    SYNC_FILE_BYTES,
    SYNC_FILE,
    CUT_FILE,
    REMAKE, /* none: calls are made again, which stand in what was read last */
    WRITE_ZEROS,
    WRITE_CALLS, /* calls that are noted, and what stands before them and behind */
};

/* Which one it is, with how many bytes, from which place on. */
struct order {
    uint32_t kind, length;
    uint64_t at;
};

/* What is known of a journal: its size, and where the calls end that stand in it, with the number of its save; 0 where there are none. */
struct stands {
    uint64_t size, end, number;
};

uint32_t msgq_session_open(struct handle *, const struct owner *, const uint8_t *bytes, size_t count);
uint32_t msgq_session_create(struct handle *, const struct owner *, uint32_t pages);
uint32_t msgq_session_get(struct handle *, const struct get_call *, uint32_t *id);
uint32_t msgq_session_send(struct handle *, const struct send_call *, const uint8_t *body, size_t length, uint64_t *serial);
uint32_t msgq_session_receive(struct handle *, const struct receive_call *, uint8_t *room, size_t size, struct got *);
uint32_t msgq_session_stat(struct handle *, uint32_t id, struct info *);
uint32_t msgq_session_set(struct handle *, const struct set_call *);
uint32_t msgq_session_remove(struct handle *, uint32_t id);
uint32_t msgq_session_stop(struct handle *);
uint32_t msgq_session_pages(struct handle *, uint32_t *pages);
uint32_t msgq_session_page(struct handle *, uint32_t page, uint8_t *into);
uint32_t msgq_session_save_begin(struct handle *, const struct stands *, const uint8_t *sum);
uint32_t msgq_session_save_next(struct handle *, struct order *, uint8_t *bytes);
uint32_t msgq_session_save_told(struct handle *, const uint8_t *read, bool is_done);
uint32_t msgq_session_notes(struct handle *, uint8_t *into, size_t room, size_t *count);
uint32_t msgq_session_note_begin(struct handle *, const struct stands *, const uint8_t *sum);
uint32_t msgq_session_note_next(struct handle *, struct order *, uint8_t *front, uint8_t *back);
uint32_t msgq_session_note_told(struct handle *, const uint8_t *read, bool is_done);
uint32_t msgq_session_note_stands(struct handle *, struct stands *, uint8_t *sum);
uint32_t msgq_session_remake(struct handle *, const uint8_t *calls, size_t count);
uint32_t msgq_session_close(struct handle *);
size_t msgq_session_handle_size(void);
uint32_t msgq_recovery_begin(struct recovery *, uint64_t journal, uint64_t file);
uint32_t msgq_recovery_next(struct recovery *, struct order *, uint8_t *bytes);
uint32_t msgq_recovery_told(struct recovery *, const uint8_t *read, size_t count, bool is_done);
uint32_t msgq_recovery_calls(struct recovery *);
uint32_t msgq_recovery_stands(struct recovery *, struct stands *, uint8_t *sum);
uint32_t msgq_recovery_end(struct recovery *);
void msgq_session_digest(const uint8_t *bytes, size_t count, uint8_t *into);

#endif
