/* A file of queues and its journal: recovered, saved, noted. The session tells each transfer. */
#include "pair.h"
#include "orders.h"
#include "reason.h"

#include <errno.h>
#include <stdlib.h>

int pair_recover(struct pair *pair) {
    uint64_t journal = 0, file = 0;
    int wrong = of_journal(size_of(&pair->journal, &journal));
    if (wrong == 0)
        wrong = size_of(&pair->file, &file);
    if (wrong == 0)
        wrong = error_of(msgq_recovery_begin(&pair->recovery, journal, file));
    if (wrong == 0)
        wrong = make_all(&(struct teller){RECOVERY, pair, NULL, 0});
    return wrong != 0 ? wrong : error_of(msgq_recovery_stands(&pair->recovery, &pair->stands, pair->sum));
}

/* What a save or a note begins beside: of a journal without calls it is known how long it is. The numbers are still those of the files: the
 * program may have closed them, and opened others. */
static int stands_of(struct pair *pair) {
    int wrong = test_opened(&pair->file);
    if (wrong == 0)
        wrong = test_opened(&pair->journal);
    if (wrong != 0)
        return why(wrong, "the program has closed its descriptor");
    return pair->stands.end == 0 ? of_journal(size_of(&pair->journal, &pair->stands.size)) : 0;
}

int pair_save(struct pair *pair, struct handle *session) {
    int wrong = stands_of(pair);
    if (wrong == 0)
        wrong = error_of(msgq_session_save_begin(session, &pair->stands, pair->sum));
    if (wrong == 0)
        wrong = make_all(&(struct teller){SAVE, pair, session, 0});
    if (wrong == 0)
        pair->stands.end = 0;
    return wrong;
}

/* So many bytes of calls are noted at once, which a session keeps at most; and behind so many bytes of them in the journal pages are saved. */
enum { MOST_NOTED = 1 << 20, MOST_IN_JOURNAL = 8 << 20 };

int pair_note(struct pair *pair, struct handle *session) {
    size_t count;
    if (pair->room == NULL)
        pair->room = calloc(1, FRONT_BYTES + MOST_NOTED + DIGEST_BYTES);
    if (pair->room == NULL || pair->stands.end > MOST_IN_JOURNAL
        || msgq_session_notes(session, pair->room + FRONT_BYTES, MOST_NOTED, &count) != DONE)
        return pair_save(pair, session);
    if (count == 0)
        return 0;
    int wrong = stands_of(pair);
    if (wrong != 0)
        return wrong;
    uint32_t code = msgq_session_note_begin(session, &pair->stands, pair->sum);
    if (code == DUE)
        return pair_save(pair, session);
    if ((wrong = error_of(code)) == 0)
        wrong = make_all(&(struct teller){NOTE, pair, session, count});
    return wrong != 0 ? wrong : error_of(msgq_session_note_stands(session, &pair->stands, pair->sum));
}

int pair_bring_in(struct pair *pair, struct handle *session) {
    int wrong = error_of(msgq_recovery_calls(&pair->recovery));
    if (wrong == 0)
        wrong = make_all(&(struct teller){RECOVERY, pair, session, 0});
    (void)msgq_recovery_end(&pair->recovery);
    return wrong == 0 && pair->stands.end > 0 ? pair_save(pair, session) : wrong;
}
