/* The sheet store for C and whatever calls C. Build the library with `tools/build sheetstore`.
 *
 * Every call works on what the caller lends: a store of 2 to 4,096 blocks of 512 bytes, a working copy of 16,896 bytes, a turn
 * record. A call checks all that it is handed, finishes on every input, and either does its work or answers a refusal and leaves
 * every buffer and record unchanged; sheets_commit_cut and sheets_clear_cut may stop within their work and answer that. A call
 * needs about 272 KiB of stack.
 */
#ifndef SHEETSTORE_H
#define SHEETSTORE_H

#include <stddef.h>
#include <stdint.h>

#ifdef __cplusplus
extern "C" {
#endif

#define SHEETS_BLOCK 512
#define SHEETS_COPY_LEN 16896
#define SHEETS_RECORD_LEN 512

/* Why a call was refused, numbered as in the order's papers; 0 is none. A call answers the first that holds, 14 checked right
 * after 3, 15 and 16 right after 7. */
enum {
    SHEETS_REFUSED_STORE_LENGTH = 1,
    SHEETS_REFUSED_STORE_CHECK = 2,
    SHEETS_REFUSED_STORE_LAYOUT = 3,
    SHEETS_REFUSED_COPY_LENGTH = 4,
    SHEETS_REFUSED_COPY_LAYOUT = 5,
    SHEETS_REFUSED_UNFIT = 6,
    SHEETS_REFUSED_RANGE = 7,
    SHEETS_REFUSED_MISSING = 8,
    SHEETS_REFUSED_OCCUPIED = 9,
    SHEETS_REFUSED_NOTHING_PENDING = 10,
    SHEETS_REFUSED_OUT_OF_DATE = 11,
    SHEETS_REFUSED_CONFLICT = 12,
    SHEETS_REFUSED_NO_ROOM = 13,
    SHEETS_REFUSED_TAIL = 14,        /* a commit or a release on a store that has a tail */
    SHEETS_REFUSED_NOT_HOLDING = 15, /* a commit in turn by a seat that does not hold the turn */
    SHEETS_REFUSED_RELEASED = 16     /* a release of a revision that is released already */
};

/* refusal 0: done; value: a commit's revision, the holder that a call on a turn record leaves, else 0 */
typedef struct {
    uint32_t refusal;
    uint32_t value;
} sheets_answer;

/* refused: refusal, 0, 0; stopped 1: it stopped after n writes, the other two are 0; else 0, 0, value as in sheets_answer */
typedef struct {
    uint32_t refusal, stopped, value;
} sheets_cut_answer;

/* buffer 0: store, 1: working copy; refused, an empty part at the store's start; revision: the last commit that named the sheet,
 * 0 for a part of the working copy and refused */
typedef struct {
    uint32_t refusal;
    uint32_t buffer;
    size_t start;
    size_t len;
    uint32_t revision;
} sheets_place;

/* status 0 to 8; revision: the last commit that named the sheet, 0 if none did; refused, both are 0 */
typedef struct {
    uint32_t refusal;
    uint32_t status;
    uint32_t revision;
} sheets_standing;

/* action 0: the commit did nothing to the sheet, 1 add, 2 change, 3 delete, 4 copy; the source of a copy, else zeros */
typedef struct {
    uint32_t refusal, seat, stamp, changes, action, source_sheet, source_revision;
} sheets_log_entry;

/* Whose turn it is to commit: the seat that holds it, then those waiting, longest first, 0 where none; all 0: a free record. One
 * with a number above 4, a seat twice or a seat after a 0 is not in form, and refused with 7. */
typedef struct {
    uint32_t holder, first, second, third;
} sheets_turn;

sheets_answer sheets_create_store(uint8_t *store, size_t store_len);
sheets_answer sheets_create_copy(uint8_t *copy, size_t copy_len, uint32_t seat);

sheets_answer sheets_add(const uint8_t *store, size_t store_len, uint8_t *copy, size_t copy_len, uint32_t sheet,
                         const uint8_t *bytes, size_t bytes_len);
sheets_answer sheets_edit(const uint8_t *store, size_t store_len, uint8_t *copy, size_t copy_len, uint32_t sheet,
                          const uint8_t *bytes, size_t bytes_len);
sheets_answer sheets_delete(const uint8_t *store, size_t store_len, uint8_t *copy, size_t copy_len, uint32_t sheet);
sheets_answer sheets_copy(const uint8_t *store, size_t store_len, uint8_t *copy, size_t copy_len, uint32_t from, uint32_t to);
sheets_answer sheets_move(const uint8_t *store, size_t store_len, uint8_t *copy, size_t copy_len, uint32_t from, uint32_t to);

/* A commit leaves the blocks in use as they are. It writes its content blocks in rising order, then its commit block. Two stores
 * of one size that began fresh and have no tail are equal byte by byte exactly if their histories are the same, with the same
 * releases in the same places. */
sheets_answer sheets_commit(uint8_t *store, size_t store_len, uint8_t *copy, size_t copy_len, uint32_t stamp, uint32_t mask);
/* Where contact is lost within a commit or a release, the store ends in a tail: up to 32 content blocks of the next revision and
 * at most one block with a wrong check. Every call but a commit and a release works then, as if the tail were zero blocks; a
 * release and a commit, cut or in turn too, are refused with 14. Clear writes zero blocks there, from the highest block down;
 * without a tail it changes nothing. Only 1, 2 and 3 refuse it.
 *
 * Wherever the power fails within a commit, a release or a clear, and the blocks written before are new, the block being written
 * is old, new or has a wrong check, and those due later are old, the store found is accepted. Its history is the one before, or
 * the one with the whole commit or the release, the latter exactly if the commit block or the release's block is new. The working
 * copy is outside of this. */
sheets_answer sheets_clear(uint8_t *store, size_t store_len);
/* Commit and clear that stop after n block writes, to try what a cut leaves. They are refused as the usual calls are, whatever n
 * is. A commit of k content blocks has k + 1 writes, a clear one for each block of the tail: without a tail none, and it is done
 * for every n. With n below the number of writes the first n are made, the working copy is untouched, and the answer is that it
 * stopped; with n equal or above, the call is the usual one. A commit that stopped after one write or more leaves a tail, so that
 * the next is refused with 14 until the store is cleared; with n = 0 nothing is written. */
sheets_cut_answer sheets_commit_cut(uint8_t *store, size_t store_len, uint8_t *copy, size_t copy_len, uint32_t stamp, uint32_t mask,
                                    uint32_t n);
sheets_cut_answer sheets_clear_cut(uint8_t *store, size_t store_len, uint32_t n);

/* Taking turns to commit. A seat asks: it gets the turn if nobody holds it, otherwise it joins the end of those waiting. The
 * holder gives back, or the planner takes back from the holder, and the longest waiting seat, if any, gets the turn. Giving back
 * by another seat, taking back when nobody holds, and asking while waiting or holding change nothing. The value is the holder
 * that the call leaves, 0 for none. Only 7 refuses: a seat that is not 1 to 4, or a record not in form. The pointer to the record
 * must be aligned to 4 and not null.
 *
 * From a free record on, a seat that asked holds the turn no later than the third giving or taking back that ended a turn after
 * it asked. That says nothing of time: a holder that never gives back keeps the turn until the planner takes it back. */
sheets_answer sheets_turn_ask(sheets_turn *turn, uint32_t seat);
sheets_answer sheets_turn_give(sheets_turn *turn, uint32_t seat);
sheets_answer sheets_turn_take(sheets_turn *turn);
/* A commit in turn, that is through the record: 7 for a record not in form too, then 15 if the working copy's seat does not hold
 * the turn, before 10. Done, it is sheets_commit, which asks for no turn. The record stays: giving back is a call of its own. */
sheets_answer sheets_commit_in_turn(uint8_t *store, size_t store_len, uint8_t *copy, size_t copy_len, sheets_turn turn,
                                    uint32_t stamp, uint32_t mask);

/* An entry whose own bytes are the ones that its sheet has at the revision agrees with it: not a conflict (12), and unmodified
 * from then on. */
sheets_answer sheets_update(const uint8_t *store, size_t store_len, uint8_t *copy, size_t copy_len, uint32_t mask, uint32_t revision);
sheets_answer sheets_revert(const uint8_t *store, size_t store_len, uint8_t *copy, size_t copy_len, uint32_t mask);

/* The revision beside a sheet is the last commit that named it: by an add, change or delete of it, or a copy to it, not from it.
 * Read looks up to the revision that it reads, show (for a part of the store) and status up to the last one. */
sheets_place sheets_read(const uint8_t *store, size_t store_len, uint32_t revision, uint32_t sheet);
sheets_place sheets_show(const uint8_t *store, size_t store_len, const uint8_t *copy, size_t copy_len, uint32_t sheet);
sheets_standing sheets_status(const uint8_t *store, size_t store_len, const uint8_t *copy, size_t copy_len, uint32_t sheet);
sheets_log_entry sheets_log(const uint8_t *store, size_t store_len, uint32_t revision, uint32_t sheet);

/* What a poolside panel may show. A release of a revision, 1 to the last, writes one block behind those in use. It is no revision
 * itself, and takes the store alone: the seat is the one that the block names. Releases come in any order of revisions, none
 * twice: 7 for revision 0, one above the last or a seat that is not 1 to 4, then 16 for a revision that is released already, then
 * 13 if there is no block left. Read, show, status and log find what the commits alone have left. */
sheets_answer sheets_release(uint8_t *store, size_t store_len, uint32_t revision, uint32_t seat, uint32_t stamp);
/* A panel's reading: what sheets_read gives at the greatest released revision up to this one, whichever was released last. 7 for a
 * revision above the last or a sheet above 31, 8 if there is no such release or the sheet is absent there, even where an older
 * release has it. */
sheets_place sheets_panel_read(const uint8_t *store, size_t store_len, uint32_t revision, uint32_t sheet);

/* A list of calls. The script has a record of 512 bytes for each call, copies are the working copies of seats 1 to 4 side by
 * side, 67,584 bytes, and answers has room for a record of 512 bytes for each call. The five buffers are checked once. Refused
 * (1 to 6 as for any call, the copies in order; 7 for a copy of another seat, a bad record or fewer answers than calls), nothing
 * is changed. A script may begin on a store with a tail, and a cut commit (kind 14) may leave one: commits and releases (kind 20)
 * are refused with 14 until one of its calls clears it, kind 13, or 15 with n enough. A panel's reading is kind 21. The records
 * are laid out in docs/LAYOUT.md. */
sheets_answer sheets_replay(const uint8_t *script, size_t script_len, uint8_t *store, size_t store_len, uint8_t *copies,
                            size_t copies_len, uint8_t *answers, size_t answers_len);

#ifdef __cplusplus
}
#endif

#endif
