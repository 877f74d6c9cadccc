/* Random calls, replays and calls on a turn record by four seats, good and damaged buffers and records, each lent as a piece of memory of its exact size.
 *
 *     memory SEED CALLS heap     pieces from malloc, for valgrind and AddressSanitizer to watch
 *     memory SEED CALLS pages    pieces that end, or start, at a page that cannot be touched; those lent as const lie in pages that cannot be written
 *
 * Now and then the store is found with a tail (W5), or a cut call leaves one (W6). A refused call must leave its buffers as they were and carry no revision, a part of
 * the store must carry one, and a part of a copy none; a commit that is done or stops found no tail, and a clear leaves the history and zeros. A commit that stops
 * leaves the copy's bytes as they were, the history, n blocks of content and zeros; a clear that stops leaves all but the n highest blocks of the tail. A commit in
 * turn (W7) must leave its record, and be the plain commit of the same buffers or refused for the record; a call on a record is refused with 7 exactly if the seat or
 * the record is wrong, leaves the record then, and answers the holder otherwise. A release (W9) that is done found no tail and writes its one block behind the history;
 * a panel's reading is the read at the greatest released revision up to its own, or refused. Exits 1, with the seed and the call's number, if that is not so. A touch
 * of a byte outside a piece ends the program.
 */
#define _DEFAULT_SOURCE
#include "sheetstore.h"

#include <stdbool.h>
#include <stdio.h>
#include <stdlib.h>
#include <string.h>
#include <sys/mman.h>

#define PAGE 4096
#define MAX_STORE (4097 * SHEETS_BLOCK)
#define COPIES_LEN (4 * SHEETS_COPY_LEN)
#define MAX_CALLS 12 /* of a script */
#define REFUSALS 17 /* 0 for none, and 1 to 16 */
#define RELEASED 16 /* a release of a revision already released */

static uint64_t state;
static bool in_pages;

static uint32_t below(uint32_t n) {
    state ^= state << 13;
    state ^= state >> 7;
    state ^= state << 17;
    return (uint32_t)((state >> 32) % n);
}

/* ---- pieces of memory */

struct piece {
    uint8_t *bytes;
    size_t len;
    uint8_t *room; /* what to give back */
    size_t room_len;
};

/* A piece with these bytes, or with nothing yet. */
static struct piece lend(const uint8_t *bytes, size_t len, bool to_write) {
    struct piece p = {.len = len};
    if (len > MAX_STORE) abort();
    if (in_pages) {
        size_t inner = (len + PAGE - 1) / PAGE * PAGE;
        p.room_len = inner + 2 * PAGE;
        p.room = mmap(NULL, p.room_len, PROT_NONE, MAP_PRIVATE | MAP_ANONYMOUS, -1, 0);
        if (p.room == MAP_FAILED) abort();
        p.bytes = p.room + PAGE + (below(2) ? inner - len : 0);
        if (inner != 0 && mprotect(p.room + PAGE, inner, PROT_READ | PROT_WRITE) != 0) abort();
        if (bytes != NULL && len != 0) memcpy(p.bytes, bytes, len);
        if (inner != 0 && !to_write && mprotect(p.room + PAGE, inner, PROT_READ) != 0) abort();
    } else {
        p.room = malloc(len);
        if (p.room == NULL && len != 0) abort();
        p.bytes = p.room;
        if (bytes != NULL && len != 0) memcpy(p.bytes, bytes, len);
    }
    return p;
}

static void give_back(struct piece p) {
    if (in_pages)
        munmap(p.room, p.room_len);
    else
        free(p.room);
}

/* ---- the buffers between calls */

static uint8_t store[MAX_STORE], copies[COPIES_LEN], hurt_store[MAX_STORE], hurt_copies[COPIES_LEN + SHEETS_BLOCK];
static size_t store_len;
static sheets_turn turn;
static unsigned long answered[REFUSALS], replayed[REFUSALS], committed_in_turn[REFUSALS], turned[REFUSALS], released[REFUSALS], on_panel[REFUSALS];
static unsigned long cleared, stopped_commits, stopped_clears;

static void seal(uint8_t *block) {
    uint32_t a = 0, b = 0;
    for (int i = 0; i < 508; i++) {
        a = (a + block[i]) % 65521;
        b = (b + a) % 65521;
    }
    block[508] = (uint8_t)a, block[509] = (uint8_t)(a >> 8), block[510] = (uint8_t)b, block[511] = (uint8_t)(b >> 8);
}

static bool sealed(const uint8_t *block) {
    uint8_t again[SHEETS_BLOCK];
    memcpy(again, block, SHEETS_BLOCK);
    seal(again);
    return memcmp(again, block, SHEETS_BLOCK) == 0;
}

static bool all_zero(const uint8_t *bytes, size_t len) {
    for (size_t i = 0; i < len; i++)
        if (bytes[i] != 0) return false;
    return true;
}

/* The bytes of an accepted store up to its last commit or release block, or its label. A tail has content, and a block with a wrong check. */
static size_t history_len(const uint8_t *bytes, size_t len) {
    for (; len > SHEETS_BLOCK; len -= SHEETS_BLOCK) {
        const uint8_t *block = bytes + len - SHEETS_BLOCK;
        if ((block[0] == 3 || block[0] == 6) && sealed(block)) break;
    }
    return len;
}

static uint32_t revision_in(const uint8_t *block) {
    return block[4] + 256u * block[5];
}

/* The last revision of an accepted store whose history has so many bytes. */
static uint32_t last_revision(const uint8_t *bytes, size_t used) {
    while (used > SHEETS_BLOCK && bytes[used - SHEETS_BLOCK] != 3) used -= SHEETS_BLOCK;
    return used > SHEETS_BLOCK ? revision_in(bytes + used - SHEETS_BLOCK) : 0;
}

/* The greatest released revision up to this one, 0 for none. */
static uint32_t greatest_released(const uint8_t *bytes, size_t used, uint32_t revision) {
    uint32_t greatest = 0;
    for (size_t at = SHEETS_BLOCK; at < used; at += SHEETS_BLOCK)
        if (bytes[at] == 6 && revision_in(bytes + at) <= revision && revision_in(bytes + at) > greatest) greatest = revision_in(bytes + at);
    return greatest;
}

/* The bytes up to the last block that is not all zero. */
static size_t filled_len(const uint8_t *bytes, size_t len) {
    while (len > 0 && all_zero(bytes + len - SHEETS_BLOCK, SHEETS_BLOCK)) len -= SHEETS_BLOCK;
    return len;
}

/* Whether a cut call on an accepted store that stopped left another store than it should, after n writes. */
static bool stopped_wrong(const uint8_t *before, const uint8_t *after, size_t len, bool clears, uint32_t n) {
    size_t used = history_len(before, len), filled = filled_len(before, len), left = clears ? filled - n * SHEETS_BLOCK : used + n * SHEETS_BLOCK;
    if (clears ? n >= (filled - used) / SHEETS_BLOCK : filled != used || n > 32 || left + SHEETS_BLOCK > len) return true;
    if (memcmp(before, after, clears ? left : used) != 0 || !all_zero(after + left, len - left)) return true;
    for (size_t at = used; !clears && at < left; at += SHEETS_BLOCK)
        if (after[at] != 2 || !sealed(after + at)) return true;
    return false;
}

/* Puts a tail behind the history of an accepted store, as far as there is room, in place of the one that is there. */
static void put_tail(uint8_t *bytes, size_t len) {
    size_t at = history_len(bytes, len);
    uint32_t revision = 1 + last_revision(bytes, at), count = below(3) ? below(4) : below(33);
    memset(bytes + at, 0, len - at);
    for (; count > 0 && at < len; count--, at += SHEETS_BLOCK) {
        uint8_t *block = bytes + at;
        block[0] = 2, block[2] = (uint8_t)below(256), block[4] = (uint8_t)revision, block[5] = (uint8_t)(revision >> 8);
        memset(block + 16, (int)below(256), block[2]);
        seal(block);
    }
    if (at < len && below(2)) {
        for (size_t i = 0; i < SHEETS_BLOCK; i++) bytes[at + i] = (uint8_t)(below(2) ? below(4) : 0);
        seal(bytes + at);
        bytes[at + 508] ^= (uint8_t)(1 + below(255));
    }
}

static void damage(uint8_t *buffer, size_t *len) {
    if (below(6) == 0) {
        *len = below(2) ? *len - 1 - below(512) : *len + 1 + below(512);
        return;
    }
    size_t blocks = *len / SHEETS_BLOCK, near = blocks < 8 ? blocks : 8;
    uint8_t *block = buffer + SHEETS_BLOCK * below((uint32_t)(below(2) ? near : blocks));
    if (below(4) == 0)
        block[1] = 1, block[4] = (uint8_t)(1 + below(4)); /* in an entry: normal, with another base */
    else if (below(6) == 0) /* a release, which stands where it is in few places */
        memset(block, 0, SHEETS_BLOCK), block[0] = 6, block[4] = (uint8_t)below(4), block[6] = (uint8_t)below(6), block[8] = (uint8_t)below(256);
    else
        block[below(2) ? below(32) : below(512)] = (uint8_t)below(256);
    if (below(8) != 0) seal(block);
}

/* ---- turn records */

/* A seat, or now and then a number that is none, as a seat with one more bit. */
static uint32_t some_seat(void) {
    return below(16) ? 1 + below(4) : below(2) ? below(6) : (1 + below(4)) | 1u << (3 + below(29));
}

static bool in_form(sheets_turn t) {
    uint32_t numbers[] = {t.holder, t.first, t.second, t.third}, seen = 0;
    for (int i = 0; i < 4; i++) {
        if (numbers[i] > 4 || (seen >> numbers[i] & 1)) return false;
        seen |= numbers[i] != 0 ? 1u << numbers[i] : 0x1e; /* after a 0 every seat is wrong */
    }
    return true;
}

/* Some seats in a random order, the first of them often the one named; now and then with a fault. */
static sheets_turn some_turn(uint32_t seat) {
    uint32_t numbers[] = {1, 2, 3, 4}, seats = below(8) ? 1 + below(4) : 0;
    bool holds = below(4) != 0;
    for (uint32_t i = 0; i < 4; i++) {
        uint32_t j = i + below(4 - i), number = numbers[j];
        numbers[j] = numbers[i], numbers[i] = number;
    }
    for (uint32_t i = 1; i < 4; i++)
        if (holds && numbers[i] == seat) numbers[i] = numbers[0], numbers[0] = seat;
    for (uint32_t i = seats; i < 4; i++) numbers[i] = 0;
    if (below(8) == 0) numbers[below(4)] = below(2) ? below(6) : some_seat();
    return (sheets_turn){numbers[0], numbers[1], numbers[2], numbers[3]};
}

/* A call on a record at the end of a piece of memory, at any multiple of 4. The record that it leaves is kept. Answers whether that, or the answer, is wrong. */
static bool take_turns(void) {
    static const uint8_t nothing[7 * 4];
    uint32_t kind = below(5), seat = some_seat(), lead = below(2) ? 0 : 4 * below(4);
    sheets_turn before = below(4) ? turn : some_turn(seat);
    struct piece p = lend(nothing, lead + sizeof before, true);
    sheets_turn *t = (sheets_turn *)(p.bytes + lead);
    *t = before;
    sheets_answer a = kind < 2 ? sheets_turn_ask(t, seat) : kind < 4 ? sheets_turn_give(t, seat) : sheets_turn_take(t);
    turned[a.refusal]++;
    bool bad = !in_form(before) || (kind < 4 && (seat < 1 || seat > 4)), same = memcmp(t, &before, sizeof before) == 0;
    bool wrong = a.refusal != (bad ? 7 : 0) || (bad && (!same || a.value != 0)) || (!bad && (!in_form(*t) || a.value != t->holder));
    wrong |= memcmp(p.bytes, nothing, lead) != 0;
    if (a.refusal == 0) turn = *t;
    give_back(p);
    return wrong;
}

/* A commit in turn of these buffers, beside a plain one of the same: its refusal, or REFUSALS where it is neither that nor refused for the record. */
static uint32_t commit_in_turn(struct piece s, struct piece c, uint32_t stamp, uint32_t mask) {
    uint32_t seat = c.bytes[1];
    sheets_turn record = below(4) ? some_turn(seat) : turn;
    struct piece t = lend((const uint8_t *)&record, sizeof record, false), plain_s = lend(s.bytes, s.len, true), plain_c = lend(c.bytes, c.len, true);
    sheets_answer plain = sheets_commit(plain_s.bytes, plain_s.len, plain_c.bytes, plain_c.len, stamp, mask);
    sheets_answer a = sheets_commit_in_turn(s.bytes, s.len, c.bytes, c.len, *(const sheets_turn *)t.bytes, stamp, mask);
    committed_in_turn[a.refusal]++;
    bool own = (plain.refusal >= 1 && plain.refusal <= 7) || plain.refusal == SHEETS_REFUSED_TAIL; /* a line before those of the record */
    uint32_t by_record = own ? 0 : !in_form(record) ? SHEETS_REFUSED_RANGE : record.holder != seat ? SHEETS_REFUSED_NOT_HOLDING : 0;
    bool same = memcmp(s.bytes, plain_s.bytes, s.len) == 0 && memcmp(c.bytes, plain_c.bytes, c.len) == 0;
    bool wrong = by_record != 0 ? a.refusal != by_record || a.value != 0 : a.refusal != plain.refusal || a.value != plain.value || !same;
    wrong |= memcmp(t.bytes, &record, sizeof record) != 0;
    give_back(t), give_back(plain_s), give_back(plain_c);
    return wrong ? REFUSALS : a.refusal;
}

/* ---- releases */

/* Whether the refusal of a release on an accepted store without a tail, or what it left, is wrong. */
static bool release_wrong(const uint8_t *before, const uint8_t *after, size_t len, uint32_t revision, uint32_t seat, uint32_t stamp, uint32_t refusal) {
    size_t used = history_len(before, len);
    uint8_t block[SHEETS_BLOCK] = {6, 0, 0, 0, (uint8_t)revision, (uint8_t)(revision >> 8), (uint8_t)seat, 0, (uint8_t)stamp, (uint8_t)(stamp >> 8),
                                   (uint8_t)(stamp >> 16), (uint8_t)(stamp >> 24)};
    bool range = revision == 0 || revision > last_revision(before, used) || seat < 1 || seat > 4;
    bool twice = !range && greatest_released(before, used, revision) == revision;
    uint32_t wanted = range ? SHEETS_REFUSED_RANGE : twice ? RELEASED : used == len ? SHEETS_REFUSED_NO_ROOM : 0;
    if (refusal != wanted) return true;
    if (refusal != 0) return false;
    seal(block);
    return memcmp(before, after, used) != 0 || memcmp(after + used, block, SHEETS_BLOCK) != 0 || !all_zero(after + used + SHEETS_BLOCK, len - used - SHEETS_BLOCK);
}

/* A release on the piece s, which holds the bytes before: its refusal, or REFUSALS where something is wrong. */
static uint32_t release(struct piece s, const uint8_t *before, uint32_t revision) {
    uint32_t seat = some_seat(), stamp = below(4) ? below(UINT32_MAX) : UINT32_MAX;
    if (below(8) == 0) revision = below(2) ? 0 : revision | 1u << (16 + below(16));
    sheets_answer a = sheets_release(s.bytes, s.len, revision, seat, stamp);
    if (a.value != 0 || a.refusal >= REFUSALS) return REFUSALS;
    released[a.refusal]++;
    bool own = a.refusal == 0 || a.refusal == SHEETS_REFUSED_RANGE || a.refusal == SHEETS_REFUSED_NO_ROOM || a.refusal == RELEASED;
    if (!own) return a.refusal > SHEETS_REFUSED_STORE_LAYOUT && a.refusal != SHEETS_REFUSED_TAIL ? REFUSALS : a.refusal;
    size_t used = history_len(before, s.len);
    if (!all_zero(before + used, s.len - used)) return REFUSALS; /* the others come after 14 */
    return release_wrong(before, s.bytes, s.len, revision, seat, stamp, a.refusal) ? REFUSALS : a.refusal;
}

/* A panel's reading, beside the read that it should be: its refusal, or REFUSALS where it is another. */
static uint32_t panel(struct piece s, uint32_t revision, uint32_t sheet) {
    sheets_place p = sheets_panel_read(s.bytes, s.len, revision, sheet);
    if (p.refusal >= REFUSALS || p.buffer != 0 || (p.revision != 0) != (p.refusal == 0)) return REFUSALS;
    on_panel[p.refusal]++;
    for (size_t i = 0; i < p.len; i++) state += s.bytes[p.start + i]; /* every byte of the part can be read */
    sheets_place whole = sheets_read(s.bytes, s.len, revision, sheet);
    if (whole.refusal != 0 && whole.refusal != SHEETS_REFUSED_MISSING) return p.refusal == whole.refusal ? p.refusal : REFUSALS;
    uint32_t shown = greatest_released(s.bytes, history_len(s.bytes, s.len), revision);
    if (shown == 0) return p.refusal == SHEETS_REFUSED_MISSING ? p.refusal : REFUSALS;
    sheets_place there = sheets_read(s.bytes, s.len, shown, sheet);
    bool same = p.refusal == there.refusal && p.start == there.start && p.len == there.len && p.revision == there.revision;
    return same ? p.refusal : REFUSALS;
}

/* One call on pieces of memory with these buffers; what it leaves goes back into them. Answers whether a refused call changed one, or an answer is wrong. */
static bool call(uint8_t *store_at, size_t store_size, uint8_t *copy_at, size_t copy_size) {
    static const uint32_t some[] = {0, 1, 2, 3, 5, 31};
    uint32_t sheet = below(8) ? some[below(6)] : below(34), other = below(8) ? some[below(6)] : below(34);
    uint32_t mask = below(3) ? UINT32_MAX : below(2) ? 1u << sheet % 32 : below(4) * 0x01234567u, revision = below(below(2) ? 4 : 40);
    uint32_t kind = below(32), n = below(2) ? below(3) : below(2) ? below(34) : UINT32_MAX - below(2), stopped = 0;
    bool clears = kind == 12 || kind == 13, commits = kind > 13 && kind < 28, releases = kind == 28 || kind == 29;
    if (kind > 27 && below(4)) revision = below(below(2) ? 2 : 5);
    uint8_t text[481];
    size_t text_len = below(16) == 0 ? 480 + below(2) : below(4);
    memset(text, (int)below(256), sizeof text);

    struct piece s = lend(store_at, store_size, clears || commits || releases), c = lend(copy_at, copy_size, kind < 8 || commits), t = lend(text, text_len, false);
    uint32_t refusal;
    switch (kind) {
    case 0: case 1: refusal = sheets_add(s.bytes, s.len, c.bytes, c.len, sheet, t.bytes, t.len).refusal; break;
    case 2: case 3: refusal = sheets_edit(s.bytes, s.len, c.bytes, c.len, sheet, t.bytes, t.len).refusal; break;
    case 4: refusal = sheets_delete(s.bytes, s.len, c.bytes, c.len, sheet).refusal; break;
    case 5: refusal = below(2) ? sheets_copy(s.bytes, s.len, c.bytes, c.len, sheet, other).refusal
                               : sheets_move(s.bytes, s.len, c.bytes, c.len, sheet, other).refusal; break;
    case 6: refusal = sheets_update(s.bytes, s.len, c.bytes, c.len, mask, revision).refusal; break;
    case 7: refusal = sheets_revert(s.bytes, s.len, c.bytes, c.len, mask).refusal; break;
    case 8: {
        sheets_standing standing = sheets_status(s.bytes, s.len, c.bytes, c.len, sheet);
        refusal = standing.refusal;
        if (refusal != 0 && (standing.status != 0 || standing.revision != 0)) return true;
        break;
    }
    case 9: refusal = sheets_log(s.bytes, s.len, revision, sheet).refusal; break;
    case 10: case 11: {
        sheets_place p = kind == 10 ? sheets_read(s.bytes, s.len, revision, sheet) : sheets_show(s.bytes, s.len, c.bytes, c.len, sheet);
        struct piece in = p.buffer == 0 ? s : c;
        if (p.start > in.len || p.len > in.len - p.start) return true;
        if ((p.revision != 0) != (p.refusal == 0 && p.buffer == 0)) return true;
        for (size_t i = 0; i < p.len; i++) state += in.bytes[p.start + i]; /* every byte of the part can be read */
        refusal = p.refusal;
        break;
    }
    case 12: {
        sheets_answer answer = sheets_clear(s.bytes, s.len);
        refusal = answer.refusal;
        if (answer.value != 0 || refusal > SHEETS_REFUSED_STORE_LAYOUT) return true;
        break;
    }
    case 13: case 14: case 15: case 16: case 17: case 18: {
        sheets_cut_answer answer = clears ? sheets_clear_cut(s.bytes, s.len, n) : sheets_commit_cut(s.bytes, s.len, c.bytes, c.len, below(UINT32_MAX), mask, n);
        refusal = answer.refusal, stopped = answer.stopped;
        if (stopped > 1 || (stopped && refusal != 0) || (answer.value != 0) != (commits && refusal == 0 && !stopped)) return true;
        if (clears && refusal > SHEETS_REFUSED_STORE_LAYOUT) return true;
        break;
    }
    case 19: case 20: case 21: case 22:
        refusal = commit_in_turn(s, c, below(UINT32_MAX), mask);
        if (refusal > SHEETS_REFUSED_NOT_HOLDING) return true;
        break;
    case 28: case 29:
        refusal = release(s, store_at, revision);
        if (refusal >= REFUSALS) return true;
        break;
    case 30: case 31:
        refusal = panel(s, revision, sheet);
        if (refusal >= REFUSALS) return true;
        break;
    default: refusal = sheets_commit(s.bytes, s.len, c.bytes, c.len, below(UINT32_MAX), mask).refusal;
    }
    answered[refusal]++;
    bool wrong = refusal != 0 && (memcmp(s.bytes, store_at, s.len) != 0 || memcmp(c.bytes, copy_at, c.len) != 0);
    if (stopped) {
        wrong |= memcmp(c.bytes, copy_at, c.len) != 0 || stopped_wrong(store_at, s.bytes, s.len, clears, n);
        clears ? stopped_clears++ : stopped_commits++;
    } else if ((clears || commits) && refusal == 0) {
        size_t used = history_len(store_at, store_size);
        bool tail = !all_zero(store_at + used, store_size - used);
        wrong |= memcmp(s.bytes, store_at, used) != 0;
        wrong |= clears ? !all_zero(s.bytes + used, s.len - used) : tail;
        cleared += clears && tail;
    }
    memcpy(store_at, s.bytes, s.len);
    memcpy(copy_at, c.bytes, c.len);
    give_back(s), give_back(c), give_back(t);
    return wrong;
}

/* A script of random calls, now and then with a fault. What a record has no use for holds anything. Kinds are 1 to 15, 20 and 21: those between are on a turn record. */
static size_t make_script(uint8_t *script) {
    size_t len = SHEETS_RECORD_LEN * below(MAX_CALLS + 1);
    for (size_t i = 0; i < len; i++) script[i] = (uint8_t)below(256);
    for (uint8_t *record = script; record < script + len; record += SHEETS_RECORD_LEN) {
        uint32_t bytes = below(8) ? below(4) : below(497);
        uint32_t kind = below(3) ? 1 + below(17) : below(2) ? 6 : 14;
        record[0] = (uint8_t)(kind > 15 ? kind + 4 : kind), record[1] = (uint8_t)(1 + below(4));
        bool commits = record[0] == 6 || record[0] == 14;
        record[2] = (uint8_t)bytes, record[3] = (uint8_t)(bytes >> 8);
        if (!commits && record[0] != 7 && record[0] != 8) record[4] = (uint8_t)below(6), record[5] = record[6] = record[7] = 0;
        record[8] = (uint8_t)(commits ? 255 : below(6)), record[9] = record[10] = record[11] = 0;
        if ((record[0] == 14 || record[0] == 20) && below(4)) record[12] = (uint8_t)below(6), record[13] = record[14] = record[15] = 0;
    }
    if (len != 0 && below(8) == 0) {
        uint8_t *record = script + SHEETS_RECORD_LEN * below((uint32_t)(len / SHEETS_RECORD_LEN));
        switch (below(4)) {
        case 0: record[0] = (uint8_t)(below(2) ? 16 + below(4) : below(2) ? 0 : 22); break;
        case 1: record[1] = below(2) ? 0 : 5; break;
        case 2: record[2] = 241, record[3] = 1; break; /* 497 bytes */
        default: len -= 1 + below(511);
        }
    }
    return len;
}

/* A replay on pieces of memory with these buffers; what it leaves goes back into them. Answers whether a refused one changed one. */
static bool replay(uint8_t *store_at, size_t store_size, uint8_t *copies_at, size_t copies_size) {
    static uint8_t script[MAX_CALLS * SHEETS_RECORD_LEN], before[(MAX_CALLS + 2) * SHEETS_RECORD_LEN];
    size_t script_len = make_script(script), rest = below(2) ? below(1024) : 0;
    size_t answers_len = below(8) || script_len == 0 ? script_len + rest : script_len - 1 - below((uint32_t)script_len);
    for (size_t i = 0; i < answers_len; i++) before[i] = (uint8_t)below(256);

    struct piece t = lend(script, script_len, false), s = lend(store_at, store_size, true), c = lend(copies_at, copies_size, true);
    struct piece a = lend(before, answers_len, true);
    uint32_t refusal = sheets_replay(t.bytes, t.len, s.bytes, s.len, c.bytes, c.len, a.bytes, a.len).refusal;
    replayed[refusal]++;
    bool wrong = refusal != 0 && (memcmp(s.bytes, store_at, s.len) != 0 || memcmp(c.bytes, copies_at, c.len) != 0 || memcmp(a.bytes, before, a.len) != 0);
    if (refusal == 0) {
        wrong |= memcmp(a.bytes + script_len, before + script_len, answers_len - script_len) != 0;
        for (size_t at = 0; at < script_len; at += SHEETS_RECORD_LEN) wrong |= a.bytes[at] > RELEASED || a.bytes[at] == SHEETS_REFUSED_NOT_HOLDING;
    }
    memcpy(store_at, s.bytes, s.len);
    memcpy(copies_at, c.bytes, c.len);
    give_back(t), give_back(s), give_back(c), give_back(a);
    return wrong;
}

/* Fresh buffers, made in pieces that hold nothing yet. */
static bool fresh(size_t blocks) {
    store_len = blocks * SHEETS_BLOCK;
    struct piece s = lend(NULL, store_len, true);
    bool wrong = sheets_create_store(s.bytes, s.len).refusal != 0;
    memcpy(store, s.bytes, s.len);
    give_back(s);
    for (uint32_t seat = 1; seat <= 4; seat++) {
        struct piece c = lend(NULL, SHEETS_COPY_LEN, true);
        wrong |= sheets_create_copy(c.bytes, c.len, seat).refusal != 0;
        memcpy(copies + (seat - 1) * SHEETS_COPY_LEN, c.bytes, c.len);
        give_back(c);
    }
    return wrong;
}

static void tell(const char *what, const unsigned long *by_refusal) {
    printf("%s: done %lu; refused", what, by_refusal[0]);
    for (int n = 1; n < REFUSALS; n++) printf("%s %d: %lu", n == 1 ? "" : ",", n, by_refusal[n]);
    printf("\n");
}

int main(int argc, char **argv) {
    if (argc != 4) {
        fprintf(stderr, "usage: memory SEED CALLS heap|pages\n");
        return 2;
    }
    static const size_t sizes[] = {2, 3, 4, 8, 32, 64, 65, 200, 4096};
    unsigned long seed = strtoul(argv[1], NULL, 10), count = strtoul(argv[2], NULL, 10);
    state = 0x9e3779b97f4a7c15u * (seed + 1);
    in_pages = strcmp(argv[3], "pages") == 0;
    for (unsigned long k = 0; k < count; k++) {
        bool wrong = false;
        if (k % 200 == 0) wrong |= fresh(sizes[below(64) == 0 ? 8 : below(8)]);
        if (below(4) == 0) wrong |= take_turns();
        bool replays = below(8) == 0; /* else one call, with the copy of one seat */
        uint8_t *copy = replays ? copies : copies + below(4) * SHEETS_COPY_LEN;
        size_t copy_len = replays ? COPIES_LEN : SHEETS_COPY_LEN;
        if (below(32) == 0) put_tail(store, store_len);
        if (below(4) == 0) {
            size_t s = store_len, c = copy_len;
            memcpy(hurt_store, store, s);
            memcpy(hurt_copies, copy, c);
            if (below(2)) damage(hurt_store, &s);
            if (below(2)) damage(hurt_copies, &c);
            wrong |= (replays ? replay : call)(hurt_store, s, hurt_copies, c);
        } else {
            wrong |= (replays ? replay : call)(store, store_len, copy, copy_len);
        }
        if (wrong) {
            printf("a buffer or an answer is not as it should be: seed %lu, call %lu\n", seed, k);
            return 1;
        }
    }
    tell("calls", answered);
    tell("commits in turn", committed_in_turn);
    tell("replays", replayed);
    tell("releases", released);
    tell("panel readings", on_panel);
    printf("calls on a turn record: done %lu; refused 7: %lu\n", turned[0], turned[7]);
    printf("tails cleared: %lu; commits stopped: %lu; clears stopped: %lu\n", cleared, stopped_commits, stopped_clears);
    return 0;
}
