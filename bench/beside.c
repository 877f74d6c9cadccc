/* Two libraries in one program, call by call on the same buffers, in turn: what a landing makes of each call's time. Where a buffer lies in memory moves a time by more
 * than most landings do, so that two programs with a library each cannot tell. bench/beside builds and runs it; the functions of the two have the prefixes before_ and after_.
 *
 *     beside ROUNDS     a line for each call: blocks, the best time before and after in nanoseconds, the call */
#include "sheetstore.h"
#include <stdio.h>
#include <stdlib.h>
#include <string.h>
#include <time.h>

enum { BLOCK = 512, COPY = 16896, CALLS = 128 };
#define ALL 0xffffffffu
#define STORE uint8_t *, size_t

#define BOTH_HAVE(type, name, ...) type before_##name(__VA_ARGS__), after_##name(__VA_ARGS__);
BOTH_HAVE(sheets_answer, sheets_create_store, STORE)
BOTH_HAVE(sheets_answer, sheets_create_copy, STORE, uint32_t)
BOTH_HAVE(sheets_answer, sheets_add, const STORE, STORE, uint32_t, const STORE)
BOTH_HAVE(sheets_answer, sheets_edit, const STORE, STORE, uint32_t, const STORE)
BOTH_HAVE(sheets_answer, sheets_delete, const STORE, STORE, uint32_t)
BOTH_HAVE(sheets_answer, sheets_copy, const STORE, STORE, uint32_t, uint32_t)
BOTH_HAVE(sheets_answer, sheets_move, const STORE, STORE, uint32_t, uint32_t)
BOTH_HAVE(sheets_answer, sheets_commit, STORE, STORE, uint32_t, uint32_t)
BOTH_HAVE(sheets_answer, sheets_commit_in_turn, STORE, STORE, sheets_turn, uint32_t, uint32_t)
BOTH_HAVE(sheets_cut_answer, sheets_commit_cut, STORE, STORE, uint32_t, uint32_t, uint32_t)
BOTH_HAVE(sheets_answer, sheets_update, const STORE, STORE, uint32_t, uint32_t)
BOTH_HAVE(sheets_answer, sheets_revert, const STORE, STORE, uint32_t)
BOTH_HAVE(sheets_answer, sheets_clear, STORE)
BOTH_HAVE(sheets_cut_answer, sheets_clear_cut, STORE, uint32_t)
BOTH_HAVE(sheets_place, sheets_read, const STORE, uint32_t, uint32_t)
BOTH_HAVE(sheets_place, sheets_show, const STORE, const STORE, uint32_t)
BOTH_HAVE(sheets_standing, sheets_status, const STORE, const STORE, uint32_t)
BOTH_HAVE(sheets_log_entry, sheets_log, const STORE, uint32_t, uint32_t)
BOTH_HAVE(sheets_answer, sheets_replay, const STORE, STORE, STORE, STORE)

/* the buffers of every call; copies has seat 1's first */
static uint8_t *store, copies[4 * COPY], script[CALLS * BLOCK], answers[CALLS * BLOCK], bytes[480];
static size_t len, script_len;
static uint32_t last, sheet;

/* how the buffers are found: seat 1's copy fresh, at the last revision, or with one edit there; behind the used blocks one of a tail */
enum { FRESH, WHOLE, EDITED, TAIL };

/* the call's name, how it finds the buffers, its refusal, the call */
#define OF_STORE store, len
#define OF_BOTH store, len, copies, COPY
#define REPLAYED script, script_len, store, len, copies, sizeof copies, answers, sizeof answers
#define EACH_CALL(X) \
    X(acceptance, WHOLE, 8, sheets_read(OF_STORE, 0, 0)) \
    X(read, WHOLE, 0, sheets_read(OF_STORE, last, sheet)) \
    X(log, WHOLE, 0, sheets_log(OF_STORE, last, sheet)) \
    X(status, WHOLE, 0, sheets_status(OF_BOTH, sheet)) \
    X(show, WHOLE, 0, sheets_show(OF_BOTH, sheet)) \
    X(add, WHOLE, 0, sheets_add(OF_BOTH, 31, bytes, 480)) \
    X(edit, WHOLE, 0, sheets_edit(OF_BOTH, sheet, bytes, 480)) \
    X(delete, WHOLE, 0, sheets_delete(OF_BOTH, sheet)) \
    X(copy, WHOLE, 0, sheets_copy(OF_BOTH, sheet, 31)) \
    X(move, WHOLE, 0, sheets_move(OF_BOTH, sheet, 31)) \
    X(commit, EDITED, 0, sheets_commit(OF_BOTH, 7, ALL)) \
    X(commit_in_turn, EDITED, 0, sheets_commit_in_turn(OF_BOTH, (sheets_turn){1, 2, 3, 4}, 7, ALL)) \
    X(commit_cut, EDITED, 0, sheets_commit_cut(OF_BOTH, 7, ALL, 33)) \
    X(update_to_the_last, FRESH, 0, sheets_update(OF_BOTH, ALL, last)) \
    X(update_to_1, WHOLE, 0, sheets_update(OF_BOTH, ALL, 1)) \
    X(revert, EDITED, 0, sheets_revert(OF_BOTH, 1u << sheet)) \
    X(clear, WHOLE, 0, sheets_clear(OF_STORE)) \
    X(clear_of_a_tail, TAIL, 0, sheets_clear(OF_STORE)) \
    X(clear_cut, TAIL, 0, sheets_clear_cut(OF_STORE, 33)) \
    X(replay_of_no_call, WHOLE, 0, sheets_replay(REPLAYED)) \
    X(replay_of_128_reads, WHOLE, 0, sheets_replay(REPLAYED)) \
    X(replay_of_128_far_reads, WHOLE, 0, sheets_replay(REPLAYED)) \
    X(replay_of_128_logs, WHOLE, 0, sheets_replay(REPLAYED)) \
    X(replay_of_128_status, WHOLE, 0, sheets_replay(REPLAYED)) \
    X(replay_of_128_updates, WHOLE, 0, sheets_replay(REPLAYED))

#define FUNCTIONS(name, found, number, call) \
    static uint32_t before_##name(void) { return before_##call.refusal; } \
    static uint32_t after_##name(void) { return after_##call.refusal; }
EACH_CALL(FUNCTIONS)

static const struct { const char *name; int found; uint32_t refusal; uint32_t (*call[2])(void); } calls[] = {
#define LINE(name, found, number, call) {#name, found, number, {before_##name, after_##name}},
    EACH_CALL(LINE)
};
enum { LINES = sizeof calls / sizeof *calls };

static uint32_t next(void) {
    static uint64_t x = 88172645463325252u;
    x ^= x << 13, x ^= x >> 7, x ^= x << 17;
    return (uint32_t)(x >> 20);
}

static void want(int holds, const char *what) {
    if (!holds) {
        fprintf(stderr, "beside: %s\n", what);
        exit(1);
    }
}

/* Commits of one to three sheets of random bytes, as long as another one leaves `room` blocks. The used blocks. */
static size_t fill(size_t room) {
    size_t used = 1;
    want(before_sheets_create_store(store, len).refusal == 0, "create of the store");
    want(before_sheets_create_copy(copies, COPY, 1).refusal == 0, "create of the copy");
    for (uint32_t there = 0, mask; last == 0 || used + room + 4 <= len / BLOCK; used += 1 + __builtin_popcount(mask)) {
        mask = 0;
        for (uint32_t k = 1 + next() % 3; k; k--)
            mask |= 1u << next() % 31;
        for (uint32_t i = 0; i < 31; i++) {
            if (!(mask >> i & 1))
                continue;
            for (size_t j = 0; j < sizeof bytes; j++)
                bytes[j] = (uint8_t)next();
            size_t n = 8 + next() % 473;
            sheets_answer a = there >> i & 1 ? before_sheets_edit(OF_BOTH, i, bytes, n) : before_sheets_add(OF_BOTH, i, bytes, n);
            want(a.refusal == 0, "add or edit");
            sheet = i;
        }
        there |= mask;
        sheets_answer a = before_sheets_commit(OF_BOTH, last, mask);
        want(a.refusal == 0, "commit");
        last = a.value;
    }
    return used;
}

/* The script of a line: 128 calls by seat 1, none for the other lines. Far reads are of a sheet that no commit names: the search goes back to the first block. */
static void write_script(const char *name) {
    const char *kinds[] = {"reads", "logs", "status", "updates"};
    const uint8_t numbers[] = {9, 12, 11, 7};
    script_len = 0;
    for (int k = 0; k < 4; k++) {
        if (!strstr(name, "replay") || !strstr(name, kinds[k]))
            continue;
        memset(script, 0, sizeof script);
        script_len = sizeof script;
        for (uint32_t c = 0; c < CALLS; c++) {
            uint32_t a[2] = {last, sheet};
            if (strstr(name, "far"))
                a[1] = 31;
            if (k == 2)
                a[0] = sheet, a[1] = 0;
            if (k == 3)
                a[0] = ALL, a[1] = c % 2 ? last : 1;
            script[c * BLOCK] = numbers[k], script[c * BLOCK + 1] = 1;
            memcpy(script + c * BLOCK + 4, a, 8);
        }
    }
}

static double now(void) {
    struct timespec t;
    clock_gettime(CLOCK_MONOTONIC, &t);
    return (double)t.tv_sec * 1e9 + (double)t.tv_nsec;
}

static void of(size_t blocks, int rounds) {
    len = blocks * BLOCK;
    store = calloc(blocks, BLOCK);
    last = 0;
    size_t used = fill(4);
    uint8_t *kept = malloc(len), seats[3][4 * COPY];
    memcpy(kept, store, len);
    for (uint32_t k = 0; k < 4; k++)
        want(before_sheets_create_copy(copies + k * COPY, COPY, k + 1).refusal == 0, "create of a copy");
    memcpy(seats[FRESH], copies, sizeof copies);
    want(before_sheets_update(OF_BOTH, ALL, last).refusal == 0, "update");
    memcpy(seats[WHOLE], copies, sizeof copies);
    want(before_sheets_edit(OF_BOTH, sheet, bytes, 6).refusal == 0, "edit");
    memcpy(seats[EDITED], copies, sizeof copies);
    for (int k = 0; k < LINES; k++) {
        double best[2] = {1e18, 1e18};
        write_script(calls[k].name);
        for (int r = 0; r < 2 * rounds; r++) {
            int which = (r ^ r >> 1) & 1; /* before, after, after, before, .. */
            memcpy(store, kept, len);
            memcpy(copies, seats[calls[k].found == TAIL ? WHOLE : calls[k].found], sizeof copies);
            if (calls[k].found == TAIL)
                memset(store + used * BLOCK, 7, BLOCK);
            double start = now();
            uint32_t refusal = calls[k].call[which]();
            double took = now() - start;
            want(refusal == calls[k].refusal, calls[k].name);
            if (took < best[which])
                best[which] = took;
        }
        printf("%zu %.0f %.0f %s\n", blocks, best[0], best[1], calls[k].name);
    }
    free(kept);
    free(store);
}

int main(int argc, char **argv) {
    int rounds = argc > 1 ? atoi(argv[1]) : 200;
    of(32, 10 * rounds);
    of(1000, 2 * rounds);
    of(4096, rounds);
}
