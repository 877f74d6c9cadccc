/* How much stack a call that opens a store takes, by a thread whose stack is painted before: at most the 272 KiB that include/sheetstore.h names, and at most 16 KiB on a store with up to 64
 * blocks before the zero ones, since a small store does not pay for a large store's table (docs/DECISIONS.md, 32). Exits 1 with what a call took if that is not so. */
#define _GNU_SOURCE
#include "sheetstore.h"

#include <pthread.h>
#include <stdio.h>
#include <stdlib.h>
#include <string.h>

enum { STACK = 1 << 20, BLOCKS = 200, PAINT = 0xa5 };

static uint8_t store[BLOCKS * SHEETS_BLOCK], copies[4 * SHEETS_COPY_LEN], script[SHEETS_RECORD_LEN], answers[SHEETS_RECORD_LEN], bytes[480], *stack;
static uint32_t last, refusal;

#define OF_STORE store, sizeof store
#define OF_BOTH store, sizeof store, copies, SHEETS_COPY_LEN
#define EACH_CALL(X) \
    X(read, sheets_read(OF_STORE, last, 3)) \
    X(panel_read, sheets_panel_read(OF_STORE, last, 3)) \
    X(log, sheets_log(OF_STORE, last, 3)) \
    X(show, sheets_show(OF_BOTH, 3)) \
    X(status, sheets_status(OF_BOTH, 3)) \
    X(edit, sheets_edit(OF_BOTH, 3, bytes, sizeof bytes)) \
    X(copy, sheets_copy(OF_BOTH, 3, 4)) \
    X(move, sheets_move(OF_BOTH, 4, 5)) \
    X(delete, sheets_delete(OF_BOTH, 5)) \
    X(add, sheets_add(OF_BOTH, 5, bytes, sizeof bytes)) \
    X(revert, sheets_revert(OF_BOTH, UINT32_MAX)) \
    X(update, sheets_update(OF_BOTH, UINT32_MAX, last)) \
    X(edit_to_commit, sheets_edit(OF_BOTH, 3, bytes, 7)) \
    X(commit_cut, sheets_commit_cut(OF_BOTH, 7, UINT32_MAX, 1)) \
    X(clear_cut, sheets_clear_cut(OF_STORE, 1)) \
    X(commit, sheets_commit(OF_BOTH, 7, UINT32_MAX)) \
    X(edit_in_turn, sheets_edit(OF_BOTH, 3, bytes, 8)) \
    X(commit_in_turn, sheets_commit_in_turn(OF_BOTH, (sheets_turn){1, 0, 0, 0}, 7, UINT32_MAX)) \
    X(release, sheets_release(OF_STORE, last, 1, 7)) \
    X(clear, sheets_clear(OF_STORE)) \
    X(replay, sheets_replay(script, sizeof script, OF_STORE, copies, sizeof copies, answers, sizeof answers))

#define FUNCTION(name, call) \
    static void *call_##name(void *none) { refusal = call.refusal; return none; }
EACH_CALL(FUNCTION)

static const struct { const char *name; void *(*call)(void *); } calls[] = {
#define LINE(name, call) {#name, call_##name},
    EACH_CALL(LINE)
};

static void want(int holds, const char *what) {
    if (!holds) {
        fprintf(stderr, "stack: %s\n", what);
        exit(1);
    }
}

static size_t taken(void *(*call)(void *)) {
    pthread_attr_t attributes;
    pthread_t thread;
    memset(stack, PAINT, STACK);
    want(pthread_attr_init(&attributes) == 0 && pthread_attr_setstack(&attributes, stack, STACK) == 0, "the thread's stack");
    want(pthread_create(&thread, &attributes, call, NULL) == 0 && pthread_join(thread, NULL) == 0, "the thread");
    size_t untouched = 0;
    while (untouched < STACK && stack[untouched] == PAINT) untouched++;
    return STACK - untouched;
}

static void commit(void) {
    bytes[0]++;
    want((last ? sheets_edit(OF_BOTH, 3, bytes, 9) : sheets_add(OF_BOTH, 3, bytes, 9)).refusal == 0, "add or edit");
    sheets_answer answer = sheets_commit(OF_BOTH, last, UINT32_MAX);
    want(answer.refusal == 0, "commit");
    last = answer.value;
}

/* Every call, on a store with this many commits of one sheet. */
static void measure(uint32_t commits, size_t most) {
    size_t largest = 0;
    while (last < commits) commit();
    for (size_t k = 0; k < sizeof calls / sizeof *calls; k++) {
        size_t took = taken(calls[k].call);
        if (took > largest) largest = took;
        if (took > most) printf("%s on %u commits took %zu bytes of stack, more than %zu\n", calls[k].name, commits, took, most);
        want(took <= most, "too much stack");
        want(refusal == 0 || strcmp(calls[k].name, "panel_read") == 0, calls[k].name);
    }
    printf("stack on %u commits: %zu bytes at most\n", commits, largest);
}

int main(void) {
    stack = aligned_alloc(4096, STACK);
    want(stack != NULL && sheets_create_store(OF_STORE).refusal == 0, "create of the store");
    for (uint32_t k = 0; k < 4; k++) want(sheets_create_copy(copies + k * SHEETS_COPY_LEN, SHEETS_COPY_LEN, k + 1).refusal == 0, "create of a copy");
    script[0] = 12, script[1] = 1, script[4] = 1, script[8] = 3; /* log of revision 1, sheet 3 */
    measure(20, 16 << 10);
    measure(60, 272 << 10);
}
