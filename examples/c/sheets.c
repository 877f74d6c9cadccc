/* Two seats at one store: add, commit, update, read back with the revision beside each sheet, two refusals, and the same edit twice; then two calls as one script,
 * a commit that is cut, commits in turn, and what a panel shows.
 * Exits 1 at the first answer that is not as expected.
 *
 *     tools/build sheetstore
 *     cc -Wall -Wextra -Werror -Iinclude examples/c/sheets.c target/staticlib/libsheetstore.a -o target/sheets && target/sheets
 */
#include "sheetstore.h"

#include <stdio.h>
#include <stdlib.h>
#include <string.h>

#define BLOCKS 32
#define ALL_SHEETS UINT32_MAX

static uint8_t store[BLOCKS * SHEETS_BLOCK];
static uint8_t pump_room[SHEETS_COPY_LEN]; /* the working copy of seat 1 */
static uint8_t office[SHEETS_COPY_LEN];    /* the working copy of seat 2 */

/* Ends the program unless an answer is as expected. */
static void expect(const char *what, sheets_answer got, uint32_t refusal, uint32_t value) {
    if (got.refusal != refusal || got.value != value) {
        printf("%s: refusal %u, value %u; expected refusal %u, value %u\n", what, got.refusal, got.value, refusal, value);
        exit(1);
    }
    if (refusal != 0)
        printf("%s: refused, number %u\n", what, refusal);
    else if (value != 0)
        printf("%s: done, %u\n", what, value);
    else
        printf("%s: done\n", what);
}

/* Ends the program unless a cut call has stopped. */
static void expect_stopped(const char *what, sheets_cut_answer got) {
    if (got.refusal != 0 || got.stopped != 1 || got.value != 0) {
        printf("%s: refusal %u, stopped %u, value %u; expected that it stopped\n", what, got.refusal, got.stopped, got.value);
        exit(1);
    }
    printf("%s: stopped\n", what);
}

/* Ends the program unless a part of a buffer holds this text, set by this revision; 0 where the text is a seat's own. */
static void expect_text(const char *what, const uint8_t *buffer, sheets_place part, const char *text, uint32_t revision) {
    if (part.refusal != 0 || part.len != strlen(text) || memcmp(buffer + part.start, text, part.len) != 0 || part.revision != revision) {
        printf("%s: refusal %u, %zu bytes, revision %u; expected \"%s\", revision %u\n", what, part.refusal, part.len, part.revision, text, revision);
        exit(1);
    }
    printf("%s: \"%.*s\", ", what, (int)part.len, (const char *)buffer + part.start);
    if (revision != 0)
        printf("set by revision %u\n", revision);
    else
        printf("the seat's own\n");
}

/* Ends the program unless a sheet has this status, and this revision named it last. */
static void expect_status(const char *what, sheets_standing got, uint32_t status, uint32_t revision) {
    if (got.refusal != 0 || got.status != status || got.revision != revision) {
        printf("%s: refusal %u, status %u, revision %u; expected status %u, revision %u\n", what, got.refusal, got.status, got.revision, status, revision);
        exit(1);
    }
    printf("%s: %u, last named by revision %u\n", what, status, revision);
}

static sheets_answer add(uint8_t *copy, uint32_t sheet, const char *text) {
    return sheets_add(store, sizeof store, copy, SHEETS_COPY_LEN, sheet, (const uint8_t *)text, strlen(text));
}

static sheets_answer edit(uint8_t *copy, uint32_t sheet, const char *text) {
    return sheets_edit(store, sizeof store, copy, SHEETS_COPY_LEN, sheet, (const uint8_t *)text, strlen(text));
}

static sheets_answer commit(uint8_t *copy, uint32_t stamp) {
    return sheets_commit(store, sizeof store, copy, SHEETS_COPY_LEN, stamp, ALL_SHEETS);
}

static sheets_answer commit_in_turn(uint8_t *copy, sheets_turn turn, uint32_t stamp) {
    return sheets_commit_in_turn(store, sizeof store, copy, SHEETS_COPY_LEN, turn, stamp, ALL_SHEETS);
}

static sheets_answer update(uint8_t *copy, uint32_t revision) {
    return sheets_update(store, sizeof store, copy, SHEETS_COPY_LEN, ALL_SHEETS, revision);
}

/* The record of a call. */
static void put_call(uint8_t *record, uint8_t kind, uint8_t seat, uint32_t first, uint32_t second, const char *text) {
    size_t len = strlen(text);
    memset(record, 0, SHEETS_RECORD_LEN);
    record[0] = kind, record[1] = seat;
    record[2] = (uint8_t)len, record[3] = (uint8_t)(len >> 8);
    for (int i = 0; i < 4; i++) record[4 + i] = (uint8_t)(first >> 8 * i), record[8 + i] = (uint8_t)(second >> 8 * i);
    memcpy(record + 16, text, len);
}

static uint32_t number_at(const uint8_t *bytes) {
    return bytes[0] | (uint32_t)bytes[1] << 8 | (uint32_t)bytes[2] << 16 | (uint32_t)bytes[3] << 24;
}

/* The refusal and the value of an answer's record. */
static sheets_answer answer_in(const uint8_t *record) {
    return (sheets_answer){number_at(record), number_at(record + 4)};
}

/* An add and a commit by seat 3, as one script with the copies of all four seats. */
static void replay(void) {
    static uint8_t copies[4 * SHEETS_COPY_LEN], script[2 * SHEETS_RECORD_LEN], answers[2 * SHEETS_RECORD_LEN];
    memcpy(copies, pump_room, sizeof pump_room);
    memcpy(copies + SHEETS_COPY_LEN, office, sizeof office);
    expect("create seat 3's copy", sheets_create_copy(copies + 2 * SHEETS_COPY_LEN, SHEETS_COPY_LEN, 3), 0, 0);
    expect("create seat 4's copy", sheets_create_copy(copies + 3 * SHEETS_COPY_LEN, SHEETS_COPY_LEN, 4), 0, 0);

    put_call(script, 1, 3, 6, 0, "pH 7.2");
    put_call(script + SHEETS_RECORD_LEN, 6, 3, 400, ALL_SHEETS, "");
    sheets_answer all = sheets_replay(script, sizeof script, store, sizeof store, copies, sizeof copies, answers, sizeof answers);
    expect("seat 3 adds sheet 6 and commits, in one script", all, 0, 0);
    expect("the add's answer", answer_in(answers), 0, 0);
    expect("the commit's answer", answer_in(answers + SHEETS_RECORD_LEN), 0, 3);
    expect_text("sheet 6 at revision 3", store, sheets_read(store, sizeof store, 3, 6), "pH 7.2", 3);
    expect_text("sheet 5 at revision 3", store, sheets_read(store, sizeof store, 3, 5), "stop after 20 s", 2);
}

/* A commit that stops after its content block, as if contact were lost there. What it leaves is cleared, and the commit made again. */
static void cut(void) {
    expect("seat 1 adds sheet 7", add(pump_room, 7, "flow 12 l/h"), 0, 0);
    expect_stopped("seat 1 commits, cut after one write", sheets_commit_cut(store, sizeof store, pump_room, sizeof pump_room, 500, ALL_SHEETS, 1));
    expect_text("sheet 6 at revision 3", store, sheets_read(store, sizeof store, 3, 6), "pH 7.2", 3);
    expect("seat 1 commits, the store has a tail", commit(pump_room, 500), SHEETS_REFUSED_TAIL, 0);
    expect_stopped("clear, cut before its one write", sheets_clear_cut(store, sizeof store, 0));
    expect("clear", sheets_clear(store, sizeof store), 0, 0);
    expect("seat 1 commits", commit(pump_room, 500), 0, 4);
    expect_text("sheet 7 at revision 4", store, sheets_read(store, sizeof store, 4, 7), "flow 12 l/h", 4);
}

/* Both seats ask for the turn; seat 2 waits until seat 1 gives it back. */
static void take_turns(void) {
    sheets_turn turn = {0, 0, 0, 0}; /* free */
    expect("seat 1 asks, the holder is", sheets_turn_ask(&turn, 1), 0, 1);
    expect("seat 2 asks, the holder is", sheets_turn_ask(&turn, 2), 0, 1);
    expect("seat 2 adds sheet 8", add(office, 8, "chlorine 0.6 mg/l"), 0, 0);
    expect("seat 2 commits in turn, it does not hold it", commit_in_turn(office, turn, 600), SHEETS_REFUSED_NOT_HOLDING, 0);
    expect("seat 1 gives back, the holder is", sheets_turn_give(&turn, 1), 0, 2);
    expect("seat 2 commits in turn", commit_in_turn(office, turn, 600), 0, 5);
    expect_text("sheet 8 at revision 5", store, sheets_read(store, sizeof store, 5, 8), "chlorine 0.6 mg/l", 5);
    expect("the planner takes the turn back, nobody waits", sheets_turn_take(&turn), 0, 0);
}

/* A panel's reading of a sheet, up to a revision. */
static sheets_place panel(uint32_t revision, uint32_t sheet) {
    return sheets_panel_read(store, sizeof store, revision, sheet);
}

/* Ends the program unless a panel has nothing to show of a sheet. */
static void expect_none(const char *what, sheets_place got) {
    expect(what, (sheets_answer){got.refusal, 0}, SHEETS_REFUSED_MISSING, 0);
}

/* The panel at the pool shows what was released, the engineers see all. */
static void release(void) {
    expect_none("the panel's sheet 5, nothing is released", panel(5, 5));
    expect("seat 2 releases revision 3", sheets_release(store, sizeof store, 3, 2, 700), 0, 0);
    expect_text("the panel's sheet 5", store, panel(5, 5), "stop after 20 s", 2);
    expect_none("the panel's sheet 8, which is not released", panel(5, 8));
    expect_text("sheet 8 at revision 5", store, sheets_read(store, sizeof store, 5, 8), "chlorine 0.6 mg/l", 5);
    expect("seat 1 releases revision 3 too", sheets_release(store, sizeof store, 3, 1, 701), SHEETS_REFUSED_RELEASED, 0);
    expect("seat 1 releases revision 1", sheets_release(store, sizeof store, 1, 1, 701), 0, 0);
    expect_text("the panel's sheet 5 up to revision 2", store, panel(2, 5), "stop after 30 s", 1);
    expect_text("the panel's sheet 5, still", store, panel(5, 5), "stop after 20 s", 2);
}

int main(void) {
    expect("create the store", sheets_create_store(store, sizeof store), 0, 0);
    expect("create seat 1's copy", sheets_create_copy(pump_room, sizeof pump_room, 1), 0, 0);
    expect("create seat 2's copy", sheets_create_copy(office, sizeof office, 2), 0, 0);

    expect("seat 1 adds sheet 5", add(pump_room, 5, "stop after 30 s"), 0, 0);
    expect("seat 1 commits", commit(pump_room, 100), 0, 1);
    expect("seat 2 updates to 1", update(office, 1), 0, 0);

    expect("seat 2 edits sheet 5", edit(office, 5, "stop after 20 s"), 0, 0);
    expect("seat 2 commits", commit(office, 200), 0, 2);
    expect("seat 1 edits sheet 5 too", edit(pump_room, 5, "stop after 60 s"), 0, 0);
    expect_status("status at seat 1, needs merge", sheets_status(store, sizeof store, pump_room, sizeof pump_room, 5), 4, 2);
    expect("seat 1 commits, out of date", commit(pump_room, 300), 11, 0);
    expect("seat 1 updates to 2, a conflict", update(pump_room, 2), 12, 0);

    expect_text("sheet 5 at revision 1", store, sheets_read(store, sizeof store, 1, 5), "stop after 30 s", 1);
    expect_text("sheet 5 at revision 2", store, sheets_read(store, sizeof store, 2, 5), "stop after 20 s", 2);
    sheets_place own = sheets_show(store, sizeof store, pump_room, sizeof pump_room, 5);
    expect_text("what seat 1 sees", own.buffer == 1 ? pump_room : store, own, "stop after 60 s", 0);

    expect("seat 1 types what seat 2 committed", edit(pump_room, 5, "stop after 20 s"), 0, 0);
    expect("seat 1 updates to 2, they agree", update(pump_room, 2), 0, 0);
    expect("seat 1 commits, nothing pending", commit(pump_room, 300), 10, 0);

    sheets_log_entry entry = sheets_log(store, sizeof store, 2, 5);
    if (entry.refusal != 0 || entry.seat != 2 || entry.stamp != 200 || entry.changes != 1 || entry.action != 2) {
        printf("log of revision 2: not as committed\n");
        return 1;
    }
    printf("log of revision 2: seat %u, stamp %u, action %u\n", entry.seat, entry.stamp, entry.action);
    replay();
    cut();
    take_turns();
    release();
    return 0;
}
