#include "specimen.h"
#include "expect.h"
#include "rows.h"
#include <string.h>

static outcome decide(bytes request) {
    return decide_in(TABLE, request, SHEET_ROOM, DERIVATION_ROOM);
}

/* That P1's sheet was filled: 20, 30, 30, 40, 0, 10, and nothing past it. */
static void expect_sheet(outcome o, const char *what) {
    static const uint32_t meant[6] = {20, 30, 30, 40, 0, 10};
    expect(memcmp(o.sheet, meant, sizeof meant) == 0 && sheet_untouched(o, 6, SHEET_ROOM), what, 1);
}

/* That a grant of this depth comes with a derivation that is accepted at this depth, and with the sheet. */
static void expect_granted(bytes request, uint32_t depth, const char *what) {
    outcome o = decide(request);
    uint32_t length = o.answer.length;
    expect_answer(o.answer, 0, 0, depth, length, what, 1);
    expect(0 < length && length <= DERIVATION_ROOM && written_untouched(o, length, DERIVATION_ROOM), what, 2);
    expect_sheet(o, what);
    uint8_t derivation[DERIVATION_ROOM];
    memcpy(derivation, o.written, sizeof derivation);
    expect_answer(check(TABLE, request, (bytes){derivation, length}).answer, 0, 0, depth, 0, what, 3);
}

/* That a refusal fills the sheet and leaves the derivation alone. */
static void expect_refused(bytes request, uint32_t number, const char *what) {
    outcome o = decide(request);
    expect_answer(o.answer, number, 0, 0, 0, what, 1);
    expect(written_untouched(o, 0, DERIVATION_ROOM), what, 2);
    expect_sheet(o, what);
}

static void expect_key_table(bytes table, bytes key_table, const char *what) {
    outcome o = translate_in(table, KEY_TABLE_ROOM);
    expect_answer(o.answer, 0, 0, 0, (uint32_t)key_table.length, what, 1);
    expect(memcmp(o.written, key_table.bytes, key_table.length) == 0 && written_untouched(o, key_table.length, KEY_TABLE_ROOM), what, 2);
}

static void test_rows(void) {
    expect_granted(KEY_20_RIGHT_2, 1, "P1, P2");
    expect_answer(check(TABLE, KEY_20_RIGHT_2, DERIVATION_P2).answer, 0, 0, 1, 0, "P2, the derivation of the paper", 0);
    expect_granted(KEY_40_RIGHT_2, 0, "P1, P3");
    expect_answer(check(TABLE, KEY_40_RIGHT_2, DERIVATION_P3).answer, 0, 0, 0, 0, "P3, the derivation of the paper", 0);
    expect_answer(check(TABLE, KEY_40_RIGHT_2, DERIVATION_P4).answer, 12, 0, 0, 0, "P4", 0);
    expect_refused(KEY_40_RIGHT_3, 11, "P5");
    expect_granted(PATH_3_RIGHT_3, 0, "P6");
    expect_refused(PATH_5_RIGHT_3, 10, "P7");
    expect_refused(KEY_10_RIGHT_2, 11, "P8");
    expect_key_table(TABLE, KEY_TABLE_P9, "P9");
    expect_key_table(EMPTY_TABLE, EMPTY_KEY_TABLE, "P10");
}

/* P2, P3 and P5 by the key table, and the derivations of another request. */
static void test_by_keys(void) {
    expect_answer(decide_by_keys(KEY_TABLE_P9, KEYS_20_RIGHT_2).answer, 0, 0, 1, 0, "P2 by keys", 0);
    expect_answer(decide_by_keys(KEY_TABLE_P9, KEYS_40_RIGHT_2).answer, 0, 0, 0, 0, "P3 by keys", 0);
    expect_answer(decide_by_keys(KEY_TABLE_P9, KEYS_40_RIGHT_3).answer, 11, 0, 0, 0, "P5 by keys", 0);
    expect_answer(check(TABLE, KEY_40_RIGHT_2, DERIVATION_P2).answer, 12, 0, 0, 0, "P2's derivation for another subject", 0);
    expect_answer(check(TABLE, PATH_5_RIGHT_3, DERIVATION_P2).answer, 12, 0, 0, 0, "a derivation for a subject without a meaning", 0);
}

/* "No bytes at all: Cut at 0. T with one byte more: Extra at 59. T less its last byte: Cut at 58." */
static void test_run_only(void) {
    uint8_t more[60] = {0};
    memcpy(more, TABLE.bytes, 59);
    expect_answer(translate_in(NONE, KEY_TABLE_ROOM).answer, 2, 0, 0, 0, "no bytes at all", 0);
    expect_answer(translate_in((bytes){more, 60}, KEY_TABLE_ROOM).answer, 6, 59, 0, 0, "one byte more", 0);
    expect_answer(translate_in((bytes){more, 58}, KEY_TABLE_ROOM).answer, 2, 58, 0, 0, "less its last byte", 0);
}

void test_specimen(void) {
    run_test("P1 to P10", test_rows);
    run_test("the specimen by keys, and derivations of another request", test_by_keys);
    run_test("the specimen's run-only rows", test_run_only);
}
