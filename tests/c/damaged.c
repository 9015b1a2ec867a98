#include "expect.h"
#include "rows.h"
#include "specimen.h"
#include <string.h>

enum { TABLE_SIZE = 59, KEY_TABLE_SIZE = 19 };

static int same(rustamgheb_answer a, rustamgheb_answer b) {
    return a.number == b.number && a.offset == b.offset && a.depth == b.depth && a.length == b.length;
}

/* That a faulty table gets this answer from each function that reads it, and that nothing is written. */
static void expect_fault(bytes table, uint32_t number, uint32_t offset, const char *what, size_t which) {
    outcome o = decide_in(table, KEY_40_RIGHT_2, SHEET_ROOM, DERIVATION_ROOM);
    expect_answer(o.answer, number, offset, 0, 0, what, which);
    expect(sheet_untouched(o, 0, SHEET_ROOM) && written_untouched(o, 0, DERIVATION_ROOM), what, which);
    o = translate_in(table, KEY_TABLE_ROOM);
    expect_answer(o.answer, number, offset, 0, 0, what, which);
    expect(written_untouched(o, 0, KEY_TABLE_ROOM), what, which);
    expect_answer(check(table, KEY_40_RIGHT_2, DERIVATION_P3).answer, number, offset, 0, 0, what, which);
}

/* Each number of T and of P9 has one byte: with only n bytes there, the number at n is cut. What is left of a request or of
   a derivation is none. */
static void test_cut(void) {
    for (size_t n = 0; n < TABLE_SIZE; n++) expect_fault((bytes){TABLE.bytes, n}, 2, (uint32_t)n, "T cut", n);
    for (size_t n = 0; n < KEY_TABLE_SIZE; n++)
        expect_answer(decide_by_keys((bytes){KEY_TABLE_P9.bytes, n}, KEYS_40_RIGHT_2).answer, 2, (uint32_t)n, 0, 0, "P9 cut", n);
    for (size_t n = 0; n < 7; n++) expect_answer(decide_in(TABLE, (bytes){PATH_3_RIGHT_3.bytes, n}, SHEET_ROOM, DERIVATION_ROOM).answer, 8, 0, 0, 0, "a request cut", n);
    for (size_t n = 0; n < 4; n++) expect_answer(decide_by_keys(KEY_TABLE_P9, (bytes){KEYS_40_RIGHT_2.bytes, n}).answer, 8, 0, 0, 0, "a key request cut", n);
    for (size_t n = 0; n < 8; n++) expect_answer(check(TABLE, KEY_40_RIGHT_2, (bytes){DERIVATION_P3.bytes, n}).answer, 12, 0, 0, 0, "a derivation cut", n);
}

/* T with one byte changed, where the paper says what comes of it. */
static void test_faults(void) {
    uint8_t t[TABLE_SIZE];
    bytes table = {t, TABLE_SIZE};
    for (uint32_t byte = 0; byte < 256; byte++) {
        memcpy(t, TABLE.bytes, TABLE_SIZE);
        t[0] = (uint8_t)byte;
        if (byte != 1) expect_fault(table, 7, 0, "another version", byte);
        memcpy(t, TABLE.bytes, TABLE_SIZE);
        t[1] = (uint8_t)byte;
        if (64 < byte) expect_fault(table, 4, 1, "more than 64 spaces", byte);
        memcpy(t, TABLE.bytes, TABLE_SIZE);
        t[58] = (uint8_t)byte;
        if (15 < byte) expect_fault(table, byte < 128 ? 4 : 2, 58, "a depth over 15, or cut", byte);
    }
    static const struct {
        size_t at;
        uint8_t byte;
        uint32_t number;
    } changes[] = {
        {2, 0, 4},    /* the key 0 */
        {3, 10, 5},   /* space 1 has the key of space 0 */
        {4, 20, 5},   /* space 2 has the key of space 1 */
        {6, 3, 4},    /* a binding of space 3, and there are three spaces */
        {7, 0, 4},    /* the base name 0 */
        {8, 2, 4},    /* a target that begins with 2 */
        {14, 0x80, 3}, /* 80 00 is not the shortest form of 0 */
        {16, 1, 5},   /* space 0 binds the base name 1 twice */
        {19, 5, 4},   /* a path of five names */
        {37, 3, 4},   /* an access record of space 3 */
        {39, 33, 4},  /* a right over 32 */
        {39, 0, 4},   /* the right 0 */
    };
    for (size_t i = 0; i < sizeof changes / sizeof changes[0]; i++) {
        memcpy(t, TABLE.bytes, TABLE_SIZE);
        t[changes[i].at] = changes[i].byte;
        expect_fault(table, changes[i].number, (uint32_t)changes[i].at, "a change whose fault is known", i);
    }
}

/* A table that may be good or not, and key 40's request for right 2: what the functions answer agrees, as the scope paper
   asks of them together. A faulty table has the same fault for each; a grant comes with a derivation that the checker
   accepts at that depth; and the key rules over the translation say the same. */
static void expect_agreement(bytes table, size_t which) {
    outcome o = decide_in(table, KEY_40_RIGHT_2, SHEET_ROOM, DERIVATION_ROOM);
    rustamgheb_answer decided = o.answer;
    uint8_t written[KEY_TABLE_ROOM];
    memcpy(written, o.written, DERIVATION_ROOM);
    expect(decided.number <= 9 || decided.number == 11, "an answer of the list", which);
    if (decided.number != 0 && decided.number != 11) {
        expect(decided.number != 9 && decided.offset <= table.length && sheet_untouched(o, 0, SHEET_ROOM), "a refusal touches nothing", which);
    }
    if (decided.number == 0) {
        rustamgheb_answer checked = check(table, KEY_40_RIGHT_2, (bytes){written, decided.length}).answer;
        expect_answer(checked, 0, 0, decided.depth, 0, "the checker accepts what the decision found", which);
    } else if (decided.number <= 8) {
        expect(same(check(table, KEY_40_RIGHT_2, DERIVATION_P3).answer, decided), "decide and check find the same fault", which);
    } else {
        expect_answer(check(table, KEY_40_RIGHT_2, DERIVATION_P3).answer, 12, 0, 0, 0, "nothing shows what is denied", which);
    }
    o = translate_in(table, KEY_TABLE_ROOM);
    if (o.answer.number != 0) {
        expect(same(o.answer, decided), "decide and translate find the same fault", which);
        return;
    }
    if (decided.number == 8) return;
    memcpy(written, o.written, o.answer.length);
    bytes asked = BYTES(40, table.bytes[2], 7, 2);
    rustamgheb_answer by_keys = decide_by_keys((bytes){written, o.answer.length}, asked).answer;
    expect(by_keys.number == decided.number && by_keys.depth == decided.depth, "the key rules say the same", which);
}

static void test_changed(void) {
    uint8_t t[TABLE_SIZE];
    for (size_t at = 0; at < TABLE_SIZE; at++) {
        for (size_t byte = 0; byte < 256; byte++) {
            memcpy(t, TABLE.bytes, TABLE_SIZE);
            t[at] = (uint8_t)byte;
            expect_agreement((bytes){t, TABLE_SIZE}, 256 * at + byte);
        }
    }
}

/* P9 with each byte changed: answers of the list, and offsets within the bytes. */
static void test_changed_keys(void) {
    uint8_t k[KEY_TABLE_SIZE];
    for (size_t at = 0; at < KEY_TABLE_SIZE; at++) {
        for (size_t byte = 0; byte < 256; byte++) {
            memcpy(k, KEY_TABLE_P9.bytes, KEY_TABLE_SIZE);
            k[at] = (uint8_t)byte;
            rustamgheb_answer a = decide_by_keys((bytes){k, KEY_TABLE_SIZE}, KEYS_40_RIGHT_2).answer;
            expect(a.number == 0 || a.number == 11 || (2 <= a.number && a.number <= 7 && a.number != 5), "an answer of the list", 256 * at + byte);
            expect(a.offset <= KEY_TABLE_SIZE && a.depth <= 15 && a.length == 0, "values within their ranges", 256 * at + byte);
        }
    }
}

void test_damaged(void) {
    run_test("everything cut at each byte", test_cut);
    run_test("changes of the specimen whose fault is known", test_faults);
    run_test("the specimen with each byte changed", test_changed);
    run_test("the key table with each byte changed", test_changed_keys);
}
