#include "expect.h"
#include "rows.h"
#include "specimen.h"
#include <string.h>

/* A buffer one short of what is wanted, and shorter ones, down to none, which is passed as NULL. */
static void test_short_buffers(void) {
    for (size_t room = 0; room < SHEET_ROOM; room++) {
        outcome o = decide_in(TABLE, KEY_20_RIGHT_2, room, DERIVATION_ROOM);
        expect_answer(o.answer, 9, 0, 0, 0, "a short sheet", room);
        expect(sheet_untouched(o, 0, room) && written_untouched(o, 0, DERIVATION_ROOM), "a short sheet", room);
    }
    for (size_t room = 0; room < DERIVATION_ROOM; room++) {
        outcome o = decide_in(TABLE, KEY_20_RIGHT_2, SHEET_ROOM, room);
        expect_answer(o.answer, 9, 0, 0, 0, "a short derivation", room);
        expect(sheet_untouched(o, 0, SHEET_ROOM) && written_untouched(o, 0, room), "a short derivation", room);
    }
    for (size_t room = 0; room < KEY_TABLE_ROOM; room = room < 32 ? room + 1 : 2 * room - 1) {
        outcome o = translate_in(TABLE, room);
        expect_answer(o.answer, 9, 0, 0, 0, "a short key table", room);
        expect(written_untouched(o, 0, room), "a short key table", room);
    }
    outcome o = translate_in(TABLE, KEY_TABLE_ROOM - 1);
    expect_answer(o.answer, 9, 0, 0, 0, "a key table one byte short", 0);
    expect(written_untouched(o, 0, KEY_TABLE_ROOM - 1), "a key table one byte short", 0);
}

static void test_long_buffers(void) {
    outcome o = decide_in(TABLE, KEY_20_RIGHT_2, SHEET_ROOM + 100, DERIVATION_ROOM + 100);
    expect_answer(o.answer, 0, 0, 1, o.answer.length, "long buffers", 0);
    expect(sheet_untouched(o, 6, SHEET_ROOM + 100) && written_untouched(o, o.answer.length, DERIVATION_ROOM + 100), "long buffers", 0);
    o = translate_in(TABLE, KEY_TABLE_ROOM + 1000);
    expect_answer(o.answer, 0, 0, 0, 19, "a long key table", 0);
    expect(written_untouched(o, 19, KEY_TABLE_ROOM + 1000), "a long key table", 0);
}

/* Everything absent, and absent one by one. */
static void test_absent(void) {
    expect_answer(decide_in(NONE, NONE, 0, 0).answer, 2, 0, 0, 0, "decide on nothing", 0);
    expect_answer(check(NONE, NONE, NONE).answer, 2, 0, 0, 0, "check on nothing", 0);
    expect_answer(translate_in(NONE, 0).answer, 2, 0, 0, 0, "translate on nothing", 0);
    expect_answer(decide_by_keys(NONE, NONE).answer, 2, 0, 0, 0, "decide by keys on nothing", 0);
    expect_answer(decide_in(TABLE, NONE, SHEET_ROOM, DERIVATION_ROOM).answer, 8, 0, 0, 0, "no request", 0);
    expect_answer(check(TABLE, NONE, DERIVATION_P2).answer, 8, 0, 0, 0, "no request to check", 0);
    expect_answer(check(TABLE, KEY_20_RIGHT_2, NONE).answer, 12, 0, 0, 0, "no derivation", 0);
    expect_answer(decide_by_keys(KEY_TABLE_P9, NONE).answer, 8, 0, 0, 0, "no key request", 0);
}

/* "Order: the table faults, then Request, Room, Unnamed": two faults at once, and an empty table, which has no owner. */
static void test_order(void) {
    expect_answer(decide_in(KEY_TABLE_P9, NONE, 0, 0).answer, 7, 0, 0, 0, "the table before the request", 0);
    expect_answer(decide_in(TABLE, NONE, 0, 0).answer, 8, 0, 0, 0, "the request before the room", 0);
    expect_answer(decide_in(TABLE, PATH_5_RIGHT_3, 0, 0).answer, 9, 0, 0, 0, "the room before the name", 0);
    expect_answer(translate_in(KEY_TABLE_P9, 0).answer, 7, 0, 0, 0, "the table before the room", 0);
    expect_answer(check(TABLE, NONE, NONE).answer, 8, 0, 0, 0, "the request before the derivation", 0);
    expect_answer(decide_by_keys(TABLE, NONE).answer, 7, 0, 0, 0, "the key table before the request", 0);
    expect_answer(decide_in(EMPTY_TABLE, KEY_20_RIGHT_2, SHEET_ROOM, DERIVATION_ROOM).answer, 8, 0, 0, 0, "no space 0", 0);
}

/* One byte over a limit, and just at it, where something else is wrong. */
static void test_limits(void) {
    static uint8_t table[32769], key_table[16385], request[65], derivation[513];
    memcpy(table, TABLE.bytes, 59);
    memcpy(key_table, KEY_TABLE_P9.bytes, 19);
    memcpy(request, KEY_20_RIGHT_2.bytes, 5);
    memcpy(derivation, DERIVATION_P2.bytes, 4);
    expect_answer(translate_in((bytes){table, 32769}, KEY_TABLE_ROOM).answer, 1, 0, 0, 0, "a long table", 0);
    expect_answer(translate_in((bytes){table, 32768}, KEY_TABLE_ROOM).answer, 6, 59, 0, 0, "a table at the limit", 0);
    expect_answer(decide_by_keys((bytes){key_table, 16385}, KEYS_20_RIGHT_2).answer, 1, 0, 0, 0, "a long key table", 0);
    expect_answer(decide_by_keys((bytes){key_table, 16384}, KEYS_20_RIGHT_2).answer, 6, 19, 0, 0, "a key table at the limit", 0);
    expect_answer(check(TABLE, (bytes){request, 65}, DERIVATION_P2).answer, 8, 0, 0, 0, "a long request", 0);
    expect_answer(check(TABLE, (bytes){request, 6}, DERIVATION_P2).answer, 8, 0, 0, 0, "a request with a byte more", 0);
    expect_answer(check(TABLE, KEY_20_RIGHT_2, (bytes){derivation, 513}).answer, 12, 0, 0, 0, "a long derivation", 0);
    expect_answer(check(TABLE, KEY_20_RIGHT_2, (bytes){derivation, 5}).answer, 12, 0, 0, 0, "a derivation with a byte more", 0);
}

void test_rooms(void) {
    run_test("short buffers", test_short_buffers);
    run_test("long buffers", test_long_buffers);
    run_test("absent inputs and buffers", test_absent);
    run_test("which refusal comes first", test_order);
    run_test("limits of bytes", test_limits);
}
