#include "expect.h"
#include "full.h"
#include "rows.h"
#include "specimen.h"
#include "stack.h"
#include <stdio.h>

/* What a callback has: 8 KiB of stack. */
enum { STACK = 8192 };

/* What is shown to the functions that are measured, and what they answer. */
static written table, request, key_table, key_request, wide;
static const written *shown_table = &table, *shown_request = &request, *shown_key_table = &key_table, *shown_key_request = &key_request;
static uint32_t sheet[SHEET_ROOM];
static uint8_t derivation[DERIVATION_ROOM], translated[KEY_TABLE_ROOM];
static bytes shown_derivation = {derivation, 0};
static rustamgheb_answer answer;

static void call_decide(void) {
    answer = rustamgheb_decide(shown_table->bytes, shown_table->length, shown_request->bytes, shown_request->length, sheet, SHEET_ROOM, derivation, DERIVATION_ROOM);
}

static void call_check(void) {
    answer = rustamgheb_check(shown_table->bytes, shown_table->length, shown_request->bytes, shown_request->length, shown_derivation.bytes, shown_derivation.length);
}

static void call_translate(void) {
    answer = rustamgheb_translate(shown_table->bytes, shown_table->length, translated, KEY_TABLE_ROOM);
}

static void call_decide_by_keys(void) {
    answer = rustamgheb_decide_by_keys(shown_key_table->bytes, shown_key_table->length, shown_key_request->bytes, shown_key_request->length);
}

/* The most stack that each function was seen to take. */
static size_t decided, checked, translation, by_keys;

static void measure(size_t *most, void (*call)(void)) {
    size_t taken = stack_of(call);
    if (*most < taken) *most = taken;
}

static void measure_all(void) {
    measure(&decided, call_decide);
    measure(&checked, call_check);
    measure(&translation, call_translate);
    measure(&by_keys, call_decide_by_keys);
}

/* Good tables of full size. */
static void test_answers(void) {
    written denied;
    write_denied_request(&denied);
    shown_request = &denied;
    measure(&decided, call_decide);
    expect_answer(answer, 11, 0, 0, 0, "space 17 has nothing", 0);
    shown_request = &request;
    measure(&decided, call_decide);
    expect_answer(answer, 0, 0, 0, answer.length, "space 16 has depth 0", 0);
    shown_derivation.length = answer.length;
    measure(&checked, call_check);
    expect_answer(answer, 0, 0, 0, 0, "its derivation is accepted", 0);
    measure(&translation, call_translate);
    /* the version, two counts of two bytes, 256 records of 15 bytes and 512 of 20: the longest key table that there is */
    expect_answer(answer, 0, 0, 0, 1 + 2 + 256 * 15 + 2 + 512 * 20, "all records are translated", 0);
    measure(&by_keys, call_decide_by_keys);
    expect_answer(answer, 0, 0, 0, 0, "the 16th key has depth 0", 0);
}

/* The translated table grants and denies as the table does. */
static void test_translated(void) {
    written asked;
    call_translate();
    bytes keys = {translated, answer.length};
    write_translated_request(&asked);
    expect_answer(decide_by_keys(keys, (bytes){asked.bytes, asked.length}).answer, 0, 0, 0, 0, "the key of space 16", 0);
    write_translated_denied_request(&asked);
    expect_answer(decide_by_keys(keys, (bytes){asked.bytes, asked.length}).answer, 11, 0, 0, 0, "the key of space 17", 0);
}

/* A number of five bytes, which is out of place nearly everywhere, is what takes most to read: it is put at each byte of the
   last records of each section, of the requests and of the derivation. */
static void test_wide(void) {
    enum { BACK = 45 };
    written list;
    for (size_t section = 0; section < 4; section++) {
        for (size_t back = 1; back <= BACK; back++) {
            write_wide(&wide, &table, table.ends[section] - back);
            shown_table = &wide;
            measure(&decided, call_decide);
            measure(&checked, call_check);
            measure(&translation, call_translate);
            if (2 <= section) expect(2 <= answer.number && answer.number <= 4, "a number out of place in an access record or a delegation", back);
            write_wide(&wide, &key_table, key_table.ends[section] - back);
            shown_key_table = &wide;
            measure(&by_keys, call_decide_by_keys);
            shown_table = &table, shown_key_table = &key_table;
        }
    }
    for (size_t at = 0; at < request.length; at++) {
        write_wide(&wide, &request, at);
        shown_request = &wide;
        measure(&decided, call_decide);
        measure(&checked, call_check);
        expect_answer(answer, 8, 0, 0, 0, "a number out of place in the request", at);
    }
    shown_request = &request;
    for (size_t at = 0; at < key_request.length; at++) {
        write_wide(&wide, &key_request, at);
        shown_key_request = &wide;
        measure(&by_keys, call_decide_by_keys);
    }
    shown_key_request = &key_request;
    call_decide();
    list.length = answer.length;
    for (size_t i = 0; i < list.length; i++) list.bytes[i] = derivation[i];
    for (size_t at = 0; at < list.length; at++) {
        write_wide(&wide, &list, at);
        shown_derivation = (bytes){wide.bytes, wide.length};
        measure(&checked, call_check);
        expect_answer(answer, 12, 0, 0, 0, "a number out of place in the derivation", at);
    }
    shown_derivation = (bytes){derivation, list.length};
    measure_all();
}

static void expect_stack(size_t taken, const char *what) {
    printf("%s takes %zu bytes of stack, of %d\n", what, taken, STACK);
    expect(0 < taken && taken <= STACK, "the stack is enough", taken);
}

static void test_decide(void) { expect_stack(decided, "rustamgheb_decide"); }
static void test_check(void) { expect_stack(checked, "rustamgheb_check"); }
static void test_translate(void) { expect_stack(translation, "rustamgheb_translate"); }
static void test_decide_by_keys(void) { expect_stack(by_keys, "rustamgheb_decide_by_keys"); }

void test_full_size(void) {
    write_full_table(&table);
    write_full_request(&request);
    write_full_key_table(&key_table);
    write_full_key_request(&key_request);
    run_test("answers at full size", test_answers);
    run_test("the translation of a table of full size", test_translated);
    run_test("numbers of five bytes in every kind of record", test_wide);
    run_test("the decision's stack", test_decide);
    run_test("the checker's stack", test_check);
    run_test("the translation's stack", test_translate);
    run_test("the key decision's stack", test_decide_by_keys);
}
