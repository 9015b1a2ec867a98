#include "lent.h"
#include "expect.h"
#include <string.h>

/* Each buffer stands between two guards in an area of its own. The bytes of an input are copied there, so that reading
   past its end would read a guard, and writing past an output's end would change one. */
enum { GUARD = 64, MOST = 65536, GUARDED = 0x3C };

typedef struct {
    _Alignas(16) uint8_t area[GUARD + MOST + GUARD];
    size_t length;
} guarded;

static guarded inputs[3], sheets, outputs;
static size_t calls;

static void *put(guarded *g, bytes b) {
    memset(g->area, GUARDED, GUARD);
    if (0 < b.length) memcpy(g->area + GUARD, b.bytes, b.length);
    memset(g->area + GUARD + b.length, GUARDED, GUARD);
    g->length = b.length;
    return b.length == 0 ? NULL : g->area + GUARD;
}

static int guards_stand(const guarded *g) {
    for (size_t i = 0; i < GUARD; i++) {
        if (g->area[i] != GUARDED || g->area[GUARD + g->length + i] != GUARDED) return 0;
    }
    return 1;
}

/* That an input is as it was, and its guards too. */
static void expect_kept(int which, bytes b) {
    int kept = b.length == 0 || memcmp(inputs[which].area + GUARD, b.bytes, b.length) == 0;
    expect(kept && guards_stand(&inputs[which]), "an input stays as it was", calls);
}

outcome decide_over(bytes table, bytes request, bytes sheet, bytes derivation) {
    const uint8_t *t = put(&inputs[0], table), *r = put(&inputs[1], request);
    uint32_t *s = put(&sheets, sheet);
    uint8_t *d = put(&outputs, derivation);
    calls++;
    outcome o = {rustamgheb_decide(t, table.length, r, request.length, s, sheet.length / 4, d, derivation.length), s, d};
    expect_kept(0, table), expect_kept(1, request);
    expect(guards_stand(&sheets) && guards_stand(&outputs), "decide keeps within its buffers", calls);
    return o;
}

outcome translate_over(bytes table, bytes key_table) {
    const uint8_t *t = put(&inputs[0], table);
    uint8_t *k = put(&outputs, key_table);
    calls++;
    outcome o = {rustamgheb_translate(t, table.length, k, key_table.length), NULL, k};
    expect_kept(0, table);
    expect(guards_stand(&outputs), "translate keeps within its buffer", calls);
    return o;
}

outcome check(bytes table, bytes request, bytes derivation) {
    const uint8_t *t = put(&inputs[0], table), *r = put(&inputs[1], request), *d = put(&inputs[2], derivation);
    calls++;
    outcome o = {rustamgheb_check(t, table.length, r, request.length, d, derivation.length), NULL, NULL};
    expect_kept(0, table), expect_kept(1, request), expect_kept(2, derivation);
    return o;
}

outcome decide_by_keys(bytes key_table, bytes key_request) {
    const uint8_t *t = put(&inputs[0], key_table), *r = put(&inputs[1], key_request);
    calls++;
    outcome o = {rustamgheb_decide_by_keys(t, key_table.length, r, key_request.length), NULL, NULL};
    expect_kept(0, key_table), expect_kept(1, key_request);
    return o;
}

/* So many bytes that stand in a buffer before a call. */
static bytes before(size_t length) {
    static uint8_t filled[MOST];
    memset(filled, BEFORE, length);
    return (bytes){filled, length};
}

outcome decide_in(bytes table, bytes request, size_t sheet_room, size_t derivation_room) {
    return decide_over(table, request, before(4 * sheet_room), before(derivation_room));
}

outcome translate_in(bytes table, size_t room) {
    return translate_over(table, before(room));
}

int sheet_untouched(outcome o, size_t from, size_t to) {
    for (size_t i = from; i < to; i++) {
        if (o.sheet[i] != BEFORE_NUMBER) return 0;
    }
    return 1;
}

int written_untouched(outcome o, size_t from, size_t to) {
    for (size_t i = from; i < to; i++) {
        if (o.written[i] != BEFORE) return 0;
    }
    return 1;
}
