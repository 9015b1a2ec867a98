#include "full.h"
#include <string.h>

enum { SPACES = 64, ACCESSES = 256, DELEGATIONS = 512, OBJECT = 65535, RIGHT = 32, DEEPEST = 15 };

/* What each space calls the next one, the owner (space 0), the one four further on, and itself. */
enum { NEXT = 65535, OWNER = 65534, FAR = 65533, HERE = 65532 };

static const uint32_t to_far[4] = {NEXT, NEXT, NEXT, NEXT};
static const uint32_t to_owner[4] = {OWNER, OWNER, OWNER, OWNER};
static const uint32_t to_next[4] = {HERE, HERE, HERE, NEXT};
static const uint32_t to_first[4] = {OWNER, OWNER, OWNER, NEXT};
static const uint32_t to_sixteenth[4] = {FAR, FAR, FAR, FAR};

static void put(written *out, uint32_t value) {
    while (127 < value) {
        out->bytes[out->length++] = (uint8_t)(128 + value % 128);
        value = value / 128;
    }
    out->bytes[out->length++] = (uint8_t)value;
}

static uint32_t key(uint32_t space) {
    return 4294967295u - space % SPACES;
}

static void put_path(written *out, uint32_t length, const uint32_t *names) {
    put(out, length);
    for (uint32_t i = 0; i < length; i++) put(out, names[i]);
}

static void put_name(written *out, uint32_t space, uint32_t length, const uint32_t *names) {
    put(out, 1), put(out, space), put_path(out, length, names);
}

static void put_use(written *out) {
    put(out, OBJECT), put(out, RIGHT);
}

static void put_spaces(written *out) {
    put(out, SPACES);
    for (uint32_t i = 0; i < SPACES; i++) put(out, key(i));
    out->ends[0] = out->length;
}

static void put_bindings(written *out) {
    put(out, 4 * SPACES);
    for (uint32_t i = 0; i < SPACES; i++) {
        put(out, i), put(out, NEXT), put(out, 0), put(out, key(i + 1));
        put(out, i), put(out, OWNER), put_name(out, 0, 0, NULL);
        put(out, i), put(out, HERE), put_name(out, i, 0, NULL);
        put(out, i), put(out, FAR), put_name(out, i, 4, to_far);
    }
    out->ends[1] = out->length;
}

/* Each gives space 1 depth 15. */
static void put_accesses(written *out) {
    put(out, ACCESSES);
    for (uint32_t i = 0; i < ACCESSES; i++) put(out, 0), put_use(out), put_path(out, 4, to_first), put(out, DEEPEST);
    out->ends[2] = out->length;
}

/* Eight of each space, by turns to the next space and to space 1. */
static void put_delegations(written *out) {
    put(out, DELEGATIONS);
    for (uint32_t i = 0; i < DELEGATIONS; i++) {
        put(out, i % SPACES), put_path(out, 4, to_owner), put_use(out);
        put_path(out, 4, i / SPACES % 2 == 0 ? to_next : to_first), put(out, DEEPEST);
    }
    out->ends[3] = out->length;
}

void write_full_table(written *out) {
    out->length = 0;
    put(out, 1), put_spaces(out), put_bindings(out), put_accesses(out), put_delegations(out);
}

void write_full_request(written *out) {
    out->length = 0;
    put_name(out, 0, 4, to_sixteenth), put(out, 0), put_use(out);
}

void write_denied_request(written *out) {
    out->length = 0;
    put(out, 0), put(out, key(17)), put(out, 0), put_use(out);
}

void write_translated_request(written *out) {
    out->length = 0;
    put(out, key(16)), put(out, key(0)), put_use(out);
}

void write_translated_denied_request(written *out) {
    out->length = 0;
    put(out, key(17)), put(out, key(0)), put_use(out);
}

/* The writers' keys are five bytes wide too; the owner's is the greatest. */
static uint32_t writer(uint32_t i) {
    return 4294960000u + i;
}

void write_full_key_table(written *out) {
    out->length = 0;
    put(out, 0);
    put(out, ACCESSES);
    for (uint32_t i = 0; i < ACCESSES; i++) put(out, key(0)), put_use(out), put(out, writer(0)), put(out, DEEPEST);
    out->ends[0] = out->ends[1] = out->ends[2] = out->length;
    put(out, DELEGATIONS);
    for (uint32_t i = 0; i < DELEGATIONS; i++) put(out, writer(i)), put(out, key(0)), put_use(out), put(out, writer(i + 1)), put(out, DEEPEST);
    out->ends[3] = out->length;
}

void write_full_key_request(written *out) {
    out->length = 0;
    put(out, writer(15)), put(out, key(0)), put_use(out);
}

void write_wide(written *out, const written *from, size_t at) {
    out->length = at;
    memcpy(out->bytes, from->bytes, at);
    put(out, 4294967295u);
    memcpy(out->bytes + out->length, from->bytes + at + 1, from->length - at - 1);
    out->length += from->length - at - 1;
}
