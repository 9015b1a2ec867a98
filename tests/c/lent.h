/* The four functions, called with buffers that have guarded bytes on both sides, inputs and outputs alike. */
#ifndef LENT_H
#define LENT_H

#include "rustamgheb.h"

/* What stands in a buffer before each call. */
enum { BEFORE = 0xA5 };
#define BEFORE_NUMBER 0xA5A5A5A5u

/* Bytes that are passed in: where they are, and how many. */
typedef struct {
    const uint8_t *bytes;
    size_t length;
} bytes;

/* What a call left behind. The pointers are good until the next call. */
typedef struct {
    rustamgheb_answer answer;
    const uint32_t *sheet;
    const uint8_t *written; /* the derivation or the key table */
} outcome;

/* The buffers hold these bytes before the call, of a sheet four for each number. Where there are none, (NULL, 0) is passed. */
outcome decide_over(bytes table, bytes request, bytes sheet, bytes derivation);
outcome translate_over(bytes table, bytes key_table);
outcome check(bytes table, bytes request, bytes derivation);
outcome decide_by_keys(bytes key_table, bytes key_request);

/* The same with room for so many numbers of a sheet and so many bytes of the other buffer. */
outcome decide_in(bytes table, bytes request, size_t sheet_room, size_t derivation_room);
outcome translate_in(bytes table, size_t room);

/* Whether these are as `decide_in` or `translate_in` had them before the call. */
int sheet_untouched(outcome o, size_t from, size_t to);
int written_untouched(outcome o, size_t from, size_t to);

#endif
