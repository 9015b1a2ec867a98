/* Rustamgheb, an authorization kernel: the interface for hosts.
 *
 * Each function is a pure function of the bytes that it is shown. It keeps nothing between calls, allocates nothing, reads
 * no clock, no file and no global, and waits for nothing. So any number of threads may call any of them at once, each with
 * buffers of its own; inputs may be shared, as long as nobody changes them during a call.
 *
 * What the caller passes stays the caller's. Inputs are read and never kept or changed. Outputs are lent for the call: they
 * overlap neither each other nor an input, and a sheet is aligned as uint32_t is. A length counts elements: bytes, or
 * numbers of a sheet. (NULL, 0) is an empty input or buffer. No content is wrong to pass: every input is answered.
 *
 * Limits: a table has at most 32,768 bytes, a key table 16,384, a request or key request 64, a derivation 512. A buffer
 * that is lent must hold: a sheet 256 numbers, a derivation 512 bytes, a key table 16,384 bytes. Longer ones are fine.
 * Formats: all numbers are in groups of seven bits, low group first, in shortest form; see docs/HOSTS.md.
 *
 * Link with -z now: see docs/HOSTS.md. */
#ifndef RUSTAMGHEB_H
#define RUSTAMGHEB_H

#include <stddef.h>
#include <stdint.h>

#ifdef __cplusplus
extern "C" {
#endif

/* An answer: its number, and what it carries. What it does not carry is 0. Later editions may add fields at the end. */
typedef struct {
    uint32_t number; /* one of the numbers below */
    uint32_t offset; /* of a table's fault (2 to 7): of the first byte of the number at fault, from the table's beginning */
    uint32_t depth;  /* of a grant or an acceptance: how many times it may be passed on, 0 to 15 */
    uint32_t length; /* in bytes: of the derivation of a grant, or of the key table of a finished translation */
} rustamgheb_answer;

/* The numbers. Let a request pass on 0, and on nothing else. 1 to 9 leave every lent buffer as it was. */
enum {
    RUSTAMGHEB_DONE = 0,             /* granted, accepted, or translated */
    RUSTAMGHEB_LONG = 1,             /* the table is over its limit of bytes */
    RUSTAMGHEB_CUT = 2,              /* the table ends before a number is whole */
    RUSTAMGHEB_NUMBER = 3,           /* a number of the table is not in shortest form, or is too large */
    RUSTAMGHEB_RANGE = 4,            /* a number of the table is outside its field, counts included */
    RUSTAMGHEB_TWICE = 5,            /* a second space with a key, or a second binding of a name in a space */
    RUSTAMGHEB_EXTRA = 6,            /* bytes after the table's last record */
    RUSTAMGHEB_VERSION = 7,          /* the table's first number is not 1 (of a key table: not 0) */
    RUSTAMGHEB_REQUEST = 8,          /* anything wrong with the request, its space numbers against this table included */
    RUSTAMGHEB_ROOM = 9,             /* a lent buffer is too short */
    RUSTAMGHEB_UNNAMED = 10,         /* the subject's name means no key */
    RUSTAMGHEB_DENIED = 11,          /* the subject has no access */
    RUSTAMGHEB_NOT_A_DERIVATION = 12, /* from the checker: malformed, or does not hold in this table */
    RUSTAMGHEB_OVERRUN = 13          /* there is access, and the derivation found does not fit in 512 bytes */
};

/* Decides a request by a table. On 0 there is access: `depth` is the greatest that the table gives, and the first `length`
 * bytes of `derivation` show why, for rustamgheb_check and for a reviewer; later bytes are as they were. On every other
 * answer `derivation` is as it was.
 * On 0, 10, 11 and 13 the first numbers of `sheet`, one for each binding of the table, are the keys that the bindings mean,
 * or 0 where one means nothing; later numbers are as they were. On every other answer `sheet` is as it was.
 * Answers: 0, 1 to 7 (the table), 8, 9, 10, 11, 13, the first that applies in the order 1, 2 to 7, 8, 9, 10, 11, 13. */
rustamgheb_answer rustamgheb_decide(const uint8_t *table, size_t table_len, const uint8_t *request, size_t request_len,
                                    uint32_t *sheet, size_t sheet_len, uint8_t *derivation, size_t derivation_len);

/* Checks a derivation of a request against a table: 0 if it holds in the table that is shown, with the depth that its chain
 * gives. Who made the derivation does not matter. It writes nothing.
 * Answers: 0, 1 to 7 (the table), 8, 12. */
rustamgheb_answer rustamgheb_check(const uint8_t *table, size_t table_len, const uint8_t *request, size_t request_len,
                                   const uint8_t *derivation, size_t derivation_len);

/* Translates a table to a key table, with every name replaced by the key that it means. On 0 the first `length` bytes of
 * `key_table` are the key table, and later bytes are as they were; on every other answer all of it is as it was.
 * Answers: 0, 1 to 7 (the table), 9. */
rustamgheb_answer rustamgheb_translate(const uint8_t *table, size_t table_len, uint8_t *key_table, size_t key_table_len);

/* Decides a key request by a key table. On 0 there is access, with the greatest depth. It writes nothing.
 * Answers: 0, 1 to 4, 6 and 7 (the key table), 8, 11. */
rustamgheb_answer rustamgheb_decide_by_keys(const uint8_t *key_table, size_t key_table_len, const uint8_t *key_request,
                                            size_t key_request_len);

#ifdef __cplusplus
}
#endif

#endif
