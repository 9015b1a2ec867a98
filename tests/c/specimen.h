/* The scope paper's specimen table, its requests, derivations and key table, byte by byte as the paper prints them. */
#ifndef SPECIMEN_H
#define SPECIMEN_H

#include "lent.h"

#define BYTES(...) ((bytes){(const uint8_t[]){__VA_ARGS__}, sizeof((const uint8_t[]){__VA_ARGS__})})
#define NONE ((bytes){NULL, 0})

/* Table T, 59 bytes: spaces 0, 1 and 2 with the keys 10, 20 and 30, six bindings, two access records, a delegation. Each of
   its numbers takes one byte. */
#define TABLE                                                                                                                   \
    BYTES(0x01, 0x03, 0x0A, 0x14, 0x1E, 0x06, 0x00, 0x01, 0x00, 0x14, 0x01, 0x02, 0x01, 0x02, 0x00, 0x00, 0x03, 0x01, 0x00,     \
          0x02, 0x01, 0x02, 0x02, 0x04, 0x00, 0x28, 0x00, 0x05, 0x01, 0x00, 0x01, 0x05, 0x01, 0x06, 0x00, 0x0A, 0x02, 0x00,     \
          0x07, 0x02, 0x01, 0x01, 0x01, 0x00, 0x07, 0x03, 0x01, 0x03, 0x00, 0x01, 0x01, 0x01, 0x06, 0x07, 0x02, 0x02, 0x02,     \
          0x04, 0x03)

/* Requests for object 7 of space 0: a target, the owner space 0, the object 7, the right. */
#define KEY_20_RIGHT_2 BYTES(0, 20, 0, 7, 2)
#define KEY_40_RIGHT_2 BYTES(0, 40, 0, 7, 2)
#define KEY_40_RIGHT_3 BYTES(0, 40, 0, 7, 3)
#define KEY_10_RIGHT_2 BYTES(0, 10, 0, 7, 2)
#define PATH_3_RIGHT_3 BYTES(1, 0, 1, 3, 0, 7, 3)
#define PATH_5_RIGHT_3 BYTES(1, 0, 1, 5, 0, 7, 3)

#define DERIVATION_P2 BYTES(0x01, 0x00, 0x01, 0x00)
#define DERIVATION_P3 BYTES(0x04, 0x00, 0x01, 0x03, 0x05, 0x02, 0x00, 0x00)
#define DERIVATION_P4 BYTES(0x03, 0x00, 0x01, 0x03, 0x02, 0x00, 0x00)

#define KEY_TABLE_P9                                                                                                            \
    BYTES(0x00, 0x02, 0x0A, 0x07, 0x02, 0x14, 0x01, 0x0A, 0x07, 0x03, 0x1E, 0x00, 0x01, 0x14, 0x0A, 0x07, 0x02, 0x28, 0x03)

/* Key requests: the subject's key, the owner's key 10, object 7, the right. */
#define KEYS_20_RIGHT_2 BYTES(20, 10, 7, 2)
#define KEYS_40_RIGHT_2 BYTES(40, 10, 7, 2)
#define KEYS_40_RIGHT_3 BYTES(40, 10, 7, 3)

#define EMPTY_TABLE BYTES(0x01, 0x00, 0x00, 0x00, 0x00)
#define EMPTY_KEY_TABLE BYTES(0x00, 0x00, 0x00)

/* The room that the outputs want. */
enum { SHEET_ROOM = 256, DERIVATION_ROOM = 512, KEY_TABLE_ROOM = 16384 };

#endif
