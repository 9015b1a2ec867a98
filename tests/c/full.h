/* A table and a key table of full size, in which every record is for one request and every number as wide as it can be. */
#ifndef FULL_H
#define FULL_H

#include <stddef.h>
#include <stdint.h>

typedef struct {
    uint8_t bytes[32768];
    size_t length;
    size_t ends[4]; /* of a table or a key table: where its sections end */
} written;

/* 64 spaces, 256 bindings, 256 access records and 512 delegations, all for object 65,535 of space 0 and right 32, all with
   paths of four names. Access goes from space 1 (depth 15) one space at a time, so space 16 is the last that has it, at
   depth 0, by a chain of 16 records. Space i has the key 4,294,967,295 - i. */
void write_full_table(written *out);

/* Space 16, by a path of four names in space 0; and space 17, by its key. */
void write_full_request(written *out);
void write_denied_request(written *out);

/* The same of the key table that the table is translated to. */
void write_translated_request(written *out);
void write_translated_denied_request(written *out);

/* 256 access records and 512 delegations, each by a writer of its own: the first writer has access at depth 15, and each
   writer hands it to the next. The 16th key is the last that has it, at depth 0. */
void write_full_key_table(written *out);
void write_full_key_request(written *out);

/* The same bytes with the one at `at` replaced by 4,294,967,295, a number of five bytes. */
void write_wide(written *out, const written *from, size_t at);

#endif
