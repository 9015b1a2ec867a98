/* An example host: decides whether key 40 may use object 7 of space 0 with right 2, and has the derivation checked. */
#include "rustamgheb.h"
#include <stdio.h>

/* The table that the host keeps: the specimen of the scope paper. Space 0 lists its partner, space 1, for right 2, and
   space 1 hands the right on to whom space 2 calls 4, the key 40. */
static const uint8_t table[] = {
    0x01, 0x03, 0x0A, 0x14, 0x1E, 0x06, 0x00, 0x01, 0x00, 0x14, 0x01, 0x02, 0x01, 0x02, 0x00, 0x00, 0x03, 0x01, 0x00, 0x02,
    0x01, 0x02, 0x02, 0x04, 0x00, 0x28, 0x00, 0x05, 0x01, 0x00, 0x01, 0x05, 0x01, 0x06, 0x00, 0x0A, 0x02, 0x00, 0x07, 0x02,
    0x01, 0x01, 0x01, 0x00, 0x07, 0x03, 0x01, 0x03, 0x00, 0x01, 0x01, 0x01, 0x06, 0x07, 0x02, 0x02, 0x02, 0x04, 0x03,
};

/* What the extension asks: the key (0) 40, of the owner space 0, object 7, right 2. */
static const uint8_t request[] = {0, 40, 0, 7, 2};

int main(void) {
    uint32_t sheet[256];
    uint8_t derivation[512];
    rustamgheb_answer found = rustamgheb_decide(table, sizeof table, request, sizeof request, sheet, 256, derivation, sizeof derivation);
    if (found.number != RUSTAMGHEB_DONE) {
        printf("Refused: answer %u at byte %u.\n", found.number, found.offset);
        return 1;
    }
    printf("Granted at depth %u. The derivation, %u bytes:", found.depth, found.length);
    for (uint32_t i = 0; i < found.length; i++) printf(" %02X", derivation[i]);
    printf("\n");

    /* Later, or on another machine: whoever holds the derivation has it checked against the table of that moment. */
    rustamgheb_answer checked = rustamgheb_check(table, sizeof table, request, sizeof request, derivation, found.length);
    if (checked.number != RUSTAMGHEB_DONE) {
        printf("The derivation does not hold: answer %u.\n", checked.number);
        return 1;
    }
    printf("The derivation holds in this table, at depth %u.\n", checked.depth);
    return 0;
}
