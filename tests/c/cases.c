/* cases < CASES > LINES: the answer line of each case of a case file, answered by the four functions. Case files and lines
   are described in reference/README.md; here the kinds 10 to 13 are known. */
#include "lent.h"
#include <stdio.h>
#include <string.h>
#include <unistd.h>

enum { LONGEST = 65536, PARTS = 4 };

static int broken;

/* Called by the guarded calls: what is not so ends the run. */
void expect(int holds, const char *what, size_t which) {
    if (holds) return;
    printf("not so: %s, call %zu\n", what, which);
    broken = 1;
}

static size_t read_full(uint8_t *to, size_t count) {
    size_t got = 0;
    while (got < count) {
        long n = read(0, to + got, count - got);
        if (n <= 0) break;
        got += (size_t)n;
    }
    return got;
}

static uint8_t room[PARTS][LONGEST];
static bytes parts[PARTS];

static int read_parts(int count) {
    for (int i = 0; i < count; i++) {
        uint8_t length[4];
        if (read_full(length, 4) != 4) return 0;
        size_t n = length[0] + 256u * (length[1] + 256u * (length[2] + 256u * length[3]));
        if (LONGEST < n || read_full(room[i], n) != n) return 0;
        parts[i] = (bytes){room[i], n};
    }
    return 1;
}

/* FNV-1a of 32 bits. */
static uint32_t hash(const void *of, size_t count) {
    const uint8_t *byte = of;
    uint32_t h = 0x811C9DC5u;
    for (size_t i = 0; i < count; i++) h = (h ^ byte[i]) * 0x01000193u;
    return h;
}

static void write_answer(rustamgheb_answer a) {
    printf("%u %u %u %u", a.number, a.offset, a.depth, a.length);
}

static void answer_decide(void) {
    outcome o = decide_over(parts[0], parts[1], parts[2], parts[3]);
    size_t shown = o.answer.number == 0 ? o.answer.length : 0;
    write_answer(o.answer);
    printf(" %08x %08x ", hash(o.sheet, parts[2].length), hash(o.written + shown, parts[3].length - shown));
    for (size_t i = 0; i < shown; i++) printf("%02x", o.written[i]);
    printf(o.answer.number == 0 ? "\n" : "-\n");
}

static void answer_translate(void) {
    outcome o = translate_over(parts[0], parts[1]);
    write_answer(o.answer);
    printf(" %08x\n", hash(o.written, parts[1].length));
}

/* Answers a case of this kind, and says whether it was whole. */
static int answer_case(uint8_t kind) {
    switch (kind) {
    case 10:
        if (!read_parts(4)) return 0;
        answer_decide();
        return 1;
    case 11:
        if (!read_parts(3)) return 0;
        write_answer(check(parts[0], parts[1], parts[2]).answer);
        printf("\n");
        return 1;
    case 12:
        if (!read_parts(2)) return 0;
        answer_translate();
        return 1;
    case 13:
        if (!read_parts(2)) return 0;
        write_answer(decide_by_keys(parts[0], parts[1]).answer);
        printf("\n");
        return 1;
    default:
        return 0;
    }
}

int main(void) {
    uint8_t kind;
    while (read_full(&kind, 1) == 1) {
        if (!answer_case(kind) || broken) return 1;
    }
    return 0;
}
