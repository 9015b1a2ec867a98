#include "expect.h"
#include <stdio.h>

/* Of each test, at most so many failures are told. */
enum { TOLD = 10 };

static size_t passed, failed, expected, missed;

void run_test(const char *name, void (*test)(void)) {
    expected = missed = 0;
    test();
    int good = missed == 0 && 0 < expected;
    printf("%s: %s, %zu of %zu\n", good ? "passed" : "FAILED", name, expected - missed, expected);
    if (good) passed++;
    else failed++;
}

void expect(int holds, const char *what, size_t which) {
    expected++;
    if (!holds && missed++ < TOLD) printf("not so: %s, case %zu\n", what, which);
}

void expect_answer(rustamgheb_answer got, uint32_t number, uint32_t offset, uint32_t depth, uint32_t length, const char *what, size_t which) {
    expected++;
    if (got.number == number && got.offset == offset && got.depth == depth && got.length == length) return;
    if (missed++ < TOLD)
        printf("not so: %s, case %zu: got %u %u %u %u, not %u %u %u %u\n", what, which, got.number, got.offset, got.depth, got.length, number, offset, depth, length);
}

int all_passed(void) {
    printf("%zu passed, %zu failed\n", passed, failed);
    return failed == 0;
}
