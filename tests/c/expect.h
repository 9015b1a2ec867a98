/* What is expected of the kernel, and the tests that expect it. */
#ifndef EXPECT_H
#define EXPECT_H

#include "rustamgheb.h"

/* Runs a test: it passes if all that it expects holds. */
void run_test(const char *name, void (*test)(void));

/* That this holds. The first few things that do not are told. */
void expect(int holds, const char *what, size_t which);

/* That these are the answer's four numbers. */
void expect_answer(rustamgheb_answer got, uint32_t number, uint32_t offset, uint32_t depth, uint32_t length, const char *what, size_t which);

/* Prints how many tests passed and how many failed, and says whether all passed. */
int all_passed(void);

#endif
