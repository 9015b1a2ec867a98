/* Bytes, for a compiler that comes without its headers. */
#ifndef TESTS_STRING_H
#define TESTS_STRING_H

#include <stddef.h>

void *memcpy(void *to, const void *from, size_t count);
void *memset(void *to, int byte, size_t count);
int memcmp(const void *one, const void *other, size_t count);

#endif
