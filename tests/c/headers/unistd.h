/* Reading, for a compiler that comes without its headers. */
#ifndef TESTS_UNISTD_H
#define TESTS_UNISTD_H

#include <stddef.h>

long read(int file, void *to, size_t count);

#endif
