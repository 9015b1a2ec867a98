/* Printing, for a compiler that comes without its headers. */
#ifndef TESTS_STDIO_H
#define TESTS_STDIO_H

int printf(const char *format, ...) __attribute__((format(printf, 1, 2)));

#endif
