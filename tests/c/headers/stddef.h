/* Sizes, for a compiler that comes without its headers. */
#ifndef TESTS_STDDEF_H
#define TESTS_STDDEF_H

typedef __SIZE_TYPE__ size_t;
#define NULL ((void *)0)

#endif
