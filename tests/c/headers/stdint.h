/* The fixed-width numbers, for a compiler that comes without its headers. */
#ifndef TESTS_STDINT_H
#define TESTS_STDINT_H

typedef __UINT8_TYPE__ uint8_t;
typedef __UINT32_TYPE__ uint32_t;

#endif
