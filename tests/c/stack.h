/* How much stack a call takes. */
#ifndef STACK_H
#define STACK_H

#include <stddef.h>

/* Makes the call on a stack of its own, and returns how many bytes of it were written, those of `call` itself included. */
size_t stack_of(void (*call)(void));

#endif
