/* Stack of a call in bytes, measured. */
#ifndef STACK_H
#define STACK_H

#include <stddef.h>

/* Runs the call on a stack of its own that was filled with a pattern, and
 * tells how far down the pattern was overwritten. */
size_t stack_of_call(void (*call)(void *), void *argument);

#endif
