/* See stack.h. */
#include "stack.h"

#include <stdint.h>
#include <string.h>
#include <ucontext.h>

enum { STACK_BYTES = 1 << 20, PATTERN = 0xA7 };

struct measure {
  void (*call)(void *);
  void *argument;
  const unsigned char *frame; /* where the stack stood before the call */
  ucontext_t here, there;
};

/* makecontext hands over ints only, so the pointer comes in two halves. */
static void enter(unsigned high, unsigned low) {
  struct measure *m = (struct measure *)(uintptr_t)((uint64_t)high << 32 | low);
  m->frame = __builtin_frame_address(0);
  m->call(m->argument);
}

size_t stack_of_call(void (*call)(void *), void *argument) {
  static _Alignas(64) unsigned char stack[STACK_BYTES];
  struct measure m = {.call = call, .argument = argument};
  uint64_t self = (uint64_t)(uintptr_t)&m;
  call(argument); /* once before: resolving library functions takes stack too */
  memset(stack, PATTERN, sizeof stack);
  getcontext(&m.there);
  m.there.uc_stack.ss_sp = stack;
  m.there.uc_stack.ss_size = sizeof stack;
  m.there.uc_link = &m.here;
  makecontext(&m.there, (void (*)(void))enter, 2, (unsigned)(self >> 32), (unsigned)self);
  swapcontext(&m.here, &m.there);
  const unsigned char *low = stack;
  while (low < m.frame && *low == PATTERN) low++;
  return (size_t)(m.frame - low);
}
