/* Random numbers that are the same in every run (splitmix64). */
#ifndef RANDOM_H
#define RANDOM_H

#include <stdint.h>

struct random {
  uint64_t state;
};

static inline struct random random_from(uint64_t seed) { return (struct random){seed}; }

/* A number below `bound`, which is not 0. */
static inline uint32_t random_below(struct random *g, uint32_t bound) {
  uint64_t x = g->state += UINT64_C(0x9E3779B97F4A7C15);
  x = (x ^ (x >> 30)) * UINT64_C(0xBF58476D1CE4E5B9);
  x = (x ^ (x >> 27)) * UINT64_C(0x94D049BB133111EB);
  return (uint32_t)((x ^ (x >> 31)) % bound);
}

#endif
