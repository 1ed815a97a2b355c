/* See timing.h. */
#define _POSIX_C_SOURCE 200809L
#include "timing.h"

#include <stdlib.h>
#include <string.h>
#include <time.h>

enum { MAX_CONTESTS = 12 };
static const double RUN_NS = 1e6;  /* one run: long against the clock's own cost */
static const double SLOW_NS = 2e7; /* a call as slow as this is timed once */

/* Time of this thread alone: what others on the machine take is not counted. */
static double now_ns(void) {
  struct timespec t;
  clock_gettime(CLOCK_THREAD_CPUTIME_ID, &t);
  return (double)t.tv_sec * 1e9 + (double)t.tv_nsec;
}

static double run_ns(const struct contest *c, unsigned long calls) {
  double start = now_ns();
  for (unsigned long i = 0; i < calls; i++) c->call(c->argument);
  return (now_ns() - start) / (double)calls;
}

/* Calls that make up one run, found by doubling; 0 if one call is slow, and
 * then its one time stands for all runs. */
static unsigned long calls_of_run(struct contest *c) {
  for (unsigned long calls = 1;; calls *= 2) {
    double ns = run_ns(c, calls);
    if (ns > SLOW_NS) {
      for (unsigned i = 0; i < RUNS; i++) c->runs[i] = ns;
      return 0;
    }
    if (ns * (double)calls > RUN_NS / 2) return calls;
  }
}

static int ascending(const void *a, const void *b) {
  double x = *(const double *)a, y = *(const double *)b;
  return (x > y) - (x < y);
}

static double median(const double values[RUNS]) {
  double sorted[RUNS];
  memcpy(sorted, values, sizeof sorted);
  qsort(sorted, RUNS, sizeof *sorted, ascending);
  return sorted[RUNS / 2];
}

void time_contest(struct contest *contests, unsigned n) {
  unsigned long calls[MAX_CONTESTS];
  for (unsigned i = 0; i < n; i++) calls[i] = calls_of_run(&contests[i]);
  for (unsigned run = 0; run < RUNS; run++)
    for (unsigned i = 0; i < n; i++)
      if (calls[i]) contests[i].runs[run] = run_ns(&contests[i], calls[i]);
  for (unsigned i = 0; i < n; i++) contests[i].ns = median(contests[i].runs);
}

double time_ratio(const struct contest *a, const struct contest *b) {
  double ratios[RUNS];
  for (unsigned i = 0; i < RUNS; i++) ratios[i] = a->runs[i] / b->runs[i];
  return median(ratios);
}
