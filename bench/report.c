/* See report.h. */
#include "report.h"

#include <math.h>
#include <stdio.h>

void print_ns(double ns) {
  if (ns < 1e5) printf(" %7.0f ns", ns);
  else if (ns < 1e8) printf(" %7.0f us", ns / 1e3);
  else printf(" %7.0f ms", ns / 1e6);
}

void tally_add(struct tally *t, double ratio) {
  t->log_sum += log(ratio);
  if (ratio > t->worst) t->worst = ratio;
  t->n++;
}

void tally_print(const struct tally *t) {
  if (!t->n) return;
  printf("%-52s mean %6.3f  worst %6.3f", t->what, exp(t->log_sum / t->n), t->worst);
  if (t->goal > 0) printf("  goal %g: %s", t->goal, t->worst <= t->goal ? "kept" : "not kept");
  puts("");
}
