/* How times are printed, and ratios gathered. */
#ifndef REPORT_H
#define REPORT_H

/* Eleven characters wide. */
void print_ns(double ns);

/* The ratios of one kind of workload. */
struct tally {
  const char *what;
  double goal; /* 0: none was set */
  double log_sum, worst;
  unsigned n;
};

void tally_add(struct tally *t, double ratio);
void tally_print(const struct tally *t);

#endif
