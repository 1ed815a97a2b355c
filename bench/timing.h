/* Time of a call in nanoseconds: the median of several runs. */
#ifndef TIMING_H
#define TIMING_H

typedef void timed_call(void *argument);

enum { RUNS = 11 };

/* One contestant of a comparison. */
struct contest {
  timed_call *call;
  void *argument;
  double ns;         /* the result, for one call */
  double runs[RUNS]; /* what it is the median of, in the order they were run */
};

/* Times the contestants in turns, one run of each after the other, so that
 * whatever else the machine does in the meantime falls on all of them. */
void time_contest(struct contest *contests, unsigned n);

/* a's time over b's, both of one comparison: the median over the turns. Runs
 * of one turn are neighbours in time, so this is steadier than the quotient of
 * the medians on a machine whose speed changes. */
double time_ratio(const struct contest *a, const struct contest *b);

#endif
