/* Compares the library, the plain C implementation and libxml2 in one run, and
 * prints times, ratios, growth and stack. See README.md. */
#include <stdio.h>
#include <string.h>
#include <sys/utsname.h>

#include "contestants.h"
#include "deep.h"
#include "report.h"
#include "stack.h"

/* ---- the workloads, by number ---- */

typedef void sized_query(struct saved_query *q, unsigned steps);
static sized_query *const sized[] = {folding_branches, lasting_branches, chain_down,   twin_chains,
                                     caterpillar,      zigzag,           nested_zigzag};
static void (*const small[])(struct saved_query *) = {granted_curves, granted_wordy,
                                                      granted_neighbours, granted_hall};
enum {
  SMALL = sizeof small / sizeof *small,
  SIZED = sizeof sized / sizeof *sized,
  QUERIES = SMALL + 2 * SIZED,
  SIZES = 4 /* of a line of growth */
};

/* The small ones, then those of 20 and of 255 steps. */
static void make_query(unsigned number, struct saved_query *q) {
  if (number < SMALL) small[number](q);
  else sized[(number - SMALL) / 2](q, (number - SMALL) % 2 ? 255 : 20);
}

static bool is_small(unsigned number) { return number < SMALL; }
static bool is_large(unsigned number) { return number >= SMALL && (number - SMALL) % 2; }

/* Ratios, with the goals that were set for them. */
struct tallies {
  struct tally small_writer, large_writer, small_pair, large_pair, store;
};

/* ---- writers ---- */

static void print_writers(struct tallies *t) {
  static struct saved_query q;
  static struct writing w[IMPLEMENTATIONS];
  struct contest c[IMPLEMENTATIONS];
  printf("\nWriters, time of a call\n\n%-14s %-18s %5s %10s %10s %8s\n", "call", "query", "steps",
         "library", "plain C", "lib/C");
  for (enum writer which = MINIMAL_IMAGE; which < WRITERS; which++)
    for (unsigned i = 0; i < QUERIES; i++) {
      make_query(i, &q);
      prepare_writers(w, which, &q, c);
      time_contest(c, IMPLEMENTATIONS);
      double ratio = time_ratio(&c[LIBRARY], &c[PLAIN]);
      printf("%-14s %-18s %5u", writer_names[which], q.name, q.steps);
      print_ns(c[LIBRARY].ns);
      print_ns(c[PLAIN].ns);
      printf(" %8.2f\n", ratio);
      if (is_small(i)) tally_add(&t->small_writer, ratio);
      if (is_large(i)) tally_add(&t->large_writer, ratio);
    }
}

/* ---- the pair question ---- */

/* One line; returns library/plain, and through *by_xml library/libxml2. */
static double print_pair(const struct saved_query *q, const struct document *doc,
                         struct xml_document *xml, double *by_xml) {
  static struct asking a[CONTESTANTS];
  struct contest c[CONTESTANTS];
  prepare_pair(a, q, doc, xml, c);
  time_contest(c, CONTESTANTS);
  printf("%-7s %5u %-18s %5u %-4s", doc->shape, doc->n, q->name, q->steps,
         a[PLAIN].result ? "yes" : "no");
  for (unsigned i = 0; i < CONTESTANTS; i++) print_ns(c[i].ns);
  double ratio = time_ratio(&c[LIBRARY], &c[PLAIN]);
  *by_xml = time_ratio(&c[LIBRARY], &c[XML]);
  printf(" %8.2f %9.3f%s\n", ratio, *by_xml,
         a[XML].result == XPATH_GAVE_UP ? "  libxml2 gave up" : "");
  return ratio;
}

static void print_document(enum shape shape, unsigned rows, struct tallies *t) {
  static struct saved_query q;
  static struct document doc;
  static struct xml_document xml;
  make_document(shape, rows, &doc);
  xml_open(&xml, &doc);
  for (unsigned i = 0; i < QUERIES; i++) {
    double by_xml;
    make_query(i, &q);
    double ratio = print_pair(&q, &doc, &xml, &by_xml);
    if (is_small(i)) tally_add(&t->small_pair, ratio);
    if (is_large(i)) tally_add(&t->large_pair, ratio);
    if (is_small(i) && shape == STORE) tally_add(&t->store, by_xml);
  }
  xml_close(&xml);
}

static void print_pairs(struct tallies *t) {
  printf("\nPair question, time of a call\n\n%-7s %5s %-18s %5s %-4s %10s %10s %10s %8s %9s\n",
         "shape", "rows", "query", "steps", "", "library", "plain C", "libxml2", "lib/C",
         "lib/xml");
  for (enum shape s = STORE; s < SHAPES; s++) {
    print_document(s, 16, t);
    print_document(s, 128, t);
    print_document(s, 1024, t);
  }
}

/* ---- growth ---- */

/* A line for each contestant: sizes, times, and times the one before. All
 * sizes are timed in turns: a line compares what ran at one time. */
static void print_growth(const char *what, const char *query, const unsigned sizes[SIZES],
                         struct contest *c, unsigned contestants) {
  time_contest(c, SIZES * contestants);
  for (unsigned i = 0; i < contestants; i++) {
    printf("%-14s %-12s %-8s", what, query, contestant_names[i]);
    for (unsigned k = 0; k < SIZES; k++) {
      struct contest *this = &c[k * contestants + i];
      printf(" %5u:", sizes[k]);
      print_ns(this->ns);
      if (k) printf(" x%-4.1f", time_ratio(this, this - contestants));
    }
    puts("");
  }
}

static void print_writer_growth(void) {
  static const unsigned steps[SIZES] = {31, 63, 127, 255};
  static struct saved_query q[SIZES];
  static struct writing w[SIZES][IMPLEMENTATIONS];
  struct contest c[SIZES * IMPLEMENTATIONS];
  puts("\nGrowth of the writers with the steps (doubled): times the one before\n");
  for (enum writer which = MINIMAL_IMAGE; which < WRITERS; which++)
    for (unsigned i = 0; i < SIZED; i++) {
      for (unsigned k = 0; k < SIZES; k++) {
        sized[i](&q[k], steps[k]);
        prepare_writers(w[k], which, &q[k], c + k * IMPLEMENTATIONS);
      }
      print_growth(writer_names[which], q[0].name, steps, c, IMPLEMENTATIONS);
    }
}

/* Growth with the steps of the query, or with the rows of the document. */
static void print_pair_growth(bool by_rows, enum shape shape, sized_query *query) {
  static const unsigned steps[SIZES] = {31, 63, 127, 255}, rows[SIZES] = {128, 256, 512, 1024};
  static struct saved_query q[SIZES];
  static struct document doc[SIZES];
  static struct xml_document xml[SIZES];
  static struct asking a[SIZES][CONTESTANTS];
  struct contest c[SIZES * CONTESTANTS];
  for (unsigned k = 0; k < SIZES; k++) {
    query(&q[k], by_rows ? 63 : steps[k]);
    make_document(shape, by_rows ? rows[k] : 1024, &doc[k]);
    xml_open(&xml[k], &doc[k]);
    prepare_pair(a[k], &q[k], &doc[k], &xml[k], c + k * CONTESTANTS);
  }
  print_growth(doc[0].shape, q[0].name, by_rows ? rows : steps, c, CONTESTANTS);
  for (unsigned k = 0; k < SIZES; k++) xml_close(&xml[k]);
}

static void print_pair_growths(void) {
  for (unsigned by_rows = 0; by_rows < 2; by_rows++) {
    printf("\nGrowth of the pair question with the %s\n\n",
           by_rows ? "rows (doubled), 63 steps" : "steps (doubled), 1,024 rows");
    print_pair_growth(by_rows, STORE, lasting_branches);
    print_pair_growth(by_rows, CHAIN, chain_down);
    print_pair_growth(by_rows, STAR, zigzag);
  }
}

/* ---- stack ---- */

/* The writers, and then the pair question. */
enum { CALLS = WRITERS + 1 };

/* The deepest stack of a call so far, and the query that took it. */
struct deepest {
  size_t bytes;
  const char *query;
  unsigned steps;
};

static void measure(struct deepest *d, void (*call)(void *), void *argument,
                    const struct saved_query *q) {
  size_t bytes = stack_of_call(call, argument);
  if (bytes > d->bytes) *d = (struct deepest){bytes, q->name, q->steps};
}

/* All calls about a query, the pair question on a document. */
static void measure_query(struct deepest d[CALLS][IMPLEMENTATIONS], const struct saved_query *q,
                          const struct document *doc) {
  static struct writing w[IMPLEMENTATIONS];
  static struct asking a[IMPLEMENTATIONS];
  struct contest c[IMPLEMENTATIONS];
  for (enum writer which = PLAIN_IMAGE; which < WRITERS; which++) {
    prepare_writers(w, which, q, c);
    for (unsigned i = 0; i < IMPLEMENTATIONS; i++)
      measure(&d[which][i], c[i].call, c[i].argument, q);
  }
  for (unsigned i = 0; i < IMPLEMENTATIONS; i++) {
    a[i] = asking_of(i, q, doc);
    measure(&d[WRITERS][i], call_pair, &a[i], q);
  }
  insist_on_answers(a);
}

/* Over all queries above and the words made to be deep, the pair question on
 * the longest chain. */
static void print_stack(void) {
  static struct saved_query q;
  static struct document doc;
  struct deepest d[CALLS][IMPLEMENTATIONS] = {0};
  struct utsname machine;
  make_document(CHAIN, PATHPLUS_MAX_ROWS, &doc);
  for (unsigned i = 0; i < QUERIES + DEEP_WORDS; i++) {
    if (i < QUERIES) make_query(i, &q);
    else make_deep(i - QUERIES, &q);
    measure_query(d, &q, &doc);
  }
  uname(&machine);
  printf("\nDeepest stack on %s, bytes, and the query that takes it\n\n%-14s", machine.machine,
         "call");
  for (unsigned i = 0; i < IMPLEMENTATIONS; i++)
    printf(" %8s %-24s %5s", contestant_names[i], "query", "steps");
  for (unsigned call = 0; call < CALLS; call++) {
    printf("\n%-14s", call < WRITERS ? writer_names[call] : "selects");
    for (unsigned i = 0; i < IMPLEMENTATIONS; i++)
      printf(" %8zu %-24s %5u", d[call][i].bytes, d[call][i].query, d[call][i].steps);
  }
  puts("");
}

/* With the argument `stack`, the stack alone. */
int main(int argc, char **argv) {
  if (argc > 1 && !strcmp(argv[1], "stack")) {
    print_stack();
    return 0;
  }
  struct tallies t = {
      .small_writer = {"writers, small queries: library/plain C", 1.5, 0, 0, 0},
      .large_writer = {"writers, 255 steps: library/plain C", 2, 0, 0, 0},
      .small_pair = {"pair question, small queries: library/plain C", 1.5, 0, 0, 0},
      .large_pair = {"pair question, 255 steps: library/plain C", 2, 0, 0, 0},
      .store = {"pair question, small queries, store: library/libxml2", 1, 0, 0, 0}};
  print_writers(&t);
  print_pairs(&t);
  print_writer_growth();
  print_pair_growths();
  print_stack();
  puts("\nRatios, geometric mean and worst\n");
  tally_print(&t.small_writer);
  tally_print(&t.large_writer);
  tally_print(&t.small_pair);
  tally_print(&t.large_pair);
  tally_print(&t.store);
  return 0;
}
