/* One call of each contestant, ready to be timed. Both kinds are made only
 * where the contestants agree on every byte of the answer. */
#ifndef CONTESTANTS_H
#define CONTESTANTS_H

#include <stdbool.h>

#include "calls.h"
#include "documents.h"
#include "queries.h"
#include "timing.h"
#include "xpath.h"

/* libxml2 takes part in the pair question only. */
enum { LIBRARY, PLAIN, IMPLEMENTATIONS, XML = IMPLEMENTATIONS, CONTESTANTS };
extern const char *const contestant_names[CONTESTANTS];

/* ---- the writers ---- */

enum writer { PLAIN_IMAGE, MINIMAL_IMAGE, NORMAL_FORM, WRITERS };
extern const char *const writer_names[WRITERS];

struct writing {
  write_call *call;
  const struct saved_query *q;
  uint64_t result;
  uint8_t room[PATHPLUS_NORMAL_ROOM];
};

void call_writer(void *writing);

/* Both implementations' calls, run once and compared. */
void prepare_writers(struct writing w[IMPLEMENTATIONS], enum writer which,
                     const struct saved_query *q, struct contest contests[IMPLEMENTATIONS]);

/* ---- the pair question ---- */

struct asking {
  pair_call *call; /* NULL for libxml2 */
  const struct saved_query *q;
  const struct document *doc;
  struct xml_document *xml;
  unsigned m, n;
  uint64_t result;
  uint8_t workspace[PATHPLUS_WORKSPACE];
};

void call_pair(void *asking);

/* One implementation's question about the pair (0,0), not yet run. */
struct asking asking_of(unsigned implementation, const struct saved_query *q,
                        const struct document *doc);

/* Both implementations answered, and left the same match table. */
void insist_on_answers(const struct asking a[IMPLEMENTATIONS]);

/* All three, run once and compared on a pair that is selected if any is from
 * the node that was chosen. libxml2 may have given up. */
void prepare_pair(struct asking a[CONTESTANTS], const struct saved_query *q,
                  const struct document *doc, struct xml_document *xml,
                  struct contest contests[CONTESTANTS]);

#endif
