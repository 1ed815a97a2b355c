/* The queries that are asked, each as a word and as an XPath expression. Both
 * are written side by side by the same calls, so they mean the same. */
#ifndef QUERIES_H
#define QUERIES_H

#include <stddef.h>
#include <stdint.h>

#include "pathplus.h"

enum { ANY = 0 /* no label: a wildcard */, MAX_NESTING = 260, MAX_TEXT = 16384 };

/* The signs that queries are written with; HAS and UNDER are the projections. */
enum { SIGN_CHILD = 2, SIGN_PARENT, SIGN_THEN, SIGN_HAS, SIGN_UNDER, SIGN_LABEL = 9 };

struct saved_query {
  const char *name;
  uint32_t start; /* label of the node asked from, or ANY */
  unsigned steps;
  uint8_t word[PATHPLUS_MAX_WORD];
  size_t len;
  char text[MAX_TEXT]; /* the XPath expression */
  size_t text_len;
  unsigned depth; /* of predicates being written */
  struct {
    char word, text;
  } started[MAX_NESTING];
};

/* Small queries as moulders save them, each with a grant. */
void granted_curves(struct saved_query *q);     /* from a press to its curves */
void granted_wordy(struct saved_query *q);      /* the same with branches that say nothing */
void granted_neighbours(struct saved_query *q); /* from a curve to those of the same tool */
void granted_hall(struct saved_query *q);       /* from the hall to all curves */

/* Queries of a given number of steps. */
void folding_branches(struct saved_query *q, unsigned steps); /* all fold onto one */
void lasting_branches(struct saved_query *q, unsigned steps); /* none folds */
void chain_down(struct saved_query *q, unsigned steps);       /* child child child .. */
void twin_chains(struct saved_query *q, unsigned steps);   /* two branches, different at the ends */
void caterpillar(struct saved_query *q, unsigned steps);   /* branches within branches */
void zigzag(struct saved_query *q, unsigned steps);        /* parent child parent child .. */
void nested_zigzag(struct saved_query *q, unsigned steps); /* the same as nested predicates */

#endif
