/* The definitions of the specification, run as slowly and literally as can be:
 * what bench/check.c holds an implementation against. */
#ifndef BRUTE_H
#define BRUTE_H

#include <stdbool.h>
#include <stddef.h>
#include <stdint.h>

enum { BRUTE_ROWS = 16, BRUTE_NODES = 256 };

/* A small document. */
struct small_doc {
  unsigned n;
  uint32_t parents[BRUTE_ROWS], labels[BRUTE_ROWS];
};

/* Pairs of a small document: bit n of to[m] is the pair (m,n). */
struct pairs {
  uint16_t to[BRUTE_ROWS];
};

/* A tree query read back from an image; nodes in image order. */
struct query {
  unsigned n;
  uint32_t code[BRUTE_NODES], mark[BRUTE_NODES], count[BRUTE_NODES];
  unsigned parent[BRUTE_NODES];
  size_t from[BRUTE_NODES], to[BRUTE_NODES]; /* the bytes of the record */
};

/* One number at *at, which moves past it. For words and images known good. */
uint32_t brute_number(const uint8_t *bytes, size_t *at);

/* Refusals 1 to 6 as result values; 0 for an accepted word. */
uint64_t brute_refusal(const uint8_t *word, size_t len);

/* The table of signs, run on a document. The word is an accepted one. */
struct pairs brute_pairs(const uint8_t *word, size_t len, const struct small_doc *doc);

/* Nodes of the plain tree, if it is not empty: classes of operand nodes under
 * the smallest equivalence that is closed under parents. */
unsigned brute_plain_nodes(const uint8_t *word, size_t len);

/* Reads an image; false if it is not one, or its bytes are not all used. */
bool brute_query(const uint8_t *image, size_t len, struct query *q);

/* u and all below it laid with u on v; marks count if m and n are nodes, and
 * are ignored if both are -1. */
bool brute_lays(const struct query *q, unsigned u, const struct small_doc *doc, unsigned v, int m,
                int n);

bool brute_selects(const struct query *q, const struct small_doc *doc, unsigned m, unsigned n);

bool brute_folds(const struct query *q, unsigned u, unsigned v);

#endif
