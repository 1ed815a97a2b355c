/* The documents that are asked about. */
#ifndef DOCUMENTS_H
#define DOCUMENTS_H

#include <stdint.h>

#include "pathplus.h"

/* Labels of the store. Labels from OTHER on stand in queries only. */
enum { HALL = 1, PRESS, TOOL, TOKEN, CAVITY, CURVE, OTHER = 100 };

enum shape { STORE, RANDOM, CHAIN, STAR, SHAPES };

struct document {
  const char *shape;
  unsigned n;
  uint32_t parents[PATHPLUS_MAX_ROWS], labels[PATHPLUS_MAX_ROWS];
};

/* A document of n nodes (1 to 1,024); the same for the same numbers. */
void make_document(enum shape shape, unsigned n, struct document *doc);

#endif
