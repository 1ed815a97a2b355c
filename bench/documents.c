/* See documents.h. */
#include "documents.h"

#include <stdbool.h>

#include "random.h"

/* Adds a node as long as there is place, so that any size can be asked for. */
static uint32_t add(struct document *doc, unsigned size, uint32_t parent, uint32_t label) {
  if (doc->n == size) return 0;
  doc->parents[doc->n] = parent;
  doc->labels[doc->n] = label;
  return doc->n++;
}

static void add_tool(struct document *doc, unsigned size, uint32_t press, bool granted) {
  uint32_t tool = add(doc, size, press, TOOL);
  if (granted) add(doc, size, tool, TOKEN);
  for (unsigned cavities = 0; cavities < 2; cavities++) {
    uint32_t cavity = add(doc, size, tool, CAVITY);
    for (unsigned curves = 0; curves < 3; curves++) add(doc, size, cavity, CURVE);
  }
}

/* A hall of presses with two tools each; two tools of three carry the token. */
static void make_store(struct document *doc, unsigned size) {
  add(doc, size, 0, HALL);
  for (unsigned tools = 0; doc->n < size;) {
    uint32_t press = add(doc, size, 0, PRESS);
    for (unsigned i = 0; i < 2; i++, tools++) add_tool(doc, size, press, tools % 3 != 2);
  }
}

void make_document(enum shape shape, unsigned n, struct document *doc) {
  static const char *const names[SHAPES] = {"store", "random", "chain", "star"};
  struct random g = random_from(7 * n + shape);
  doc->shape = names[shape];
  doc->n = 0;
  if (shape == STORE) make_store(doc, n);
  while (doc->n < n) {
    uint32_t v = doc->n, parent = 0;
    if (shape == RANDOM && v) parent = random_below(&g, v);
    if (shape == CHAIN && v) parent = v - 1;
    add(doc, n, parent, HALL + random_below(&g, CURVE));
  }
}
