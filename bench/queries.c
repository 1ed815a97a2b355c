/* See queries.h. */
#include "queries.h"

#include <stdarg.h>
#include <stdio.h>

#include "documents.h"

/* ---- writing both forms ---- */

static void text(struct saved_query *q, const char *format, ...) {
  va_list args;
  va_start(args, format);
  q->text_len += (size_t)vsnprintf(q->text + q->text_len, MAX_TEXT - q->text_len, format, args);
  va_end(args);
}

static void put_number(struct saved_query *q, uint32_t number) {
  for (; number >= 128; number /= 128) q->word[q->len++] = (uint8_t)(number % 128 + 128);
  q->word[q->len++] = (uint8_t)number;
}

/* One factor of the path being written, joined to those before it. */
static void factor(struct saved_query *q, uint32_t sign) {
  put_number(q, sign);
  if (q->started[q->depth].word) put_number(q, SIGN_THEN);
  q->started[q->depth].word = 1;
}

static void node_test(struct saved_query *q, uint32_t label) {
  if (label == ANY) {
    text(q, "*");
    return;
  }
  text(q, "L%u", (unsigned)label);
  factor(q, SIGN_LABEL + label);
}

static void begin(struct saved_query *q, const char *name, uint32_t start) {
  q->name = name;
  q->start = start;
  q->steps = 0;
  q->len = q->text_len = q->depth = 0;
  q->started[0].word = 0;
  q->started[0].text = 1;
  text(q, "self::");
  node_test(q, start);
}

static void step(struct saved_query *q, uint32_t sign, uint32_t label) {
  if (q->started[q->depth].text) text(q, "/");
  q->started[q->depth].text = 1;
  text(q, sign == SIGN_CHILD ? "child::" : "parent::");
  factor(q, sign);
  node_test(q, label);
  q->steps++;
}

static void child(struct saved_query *q, uint32_t label) { step(q, SIGN_CHILD, label); }
static void parent(struct saved_query *q, uint32_t label) { step(q, SIGN_PARENT, label); }

/* A predicate: what stands between these two is its path. */
static void open(struct saved_query *q) {
  text(q, "[");
  q->depth++;
  q->started[q->depth].word = q->started[q->depth].text = 0;
}

static void close(struct saved_query *q) {
  text(q, "]");
  q->depth--;
  /* The predicate's path is one operand; its projection is the factor. */
  factor(q, SIGN_HAS);
}

static void has_child(struct saved_query *q, uint32_t label) {
  open(q);
  child(q, label);
  close(q);
}

/* ---- small queries ---- */

void granted_curves(struct saved_query *q) {
  begin(q, "grant", PRESS);
  child(q, TOOL);
  has_child(q, TOKEN);
  child(q, CAVITY);
  child(q, CURVE);
}

void granted_wordy(struct saved_query *q) {
  begin(q, "grant, wordy", PRESS);
  has_child(q, TOOL);
  child(q, TOOL);
  has_child(q, ANY);
  has_child(q, TOKEN);
  has_child(q, CAVITY);
  child(q, CAVITY);
  has_child(q, ANY);
  child(q, CURVE);
}

void granted_neighbours(struct saved_query *q) {
  begin(q, "grant, neighbours", CURVE);
  parent(q, CAVITY);
  parent(q, TOOL);
  has_child(q, TOKEN);
  child(q, CAVITY);
  child(q, CURVE);
}

void granted_hall(struct saved_query *q) {
  begin(q, "grant, whole hall", HALL);
  child(q, PRESS);
  child(q, TOOL);
  has_child(q, TOKEN);
  child(q, CAVITY);
  child(q, CURVE);
}

/* ---- queries of a given number of steps ---- */

/* Branches of four steps; those after the first have wildcards, so each folds
 * onto the first. What is left over of the steps are short branches. */
void folding_branches(struct saved_query *q, unsigned steps) {
  begin(q, "folding", ANY);
  for (unsigned i = 0; q->steps + 4 <= steps; i++) {
    open(q);
    child(q, TOOL);
    has_child(q, i % 2 ? ANY : TOKEN);
    child(q, i % 3 ? ANY : CAVITY);
    child(q, i % 5 ? ANY : CURVE);
    close(q);
  }
  while (q->steps < steps) has_child(q, ANY);
}

/* The same shape; the ends are labelled apart, so none folds. */
void lasting_branches(struct saved_query *q, unsigned steps) {
  begin(q, "lasting", ANY);
  for (uint32_t i = 0; q->steps + 4 <= steps; i++) {
    open(q);
    child(q, TOOL);
    has_child(q, TOKEN);
    child(q, CAVITY);
    child(q, i ? OTHER + i : CURVE);
    close(q);
  }
  for (uint32_t i = 0; q->steps < steps; i++) has_child(q, OTHER + i);
}

void chain_down(struct saved_query *q, unsigned steps) {
  begin(q, "chain", ANY);
  while (q->steps < steps) child(q, ANY);
}

/* Brothers that are the same but for their ends: the longest way for folding
 * tests and for comparing records. */
void twin_chains(struct saved_query *q, unsigned steps) {
  begin(q, "twins", ANY);
  for (uint32_t twin = 0; twin < 2; twin++) {
    open(q);
    for (unsigned i = 1; i < steps / 2; i++) child(q, ANY);
    child(q, OTHER + twin);
    close(q);
  }
}

/* Each node has a labelled leaf and goes on: the deepest nest of branches. */
void caterpillar(struct saved_query *q, unsigned steps) {
  begin(q, "caterpillar", ANY);
  while (q->steps + 2 <= steps) {
    has_child(q, OTHER);
    open(q);
    child(q, ANY);
  }
  while (q->depth) close(q);
}

void zigzag(struct saved_query *q, unsigned steps) {
  begin(q, "zigzag", ANY);
  while (q->steps + 2 <= steps) {
    parent(q, ANY);
    child(q, ANY);
  }
}

/* The innermost label is nowhere, so that no engine finds a way out early. */
void nested_zigzag(struct saved_query *q, unsigned steps) {
  begin(q, "nested zigzag", ANY);
  while (q->steps + 2 <= steps) {
    open(q);
    parent(q, ANY);
    open(q);
    child(q, q->steps + 3 <= steps ? ANY : OTHER); /* with this step, two more */
  }
  while (q->depth) close(q);
}
