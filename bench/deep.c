/* See deep.h. */
#include "deep.h"

enum { ALL = PATHPLUS_MAX_STEPS, HALF = ALL / 2 };

/* ---- parts of words ---- */

static void sign(struct saved_query *q, uint8_t number) {
  q->word[q->len++] = number;
  q->steps += number == SIGN_CHILD || number == SIGN_PARENT;
}

static void signs(struct saved_query *q, unsigned times, uint8_t number) {
  while (times--) sign(q, number);
}

/* So many steps one way, each joined to those before it. */
static void way(struct saved_query *q, uint8_t step, unsigned steps) {
  sign(q, step);
  while (--steps) sign(q, step), sign(q, SIGN_THEN);
}

/* The same, joined when all are pending. */
static void way_from_right(struct saved_query *q, uint8_t step, unsigned steps) {
  signs(q, steps, step);
  signs(q, steps - 1, SIGN_THEN);
}

static void branch(struct saved_query *q, unsigned steps) {
  way(q, SIGN_CHILD, steps);
  sign(q, SIGN_HAS);
}

/* A branch whose last node has a label. */
static void ended_branch(struct saved_query *q, unsigned steps, uint8_t label) {
  way(q, SIGN_CHILD, steps);
  sign(q, SIGN_LABEL + label), sign(q, SIGN_THEN);
  sign(q, SIGN_HAS);
}

/* ---- the words ---- */

static void one_branch(struct saved_query *q) { branch(q, ALL); }

static void one_branch_from_right(struct saved_query *q) {
  way_from_right(q, SIGN_CHILD, ALL);
  sign(q, SIGN_HAS);
}

/* Each branch has the next one. */
static void nested_branches(struct saved_query *q) {
  signs(q, ALL, SIGN_CHILD);
  for (unsigned i = 1; i < ALL; i++) sign(q, SIGN_HAS), sign(q, SIGN_THEN);
  sign(q, SIGN_HAS);
}

/* Each branch has a leaf, and the next one. */
static void nested_with_leaves(struct saved_query *q) {
  signs(q, HALF, SIGN_CHILD);
  for (unsigned i = 0; i < HALF; i++) {
    ended_branch(q, 1, 1), sign(q, SIGN_THEN);
    sign(q, SIGN_HAS);
    if (i + 1 < HALF) sign(q, SIGN_THEN);
  }
}

/* A branch of a node above t. */
static void branch_above(struct saved_query *q) {
  branch(q, ALL - 1);
  sign(q, SIGN_CHILD), sign(q, SIGN_THEN);
  sign(q, SIGN_UNDER);
}

static void twins(struct saved_query *q) {
  branch(q, HALF), branch(q, HALF);
  sign(q, SIGN_THEN);
}

static void twins_ending_apart(struct saved_query *q) {
  ended_branch(q, HALF, 1), ended_branch(q, HALF, 2);
  sign(q, SIGN_THEN);
}

/* The longer one does not fold, which shows at its last node only. */
static void twins_one_longer(struct saved_query *q) {
  branch(q, HALF + 1), branch(q, HALF);
  sign(q, SIGN_THEN);
}

/* Up to t and down again, s and d at the ends. */
static void up_and_down(struct saved_query *q) {
  way(q, SIGN_PARENT, HALF);
  for (unsigned i = 0; i <= HALF; i++) sign(q, SIGN_CHILD), sign(q, SIGN_THEN);
}

static void way_down(struct saved_query *q) { way(q, SIGN_CHILD, ALL); }

static void way_down_from_right(struct saved_query *q) { way_from_right(q, SIGN_CHILD, ALL); }

static void way_up(struct saved_query *q) { way(q, SIGN_PARENT, ALL); }

static void way_above(struct saved_query *q) {
  way(q, SIGN_CHILD, ALL);
  sign(q, SIGN_UNDER);
}

/* t is below the top. */
static void way_down_one_above(struct saved_query *q) {
  sign(q, SIGN_CHILD), sign(q, SIGN_UNDER);
  for (unsigned i = 1; i < ALL; i++) sign(q, SIGN_CHILD), sign(q, SIGN_THEN);
}

void make_deep(unsigned number, struct saved_query *q) {
  static const struct {
    const char *name;
    void (*make)(struct saved_query *);
  } words[DEEP_WORDS] = {
      {"one branch", one_branch},
      {"one branch, joined last", one_branch_from_right},
      {"nested branches", nested_branches},
      {"nested, with leaves", nested_with_leaves},
      {"branch above t", branch_above},
      {"twin branches", twins},
      {"twins, ends apart", twins_ending_apart},
      {"twins, one longer", twins_one_longer},
      {"up and down", up_and_down},
      {"way down", way_down},
      {"way down, joined last", way_down_from_right},
      {"way up", way_up},
      {"way above t", way_above},
      {"way down, one above t", way_down_one_above},
  };
  q->name = words[number].name;
  q->len = q->text_len = q->steps = 0;
  q->start = ANY;
  words[number].make(q);
}
