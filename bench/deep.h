/* Words made to be deep. The library's stack grows with the depth of a branch
 * that is written and of brothers that are compared or folded, so these have
 * all their 255 steps in one branch or way, or in two. Words alone: their
 * stack is measured, and no XPath engine is asked. */
#ifndef DEEP_H
#define DEEP_H

#include "queries.h"

enum { DEEP_WORDS = 14 };

/* The word with this number, below DEEP_WORDS: name, bytes and steps. */
void make_deep(unsigned number, struct saved_query *q);

#endif
