/* See contestants.h. */
#include "contestants.h"

#include <stdio.h>
#include <stdlib.h>
#include <string.h>

const char *const contestant_names[CONTESTANTS] = {"library", "plain C", "libxml2"};
const char *const writer_names[WRITERS] = {"plain_image", "minimal_image", "normal_form"};

static const struct calls *const implementations[IMPLEMENTATIONS] = {&library_calls, &plain_calls};

/* A fast wrong answer is worth nothing. */
static void insist(bool agree, const struct saved_query *q, const char *what) {
  if (agree) return;
  printf("contestants disagree: %s, query %s, %u steps\n", what, q->name, q->steps);
  exit(1);
}

void call_writer(void *writing) {
  struct writing *w = writing;
  w->result = w->call(w->q->word, w->q->len, w->room, sizeof w->room);
}

static struct writing writing_of(unsigned implementation, enum writer which,
                                 const struct saved_query *q) {
  const struct calls *c = implementations[implementation];
  write_call *const calls[WRITERS] = {c->plain_image, c->minimal_image, c->normal_form};
  return (struct writing){.call = calls[which], .q = q};
}

void prepare_writers(struct writing w[IMPLEMENTATIONS], enum writer which,
                     const struct saved_query *q, struct contest contests[IMPLEMENTATIONS]) {
  for (unsigned i = 0; i < IMPLEMENTATIONS; i++) {
    w[i] = writing_of(i, which, q);
    call_writer(&w[i]);
    contests[i] = (struct contest){.call = call_writer, .argument = &w[i]};
  }
  insist(w[LIBRARY].result >> 32 == 0 && w[LIBRARY].result == w[PLAIN].result &&
             !memcmp(w[LIBRARY].room, w[PLAIN].room, sizeof w->room),
         q, writer_names[which]);
}

void call_pair(void *asking) {
  struct asking *a = asking;
  if (a->call)
    a->result = a->call(a->q->word, a->q->len, a->doc->parents, a->doc->n, a->doc->labels,
                        a->doc->n, a->m, a->n, a->workspace, sizeof a->workspace);
  else a->result = xpath_selects(a->xml, a->q->text, a->m, a->n);
}

struct asking asking_of(unsigned implementation, const struct saved_query *q,
                        const struct document *doc) {
  return (struct asking){.call = implementations[implementation]->selects, .q = q, .doc = doc};
}

void insist_on_answers(const struct asking a[IMPLEMENTATIONS]) {
  insist(a[LIBRARY].result <= 1 && a[LIBRARY].result == a[PLAIN].result &&
             !memcmp(a[LIBRARY].workspace, a[PLAIN].workspace, PATHPLUS_WORKSPACE),
         a->q, "selects");
}

/* From the last node with the query's first label; if it has none, from the
 * root, or from the last node where the query goes up. To the last node that
 * is selected, or if none is, to itself. */
static void choose_pair(struct asking *a) {
  a->m = a->q->start == ANY && !strstr(a->q->text, "parent") ? 0 : a->doc->n - 1;
  while (a->q->start != ANY && a->m > 0 && a->doc->labels[a->m] != a->q->start) a->m--;
  for (a->n = a->doc->n; a->n-- > 0;) {
    call_pair(a);
    if (a->result == 1) return;
  }
  a->n = a->m;
}

void prepare_pair(struct asking a[CONTESTANTS], const struct saved_query *q,
                  const struct document *doc, struct xml_document *xml,
                  struct contest contests[CONTESTANTS]) {
  a[PLAIN] = asking_of(PLAIN, q, doc);
  choose_pair(&a[PLAIN]);
  a[LIBRARY] = a[XML] = a[PLAIN];
  a[LIBRARY].call = library_calls.selects;
  a[XML].call = NULL;
  a[XML].xml = xml;
  for (unsigned i = 0; i < CONTESTANTS; i++) {
    call_pair(&a[i]);
    contests[i] = (struct contest){.call = call_pair, .argument = &a[i]};
  }
  insist_on_answers(a);
  insist(a[XML].result == XPATH_GAVE_UP || a[XML].result == a[PLAIN].result, q,
         "selects and XPath");
}
