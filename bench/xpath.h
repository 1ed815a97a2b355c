/* libxml2 as a contestant: the same question as an XPath expression. */
#ifndef XPATH_H
#define XPATH_H

#include <libxml/tree.h>
#include <libxml/xpath.h>

#include "documents.h"

struct xml_document {
  xmlDocPtr doc;
  xmlXPathContextPtr context;
  xmlNodePtr nodes[PATHPLUS_MAX_ROWS];
};

enum xpath_answer { XPATH_NO, XPATH_YES, XPATH_GAVE_UP };

void xml_open(struct xml_document *x, const struct document *doc);
void xml_close(struct xml_document *x);

/* Compiles the expression, evaluates it from node m, and looks for node n in
 * the result. Gives up after a bounded number of libxml2's own operations. */
enum xpath_answer xpath_selects(struct xml_document *x, const char *text, unsigned m, unsigned n);

#endif
