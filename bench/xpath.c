/* See xpath.h. */
#include "xpath.h"

#include <libxml/xpathInternals.h>
#include <stdio.h>

/* About a tenth of a second; the expressions that pass it would take years. */
enum { MAX_OPERATIONS = 1000000 };

/* Giving up is an answer here and no error to print. */
static void silent(void *context, xmlErrorPtr error) {
  (void)context;
  (void)error;
}

void xml_open(struct xml_document *x, const struct document *doc) {
  x->doc = xmlNewDoc(BAD_CAST "1.0");
  for (unsigned v = 0; v < doc->n; v++) {
    char name[16];
    snprintf(name, sizeof name, "L%u", (unsigned)doc->labels[v]);
    x->nodes[v] = xmlNewDocNode(x->doc, NULL, BAD_CAST name, NULL);
    if (v) xmlAddChild(x->nodes[doc->parents[v]], x->nodes[v]);
    else xmlDocSetRootElement(x->doc, x->nodes[v]);
  }
  /* Without this, every comparison of two nodes counts brothers: slower by
   * far, and no measure of XPath. A server would do it once after loading. */
  xmlXPathOrderDocElems(x->doc);
  x->context = xmlXPathNewContext(x->doc);
  x->context->error = silent;
  x->context->opLimit = MAX_OPERATIONS;
}

void xml_close(struct xml_document *x) {
  xmlXPathFreeContext(x->context);
  xmlFreeDoc(x->doc);
}

enum xpath_answer xpath_selects(struct xml_document *x, const char *text, unsigned m, unsigned n) {
  enum xpath_answer answer = XPATH_GAVE_UP;
  x->context->node = x->nodes[m];
  x->context->opCount = 0;
  xmlXPathCompExprPtr expression = xmlXPathCtxtCompile(x->context, BAD_CAST text);
  if (!expression) return XPATH_GAVE_UP;
  xmlXPathObjectPtr result = xmlXPathCompiledEval(expression, x->context);
  if (result) {
    xmlNodeSetPtr set = result->nodesetval;
    answer = set && xmlXPathNodeSetContains(set, x->nodes[n]) ? XPATH_YES : XPATH_NO;
    xmlXPathFreeObject(result);
  }
  xmlXPathFreeCompExpr(expression);
  return answer;
}
