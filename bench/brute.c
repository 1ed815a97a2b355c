/* See brute.h. Nothing here is meant to be fast. */
#include "brute.h"

#include <string.h>

#include "pathplus.h"

enum { MAX_OPERAND_NODES = 4400, MAX_GLUED = 4096 };

uint32_t brute_number(const uint8_t *bytes, size_t *at) {
  uint32_t value = 0, scale = 1;
  while (bytes[*at] >= 128) {
    value += (bytes[(*at)++] - 128u) * scale;
    scale *= 128;
  }
  return value + bytes[(*at)++] * scale;
}

/* Bytes of the number at `at`, or 0 if it is refused. */
static size_t number_length(const uint8_t *word, size_t len, size_t at) {
  size_t n = 1;
  while (at + n <= len && word[at + n - 1] >= 128) n++;
  if (at + n > len) return 0;
  if (n > 1 && word[at + n - 1] == 0) return 0;
  if (n > 3) return 0;
  size_t place = at;
  return brute_number(word, &place) <= 65544 ? n : 0;
}

static uint64_t refusal(uint64_t number, uint64_t place) { return number * 4294967296u + place; }

uint64_t brute_refusal(const uint8_t *word, size_t len) {
  unsigned pending = 0, steps = 0;
  if (len > 4096) return refusal(1, 4096);
  for (size_t at = 0; at < len;) {
    size_t sign_at = at;
    if (number_length(word, len, at) == 0) return refusal(2, sign_at);
    uint32_t sign = brute_number(word, &at);
    if (sign == 4 || sign == 7) {
      if (pending < 2) return refusal(3, sign_at);
      pending--;
    } else if (sign == 5 || sign == 6 || sign == 8) {
      if (pending < 1) return refusal(3, sign_at);
    } else {
      if (++pending == 257) return refusal(4, sign_at);
      if ((sign == 2 || sign == 3) && ++steps == 256) return refusal(5, sign_at);
    }
  }
  return pending == 1 ? 0 : refusal(6, len);
}

/* The pairs of an operand sign. */
static struct pairs of_operand(uint32_t sign, const struct small_doc *doc) {
  struct pairs r = {{0}};
  for (unsigned v = 0; v < doc->n; v++) {
    unsigned p = doc->parents[v];
    if (sign == 1) r.to[v] |= (uint16_t)(1u << v);
    if (sign == 2 && v) r.to[p] |= (uint16_t)(1u << v);
    if (sign == 3 && v) r.to[v] |= (uint16_t)(1u << p);
    if (sign >= 9 && doc->labels[v] == sign - 9) r.to[v] |= (uint16_t)(1u << v);
  }
  return r;
}

/* The pairs of an operator; b is unused where it takes one operand. */
static struct pairs of_operator(uint32_t sign, const struct pairs *a, const struct pairs *b) {
  struct pairs r = {{0}};
  for (unsigned m = 0; m < BRUTE_ROWS; m++)
    for (unsigned n = 0; n < BRUTE_ROWS; n++) {
      bool in_a = a->to[m] >> n & 1;
      if (sign == 4 && in_a) r.to[m] |= b->to[n];
      if (sign == 5 && in_a) r.to[m] |= (uint16_t)(1u << m);
      if (sign == 6 && in_a) r.to[n] |= (uint16_t)(1u << n);
      if (sign == 7 && in_a && (b->to[m] >> n & 1)) r.to[m] |= (uint16_t)(1u << n);
      if (sign == 8 && in_a) r.to[n] |= (uint16_t)(1u << m);
    }
  return r;
}

struct pairs brute_pairs(const uint8_t *word, size_t len, const struct small_doc *doc) {
  struct pairs pile[257];
  unsigned top = 0;
  for (size_t at = 0; at < len;) {
    uint32_t sign = brute_number(word, &at);
    if (sign == 4 || sign == 7) {
      pile[top - 2] = of_operator(sign, &pile[top - 2], &pile[top - 1]);
      top--;
    } else if (sign == 5 || sign == 6 || sign == 8) {
      pile[top - 1] = of_operator(sign, &pile[top - 1], NULL);
    } else {
      pile[top++] = of_operand(sign, doc);
    }
  }
  return pile[0];
}

/* Operand nodes, with the class each is in. */
struct classes {
  unsigned n;
  int parent[MAX_OPERAND_NODES];
  unsigned in[MAX_OPERAND_NODES];
};

static int add(struct classes *c, int parent) {
  c->parent[c->n] = parent;
  c->in[c->n] = c->n;
  return (int)c->n++;
}

static void merge(struct classes *c, unsigned a, unsigned b) {
  unsigned from = c->in[b], into = c->in[a];
  for (unsigned x = 0; x < c->n; x++)
    if (c->in[x] == from) c->in[x] = into;
}

/* Closes the classes under parents; returns how many there are. */
static unsigned close_classes(struct classes *c) {
  bool changed = true;
  while (changed) {
    changed = false;
    for (unsigned x = 0; x < c->n; x++)
      for (unsigned y = 0; y < x; y++) {
        if (c->in[x] != c->in[y] || c->parent[x] < 0 || c->parent[y] < 0) continue;
        if (c->in[c->parent[x]] == c->in[c->parent[y]]) continue;
        merge(c, (unsigned)c->parent[x], (unsigned)c->parent[y]);
        changed = true;
      }
  }
  unsigned count = 0;
  for (unsigned x = 0; x < c->n; x++) {
    bool first = true;
    for (unsigned y = 0; y < x; y++) first &= c->in[x] != c->in[y];
    count += first;
  }
  return count;
}

unsigned brute_plain_nodes(const uint8_t *word, size_t len) {
  struct classes c = {0};
  int s[257], d[257], top = 0;
  for (size_t at = 0; at < len;) {
    uint32_t sign = brute_number(word, &at);
    if (sign == 4 || sign == 7) {
      top--;
      merge(&c, (unsigned)(sign == 4 ? d[top - 1] : s[top - 1]), (unsigned)s[top]);
      if (sign == 4) d[top - 1] = d[top];
      else merge(&c, (unsigned)d[top - 1], (unsigned)d[top]);
    } else if (sign == 5 || sign == 6 || sign == 8) {
      int old_s = s[top - 1], old_d = d[top - 1];
      s[top - 1] = sign == 5 ? old_s : old_d;
      d[top - 1] = sign == 6 ? old_d : old_s;
    } else {
      s[top] = d[top] = add(&c, -1);
      if (sign == 2) d[top] = add(&c, s[top]);
      if (sign == 3) s[top] = add(&c, d[top]);
      top++;
    }
  }
  return close_classes(&c);
}

/* Reads the record at *at as node q->n, and all below it. */
static bool read_record(const uint8_t *image, size_t len, size_t *at, unsigned parent,
                        struct query *q) {
  if (q->n == BRUTE_NODES || *at + 3 > len) return false;
  unsigned u = q->n++;
  q->from[u] = *at;
  q->parent[u] = parent;
  q->code[u] = brute_number(image, at);
  q->mark[u] = brute_number(image, at);
  q->count[u] = brute_number(image, at);
  for (unsigned i = 0; i < q->count[u]; i++)
    if (!read_record(image, len, at, u, q)) return false;
  q->to[u] = *at;
  return *at <= len;
}

bool brute_query(const uint8_t *image, size_t len, struct query *q) {
  size_t at = 0;
  uint32_t n = brute_number(image, &at);
  q->n = 0;
  if (n && !read_record(image, len, &at, 0, q)) return false;
  return q->n == n && at == len;
}

bool brute_lays(const struct query *q, unsigned u, const struct small_doc *doc, unsigned v, int m,
                int n) {
  if (q->code[u] && q->code[u] - 1 != doc->labels[v]) return false;
  if (m >= 0 && (q->mark[u] & 1) && v != (unsigned)m) return false;
  if (n >= 0 && (q->mark[u] & 2) && v != (unsigned)n) return false;
  for (unsigned c = u + 1; c < q->n; c++) {
    if (q->parent[c] != u) continue;
    bool some = false;
    for (unsigned w = 1; w < doc->n && !some; w++)
      some = doc->parents[w] == v && brute_lays(q, c, doc, w, m, n);
    if (!some) return false;
  }
  return true;
}

bool brute_selects(const struct query *q, const struct small_doc *doc, unsigned m, unsigned n) {
  bool some = false;
  for (unsigned v = 0; v < doc->n && q->n; v++) some |= brute_lays(q, 0, doc, v, (int)m, (int)n);
  return some;
}

bool brute_folds(const struct query *q, unsigned u, unsigned v) {
  if (q->code[u] && q->code[u] != q->code[v]) return false;
  if ((q->mark[u] & q->mark[v]) != q->mark[u]) return false;
  for (unsigned c = u + 1; c < q->n; c++) {
    if (q->parent[c] != u) continue;
    bool some = false;
    for (unsigned e = v + 1; e < q->n && !some; e++)
      some = q->parent[e] == v && brute_folds(q, c, e);
    if (!some) return false;
  }
  return true;
}
