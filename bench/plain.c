/* A plain C implementation of the four calls, to measure the library against:
 * what a C engineer would write from the specification alone. Local arrays, no
 * allocation, nothing proved.
 *
 * The way of a word: read and glue (union and find over a pool of nodes), the
 * tree in breadth-first numbers (so brothers stand together and one backward
 * loop sees children before parents), fold, sort brothers, rows in image
 * order. Everything that is written is written from those rows. */
#include "plain.h"

#include <stdbool.h>
#include <string.h>

#include "pathplus.h"

enum {
  NONE = 0xFFFF, /* no node; also the source of the empty query */
  MAX_NODES = PATHPLUS_MAX_QUERY_NODES,
  /* Nodes a word can make: with c signs 4 and 7 there are at most 256 + c
   * operands, both together at most 4,096, so 2,176 operands; and each step
   * has a second node. Rows are not used again: glued ones point onward. */
  POOL = 2176 + PATHPLUS_MAX_STEPS,
  MARK_S = 1,
  MARK_D = 2
};

enum sign { EMPTY, SELF, CHILD, PARENT, COMPOSE, FIRST, SECOND, MEET, INVERSE, LABEL };

static uint64_t refuse(uint32_t number, uint32_t place) { return (uint64_t)number << 32 | place; }

/* ---- reading and gluing ---- */

/* The nodes of all operands. Labels are codes: 0 a wildcard, else L+1. */
struct pool {
  unsigned used;
  uint16_t same[POOL]; /* the node this one was glued to, itself if to none */
  uint16_t up[POOL];   /* parent, or NONE; right at representatives only */
  uint32_t code[POOL];
};

struct operand {
  uint16_t s, d;
};

/* A word while it is read. Once an operand is empty the whole word is, since
 * every operand ends up in the one that is left: then only counts go on. */
struct reading {
  struct pool pool;
  struct operand pending[PATHPLUS_MAX_PENDING];
  unsigned depth; /* pending operands */
  unsigned steps;
  bool empty;
};

/* Reads one number at *at and moves *at past it; false if it is refused. */
static bool read_number(const uint8_t *word, size_t len, size_t *at, uint32_t *number) {
  uint32_t value = 0;
  for (unsigned group = 0; group < 3 && *at < len; group++) {
    uint8_t byte = word[(*at)++];
    value |= (uint32_t)(byte & 0x7F) << (7 * group);
    if (byte < 0x80) {
      *number = value;
      return (byte != 0 || group == 0) && value <= PATHPLUS_MAX_SIGN;
    }
  }
  return false; /* cut off, or four groups: above the largest sign or not shortest */
}

static unsigned add_node(struct pool *p, unsigned up, uint32_t code) {
  unsigned x = p->used++;
  p->same[x] = (uint16_t)x;
  p->up[x] = (uint16_t)up;
  p->code[x] = code;
  return x;
}

static unsigned find(struct pool *p, unsigned x) {
  while (p->same[x] != x) {
    p->same[x] = p->same[p->same[x]];
    x = p->same[x];
  }
  return x;
}

static unsigned depth_of(struct pool *p, unsigned x) {
  unsigned depth = 0;
  for (x = find(p, x); p->up[x] != NONE; x = find(p, p->up[x])) depth++;
  return depth;
}

/* Glues y to x and their ancestors level by level; false on two labels. */
static bool glue(struct pool *p, unsigned x, unsigned y) {
  for (x = find(p, x), y = find(p, y); x != y;) {
    if (p->code[x] && p->code[y] && p->code[x] != p->code[y]) return false;
    p->code[x] |= p->code[y]; /* one is 0, or they are the same */
    p->same[y] = (uint16_t)x;
    unsigned above_x = p->up[x], above_y = p->up[y];
    if (above_x == NONE) p->up[x] = (uint16_t)above_y;
    if (above_x == NONE || above_y == NONE) return true;
    x = find(p, above_x);
    y = find(p, above_y);
  }
  return true;
}

static void push_operand(struct reading *r, uint32_t sign) {
  struct operand *o = &r->pending[r->depth++];
  if (sign == EMPTY) r->empty = true;
  if (r->empty) return;
  unsigned top = add_node(&r->pool, NONE, sign >= LABEL ? sign - LABEL + 1 : 0);
  o->s = o->d = (uint16_t)top;
  if (sign == CHILD) o->d = (uint16_t)add_node(&r->pool, top, 0);
  if (sign == PARENT) o->s = (uint16_t)add_node(&r->pool, top, 0);
}

static void apply_one(struct operand *o, uint32_t sign) {
  uint16_t s = o->s;
  if (sign != FIRST) o->s = o->d; /* second projection, inverse */
  if (sign != SECOND) o->d = s;   /* first projection, inverse */
}

static void apply_two(struct reading *r, uint32_t sign) {
  struct operand b = r->pending[--r->depth];
  struct operand *a = &r->pending[r->depth - 1];
  struct pool *p = &r->pool;
  if (r->empty) return;
  if (sign == COMPOSE) {
    r->empty = !glue(p, a->d, b.s);
    a->d = b.d;
  } else {
    r->empty = !glue(p, a->s, b.s) || depth_of(p, a->d) != depth_of(p, b.d) || !glue(p, a->d, b.d);
  }
}

/* Reads the whole word: 0, or the refusal (1 to 6). */
static uint64_t read_word(struct reading *r, const uint8_t *word, size_t len) {
  if (len > PATHPLUS_MAX_WORD) return refuse(PATHPLUS_WORD_TOO_LONG, PATHPLUS_MAX_WORD);
  r->pool.used = r->depth = r->steps = 0;
  r->empty = false;
  for (size_t at = 0; at < len;) {
    uint32_t place = (uint32_t)at, sign;
    if (!read_number(word, len, &at, &sign)) return refuse(PATHPLUS_BAD_NUMBER, place);
    if (sign >= COMPOSE && sign < LABEL) {
      bool two = sign == COMPOSE || sign == MEET;
      if (r->depth < (two ? 2u : 1u)) return refuse(PATHPLUS_MISSING_OPERAND, place);
      if (two) apply_two(r, sign);
      else if (!r->empty) apply_one(&r->pending[r->depth - 1], sign);
      continue;
    }
    if (r->depth == PATHPLUS_MAX_PENDING) return refuse(PATHPLUS_TOO_MANY_PENDING, place);
    if ((sign == CHILD || sign == PARENT) && r->steps++ == PATHPLUS_MAX_STEPS)
      return refuse(PATHPLUS_TOO_MANY_STEPS, place);
    push_operand(r, sign);
  }
  if (r->depth != 1) return refuse(PATHPLUS_NOT_ONE_OPERAND, (uint32_t)len);
  return 0;
}

/* ---- the tree: folding and sorting ---- */

/* Nodes in breadth-first numbers, the top 0. The children of u are
 * kids[first[u]] onward, count[u] of them. */
struct tree {
  unsigned n;
  uint32_t code[MAX_NODES];
  uint8_t mark[MAX_NODES];
  uint16_t first[MAX_NODES], count[MAX_NODES], kids[MAX_NODES];
  uint16_t size[MAX_NODES], height[MAX_NODES];
  bool marked[MAX_NODES];  /* the node or one below it bears a mark */
  uint64_t key[MAX_NODES]; /* compares as the first three numbers of the record */
};

/* The tree of the one operand left. All representatives of the pool are its
 * nodes: had one been lost on the way, the word would be empty. */
static void gather(struct reading *r, struct tree *t) {
  struct pool *p = &r->pool;
  uint16_t child[POOL], brother[POOL], queue[MAX_NODES];
  unsigned s = find(p, r->pending[0].s), d = find(p, r->pending[0].d);
  for (unsigned x = 0; x < p->used; x++) child[x] = NONE;
  for (unsigned x = 0; x < p->used; x++) {
    if (p->same[x] != x) continue;
    if (p->up[x] == NONE) {
      queue[0] = (uint16_t)x;
      continue;
    }
    unsigned up = find(p, p->up[x]);
    brother[x] = child[up];
    child[up] = (uint16_t)x;
  }
  t->n = 1;
  for (unsigned u = 0; u < t->n; u++) {
    unsigned x = queue[u];
    t->code[u] = p->code[x];
    t->mark[u] = (uint8_t)((x == s ? MARK_S : 0) | (x == d ? MARK_D : 0));
    t->first[u] = (uint16_t)t->n;
    for (unsigned c = child[x]; c != NONE; c = brother[c]) {
      t->kids[t->n] = (uint16_t)t->n;
      queue[t->n++] = (uint16_t)c;
    }
    t->count[u] = (uint16_t)(t->n - t->first[u]);
  }
}

/* Whether u folds onto v, for brothers or nodes below them. A mark stands on
 * one node only, so u must bear none, nor anything below it: the caller has
 * seen to that, and v's marks do not matter. */
static bool folds(const struct tree *t, unsigned u, unsigned v) {
  if (t->code[u] && t->code[u] != t->code[v]) return false;
  if (t->height[u] > t->height[v]) return false;
  const uint16_t *a = t->kids + t->first[u], *a_end = a + t->count[u];
  const uint16_t *b = t->kids + t->first[v], *b_end = b + t->count[v], *c;
  for (; a != a_end; a++) {
    for (c = b; c != b_end && !folds(t, *a, *c); c++) {
    }
    if (c == b_end) return false;
  }
  return true;
}

/* Folds the children of u, all below them being folded. A child is held
 * against those that stay and those still to come; what folded onto one that
 * went folds onto one that stays, so nothing is looked at again. */
static void fold_children(struct tree *t, unsigned u) {
  uint16_t *kids = t->kids + t->first[u];
  unsigned count = t->count[u], kept = 0;
  for (unsigned i = 0; i < count; i++) {
    bool goes = false, may = !t->marked[kids[i]];
    for (unsigned j = 0; may && j < kept && !goes; j++) goes = folds(t, kids[i], kids[j]);
    for (unsigned j = i + 1; may && j < count && !goes; j++) goes = folds(t, kids[i], kids[j]);
    if (!goes) kids[kept++] = kids[i];
  }
  t->count[u] = (uint16_t)kept;
}

static void fold(struct tree *t) {
  for (unsigned u = t->n; u-- > 0;) {
    t->height[u] = 0;
    t->marked[u] = t->mark[u] != 0;
    for (unsigned i = 0; i < t->count[u]; i++) {
      unsigned c = t->kids[t->first[u] + i];
      if (t->height[c] >= t->height[u]) t->height[u] = (uint16_t)(t->height[c] + 1);
      t->marked[u] |= t->marked[c];
    }
    if (t->count[u] > 1) fold_children(t, u);
  }
}

/* Puts a number's groups behind the bytes of a key, the first byte highest.
 * No writing of a number begins another, so keys compare as the bytes do. */
static uint64_t add_to_key(uint64_t key, unsigned *shift, uint32_t number) {
  for (; number >= 0x80; number >>= 7, *shift -= 8)
    key |= (uint64_t)((number & 0x7F) | 0x80) << *shift;
  key |= (uint64_t)number << *shift;
  *shift -= 8;
  return key;
}

static int compare(const struct tree *t, unsigned u, unsigned v) {
  if (t->key[u] != t->key[v]) return t->key[u] < t->key[v] ? -1 : 1;
  const uint16_t *a = t->kids + t->first[u], *b = t->kids + t->first[v];
  for (unsigned i = 0; i < t->count[u]; i++) {
    int c = compare(t, a[i], b[i]);
    if (c) return c;
  }
  return 0;
}

/* Merge sort; short runs by insertion. */
static void sort_brothers(const struct tree *t, uint16_t *kids, unsigned n) {
  if (n <= 8) {
    for (unsigned i = 1; i < n; i++) {
      uint16_t x = kids[i];
      unsigned j = i;
      for (; j > 0 && compare(t, kids[j - 1], x) > 0; j--) kids[j] = kids[j - 1];
      kids[j] = x;
    }
    return;
  }
  uint16_t left[MAX_NODES / 2];
  unsigned half = n / 2, i = 0, j = half, k = 0;
  sort_brothers(t, kids, half);
  sort_brothers(t, kids + half, n - half);
  memcpy(left, kids, half * sizeof *left);
  while (i < half && j < n) kids[k++] = compare(t, left[i], kids[j]) <= 0 ? left[i++] : kids[j++];
  memcpy(kids + k, left + i, (half - i) * sizeof *left);
}

static void sort(struct tree *t) {
  for (unsigned u = t->n; u-- > 0;) {
    unsigned shift = 56;
    t->key[u] = add_to_key(0, &shift, t->code[u]);
    t->key[u] = add_to_key(t->key[u], &shift, t->mark[u]);
    t->key[u] = add_to_key(t->key[u], &shift, t->count[u]);
    t->size[u] = 1;
    for (unsigned i = 0; i < t->count[u]; i++) t->size[u] += t->size[t->kids[t->first[u] + i]];
    if (t->count[u] > 1) sort_brothers(t, t->kids + t->first[u], t->count[u]);
  }
}

/* ---- rows in image order ---- */

/* The first child of u is u + 1, the next brother of c is c + size[c]. */
struct rows {
  unsigned n, s, d; /* no rows: the empty query */
  uint32_t code[MAX_NODES];
  uint8_t mark[MAX_NODES];
  uint16_t parent[MAX_NODES], count[MAX_NODES], size[MAX_NODES];
};

static void lay_out(const struct tree *t, struct rows *q) {
  uint16_t row[MAX_NODES];
  for (unsigned u = 1; u < t->n; u++) row[u] = NONE; /* folded away till reached */
  row[0] = q->parent[0] = 0;
  q->n = t->size[0];
  for (unsigned u = 0; u < t->n; u++) {
    unsigned x = row[u];
    if (x == NONE) continue;
    q->code[x] = t->code[u];
    q->mark[x] = t->mark[u];
    q->count[x] = t->count[u];
    q->size[x] = t->size[u];
    if (t->mark[u] & MARK_S) q->s = x;
    if (t->mark[u] & MARK_D) q->d = x;
    unsigned next = x + 1;
    for (unsigned i = 0; i < t->count[u]; i++) {
      unsigned c = t->kids[t->first[u] + i];
      row[c] = (uint16_t)next;
      q->parent[next] = (uint16_t)x;
      next += t->size[c];
    }
  }
}

/* Not inlined, so that the pool leaves the stack before anything is written. */
__attribute__((noinline)) static uint64_t query_of(const uint8_t *word, size_t len, bool folded,
                                                   struct rows *q) {
  struct reading r;
  struct tree t;
  uint64_t refusal = read_word(&r, word, len);
  if (refusal) return refusal;
  q->n = 0;
  if (r.empty) return 0;
  gather(&r, &t);
  if (folded) fold(&t);
  sort(&t);
  lay_out(&t, q);
  return 0;
}

/* ---- the writers ---- */

struct writer {
  uint8_t *at;
};

static void put(struct writer *w, uint32_t number) {
  for (; number >= 0x80; number >>= 7) *w->at++ = (uint8_t)((number & 0x7F) | 0x80);
  *w->at++ = (uint8_t)number;
}

static uint64_t deliver(const uint8_t *answer, size_t n, uint8_t *room, size_t room_len) {
  if (room_len < n) return refuse(PATHPLUS_ROOM_TOO_SHORT, (uint32_t)n);
  memcpy(room, answer, n);
  return n;
}

static uint64_t image(const uint8_t *word, size_t len, bool folded, uint8_t *room,
                      size_t room_len) {
  struct rows q;
  uint8_t answer[PATHPLUS_IMAGE_ROOM];
  struct writer w = {answer};
  uint64_t refusal = query_of(word, len, folded, &q);
  if (refusal) return refusal;
  put(&w, q.n);
  for (unsigned u = 0; u < q.n; u++) {
    put(&w, q.code[u]);
    put(&w, q.mark[u]);
    put(&w, q.count[u]);
  }
  return deliver(answer, (size_t)(w.at - answer), room, room_len);
}

uint64_t plain_plain_image(const uint8_t *word, size_t word_len, uint8_t *room, size_t room_len) {
  return image(word, word_len, false, room, room_len);
}

uint64_t plain_minimal_image(const uint8_t *word, size_t word_len, uint8_t *room, size_t room_len) {
  return image(word, word_len, true, room, room_len);
}

/* Closes a factor: all but the first of a run are joined to those before. */
static void join(struct writer *w, bool *started) {
  if (*started) put(w, COMPOSE);
  *started = true;
}

static void put_factor(struct writer *w, bool *started, uint32_t sign) {
  put(w, sign);
  join(w, started);
}

static void put_label(struct writer *w, bool *started, uint32_t code) {
  if (code) put_factor(w, started, code - 1 + LABEL);
}

/* The branch at c as a chain, and its first projection. */
static void put_branch(struct writer *w, const struct rows *q, unsigned c, bool *outer) {
  bool started = false;
  for (;; c++) {
    put_factor(w, &started, CHILD);
    put_label(w, &started, q->code[c]);
    if (q->count[c] != 1) break;
  }
  for (unsigned k = c + 1; k < c + q->size[c]; k += q->size[k]) put_branch(w, q, k, &started);
  put_factor(w, outer, FIRST);
}

static void put_own(struct writer *w, const struct rows *q, const bool *way, unsigned u,
                    bool *started) {
  put_label(w, started, q->code[u]);
  for (unsigned k = u + 1; k < u + q->size[u]; k += q->size[k])
    if (!way[k]) put_branch(w, q, k, started);
}

/* The nodes from just below `top` down to x, into path; their number. */
static unsigned path_down(const struct rows *q, unsigned top, unsigned x, uint16_t *path) {
  unsigned n = 0;
  for (unsigned y = x; y != top; y = q->parent[y]) n++;
  for (unsigned i = n; i-- > 0; x = q->parent[x]) path[i] = (uint16_t)x;
  return n;
}

static void put_normal(struct writer *w, const struct rows *q) {
  bool way[MAX_NODES] = {false}, started = false, above = false;
  uint16_t path[MAX_NODES];
  for (unsigned x = q->s; x; x = q->parent[x]) way[x] = true;
  unsigned t = q->d; /* up from d to the first node on the way of s */
  for (; t && !way[t]; t = q->parent[t]) way[t] = true;
  for (unsigned x = q->s; x != t; x = q->parent[x]) {
    put_own(w, q, way, x, &started);
    put_factor(w, &started, PARENT);
  }
  unsigned n = path_down(q, 0, t, path);
  for (unsigned i = 0; i < n; i++) {
    put_own(w, q, way, i ? path[i - 1] : 0, &above);
    put_factor(w, &above, CHILD);
  }
  if (n) put_factor(w, &started, SECOND);
  put_own(w, q, way, t, &started);
  n = path_down(q, t, q->d, path);
  for (unsigned i = 0; i < n; i++) {
    put_factor(w, &started, CHILD);
    put_own(w, q, way, path[i], &started);
  }
  if (!started) put(w, SELF);
}

uint64_t plain_normal_form(const uint8_t *word, size_t word_len, uint8_t *room, size_t room_len) {
  struct rows q;
  uint8_t answer[PATHPLUS_NORMAL_ROOM];
  struct writer w = {answer};
  uint64_t refusal = query_of(word, word_len, true, &q);
  if (refusal) return refusal;
  if (q.n) put_normal(&w, &q);
  else put(&w, EMPTY);
  return deliver(answer, (size_t)(w.at - answer), room, room_len);
}

/* ---- the pair question ---- */

struct table {
  const uint32_t *parents, *labels;
  unsigned n;
};

static bool good_table(const uint32_t *parents, size_t np, const uint32_t *labels, size_t nl) {
  if (np != nl || np == 0 || np > PATHPLUS_MAX_ROWS || parents[0] != 0) return false;
  /* No leaving early, a good table being the common one. The labels' bits
   * together stay below 65,536 only if each does; a difference has its top bit
   * set only if it is below 0. */
  uint64_t labels_bits = labels[0], below = ~UINT64_C(0);
  for (size_t v = 1; v < np; v++) {
    labels_bits |= labels[v];
    below &= (uint64_t)parents[v] - v;
  }
  return labels_bits <= PATHPLUS_MAX_LABEL && below >> 63;
}

/* The workspace's bytes, low first, as a word of 64 bits. */
static uint64_t low_first(uint64_t bits) {
#if __BYTE_ORDER__ == __ORDER_BIG_ENDIAN__
  return __builtin_bswap64(bits);
#else
  return bits;
#endif
}

static uint64_t load_bits(const uint8_t *from) {
  uint64_t bits;
  memcpy(&bits, from, sizeof bits);
  return low_first(bits);
}

static void store_bits(uint8_t *to, uint64_t bits) {
  bits = low_first(bits);
  memcpy(to, &bits, sizeof bits);
}

/* 64 bytes of 0 or 1 to 64 bits. The product brings each of eight bytes to its
 * bit of the top byte; no two of its parts meet. */
static uint64_t pack(const uint8_t *bytes) {
  uint64_t bits = 0;
  for (unsigned i = 0; i < 64; i += 8)
    bits |= (load_bits(bytes + i) * UINT64_C(0x0102040810204080) >> 56) << i;
  return bits;
}

/* The document nodes whose label fits, 64 to a word. */
static void fitting(const struct table *doc, uint32_t code, uint64_t *row) {
  for (unsigned v = 0; v < doc->n; v += 64) {
    unsigned end = doc->n - v < 64 ? doc->n - v : 64;
    const uint32_t *labels = doc->labels + v;
    uint64_t bits = ~UINT64_C(0) >> (64 - end);
    uint8_t same[64];
    if (code && end == 64) { /* a loop of fixed length: the compiler takes many at once */
      for (unsigned i = 0; i < 64; i++) same[i] = labels[i] == code - 1;
      bits = pack(same);
    } else if (code) {
      bits = 0;
      for (unsigned i = 0; i < end; i++) bits |= (uint64_t)(labels[i] == code - 1) << i;
    }
    row[v / 64] = bits;
  }
}

/* Keeps in row the parents of the nodes that the child's row holds; 0 if none
 * is left. Parents are marked by bytes first: stores need not wait for each
 * other, as brothers setting bits of one word would. */
static uint64_t keep_parents(const struct table *doc, const uint8_t *child, uint64_t *row) {
  uint8_t parents[PATHPLUS_MAX_ROWS];
  uint64_t left = 0;
  memset(parents, 0, (doc->n + 63) & ~63u);
  for (unsigned v = 0; v < doc->n; v += 64) {
    uint64_t bits = load_bits(child + v / 8);
    if (v == 0) bits &= ~UINT64_C(1); /* the root is nobody's child */
    for (; bits; bits &= bits - 1) parents[doc->parents[v + (unsigned)__builtin_ctzll(bits)]] = 1;
  }
  for (unsigned v = 0; v < doc->n; v += 64) left |= row[v / 64] &= pack(parents + v);
  return left;
}

static void fill_matches(const struct rows *q, const struct table *doc, uint8_t *workspace) {
  memset(workspace, 0, PATHPLUS_WORKSPACE);
  for (unsigned u = q->n; u-- > 0;) {
    uint64_t row[PATHPLUS_MAX_ROWS / 64], left = 1;
    fitting(doc, q->code[u], row);
    for (unsigned k = u + 1; k < u + q->size[u] && left; k += q->size[k])
      left = keep_parents(doc, workspace + PATHPLUS_MATCH_ROW * k, row);
    for (unsigned v = 0; v < doc->n; v += 64)
      store_bits(workspace + PATHPLUS_MATCH_ROW * u + v / 8, row[v / 64]);
  }
}

/* Lays u on v and what is above u on what is above v: the only place for it.
 * Stops where the other mark's way has been, which must agree. */
static bool climb(const struct rows *q, const struct table *doc, const uint8_t *workspace,
                  unsigned u, unsigned v, uint16_t *place) {
  for (;; u = q->parent[u], v = doc->parents[v]) {
    if (!PATHPLUS_MATCHES(workspace, u, v)) return false;
    if (place[u] != NONE) return place[u] == v;
    place[u] = (uint16_t)v;
    if (u == 0) return true;
    if (v == 0) return false;
  }
}

uint64_t plain_selects(const uint8_t *word, size_t word_len, const uint32_t *parents,
                       size_t parents_len, const uint32_t *labels, size_t labels_len, uint64_t m,
                       uint64_t n, uint8_t *workspace, size_t workspace_len) {
  struct rows q;
  struct table doc = {parents, labels, (unsigned)parents_len};
  uint16_t place[MAX_NODES];
  uint64_t refusal = query_of(word, word_len, true, &q);
  if (refusal) return refusal;
  if (!good_table(parents, parents_len, labels, labels_len)) return refuse(PATHPLUS_BAD_TABLE, 0);
  if (m >= parents_len || n >= parents_len) return refuse(PATHPLUS_NO_SUCH_NODE, 0);
  if (workspace_len < PATHPLUS_WORKSPACE)
    return refuse(PATHPLUS_WORKSPACE_TOO_SHORT, PATHPLUS_WORKSPACE);
  fill_matches(&q, &doc, workspace);
  if (q.n == 0) return 0;
  for (unsigned u = 0; u < q.n; u++) place[u] = NONE;
  return climb(&q, &doc, workspace, q.s, (unsigned)m, place) &&
         climb(&q, &doc, workspace, q.d, (unsigned)n, place);
}
