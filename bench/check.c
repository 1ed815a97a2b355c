/* Holds an implementation against the specification: its table of small
 * queries, the cases at the limits, and the slow definitions of brute.c on
 * many random words and documents.
 *
 *     check plain|library [rounds]
 *
 * Prints each failure and, at the end, how many there were. */
#include <stdio.h>
#include <stdlib.h>
#include <string.h>

#include "brute.h"
#include "calls.h"
#include "pathplus.h"
#include "random.h"

enum {
  GUARD = 0x5A, /* what rooms hold before a call; below 128, so it ends a number */
  ROOM = 2200,
  SPACE = PATHPLUS_WORKSPACE + 100
};

/* What is checked, and how it went. */
struct check {
  const struct calls *calls;
  unsigned long failures, done;
};

static void expect(struct check *k, bool good, const char *what, const uint8_t *word, size_t len) {
  k->done++;
  if (good) return;
  if (++k->failures > 20) return; /* the first ones tell enough */
  printf("%s: %s fails on", k->calls->name, what);
  for (size_t i = 0; i < len && i < 64; i++) printf(" %02X", word[i]);
  printf(len > 64 ? " .. (%zu bytes)\n" : "\n", len);
}

static uint64_t refused(uint64_t number, uint64_t place) { return number << 32 | place; }

/* Hex with blanks to bytes; returns how many. */
static size_t bytes_of(const char *hex, uint8_t *out) {
  size_t n = 0;
  for (char *end; *hex; hex = end) {
    out[n++] = (uint8_t)strtoul(hex, &end, 16);
    while (*end == ' ') end++;
  }
  return n;
}

static bool all_guard(const uint8_t *from, size_t n) {
  for (size_t i = 0; i < n; i++)
    if (from[i] != GUARD) return false;
  return true;
}

/* Calls a writer with each interesting length of room: answered, it leaves
 * what is behind the answer; refused, it leaves everything. The answer goes to
 * `out` (ROOM bytes); returns its length, or 0 if the word is refused. */
static size_t write_checked(struct check *k, write_call *call, const uint8_t *word, size_t len,
                            uint8_t *out) {
  memset(out, GUARD, ROOM);
  uint64_t wanted = brute_refusal(word, len), r = call(word, len, out, ROOM);
  if (wanted) {
    expect(k, r == wanted && all_guard(out, ROOM), "refusal by a writer", word, len);
    expect(k, call(word, len, NULL, 0) == wanted, "refusal before 7", word, len);
    return 0;
  }
  bool good = r >= 1 && r <= PATHPLUS_NORMAL_ROOM && all_guard(out + r, ROOM - r);
  expect(k, good, "answer of a writer", word, len);
  if (!good) return 0;
  uint8_t room[ROOM];
  memset(room, GUARD, ROOM);
  expect(k, call(word, len, room, r - 1) == refused(7, r) && all_guard(room, ROOM), "refusal 7",
         word, len);
  expect(k, call(word, len, NULL, 0) == refused(7, r), "refusal 7 without room", word, len);
  expect(k, call(word, len, room, r) == r && !memcmp(room, out, ROOM), "exact room", word, len);
  return r;
}

static void expect_bytes(struct check *k, write_call *call, const char *hex, const char *answer) {
  uint8_t word[64], wanted[64], out[ROOM];
  size_t len = bytes_of(hex, word), n = bytes_of(answer, wanted);
  size_t r = write_checked(k, call, word, len, out);
  expect(k, r == n && !memcmp(out, wanted, n), "table of small queries", word, len);
}

static void check_table(struct check *k) {
  static const char *const rows[][3] = {
      {"01", "01 00 03 00", "01"},
      {"02", "02 00 01 01 00 02 00", "02"},
      {"03", "02 00 02 01 00 01 00", "03"},
      {"02 03 04", "02 00 03 01 00 00 00", "02 05"},
      {"03 02 04", "03 00 00 02 00 01 00 00 02 00", "03 02 04"},
      {"02 03 07", "00", "00"},
      {"0A 0B 04", "00", "00"},
      {"02 0A 04 05 02 05 04", "02 00 03 01 02 00 00", "02 0A 04 05"},
      {"02 0A 04 05 02 04", "03 00 01 02 00 02 00 02 00 00", "02 0A 04 05 02 04"},
      {"02 05 02 04 0A 04", "02 00 01 01 02 02 00", "02 0A 04"},
      {"0A 02 04 06 0B 04", "02 02 00 01 03 03 00", "0A 02 04 06 0B 04"},
      {"02 0A 04 08", "02 00 02 01 02 01 00", "0A 03 04"},
      /* byte order is not number order: labels 127, 255, 128 */
      {"02 88 01 04 05 02 89 01 04 05 04 02 88 02 04 05 04",
       "04 00 03 03 80 01 00 00 80 02 00 00 81 01 00 00",
       "02 88 01 04 05 02 88 02 04 05 04 02 89 01 04 05 04"},
      /* an unlabelled way above t stays; a chain holds branches */
      {"02 06", "02 00 00 01 00 03 00", "02 06"},
      {"02 02 04 05", "03 00 03 01 00 00 01 00 00 00", "02 02 04 05"},
      {"02 02 0A 04 05 04 02 0B 04 05 04 05", "04 00 03 01 00 00 02 02 00 00 03 00 00",
       "02 02 0A 04 05 04 02 0B 04 05 04 05"},
  };
  for (size_t i = 0; i < sizeof rows / sizeof *rows; i++) {
    expect_bytes(k, k->calls->minimal_image, rows[i][0], rows[i][1]);
    expect_bytes(k, k->calls->normal_form, rows[i][0], rows[i][2]);
  }
  expect_bytes(k, k->calls->plain_image, "02 0A 04 05 02 05 04", "03 00 03 02 00 00 00 02 00 00");
}

/* The same refusal (or answer, 0) by all calls; the model says it too. */
static void expect_refusal(struct check *k, const uint8_t *word, size_t len, uint64_t wanted) {
  uint8_t out[ROOM];
  expect(k, brute_refusal(word, len) == wanted, "the model at the limits", word, len);
  write_checked(k, k->calls->plain_image, word, len, out);
  write_checked(k, k->calls->minimal_image, word, len, out);
  write_checked(k, k->calls->normal_form, word, len, out);
  if (wanted)
    expect(k, k->calls->selects(word, len, NULL, 0, NULL, 0, 0, 0, NULL, 0) == wanted,
           "refusal by the pair question", word, len);
}

static void expect_hex(struct check *k, const char *hex, uint64_t wanted) {
  uint8_t word[64];
  expect_refusal(k, word, bytes_of(hex, word), wanted);
}

static void check_limits(struct check *k) {
  static uint8_t word[5000];
  expect_refusal(k, NULL, 0, refused(6, 0));
  expect_hex(k, "04", refused(3, 0));
  expect_hex(k, "80 00", refused(2, 0));
  expect_hex(k, "02 80", refused(2, 1));
  expect_hex(k, "02 02", refused(6, 2));
  expect_hex(k, "88 80 04", 0);
  expect_hex(k, "89 80 04", refused(2, 0));
  expect_hex(k, "81 80 80 01", refused(2, 0));
  expect_hex(k, "01 07", refused(3, 1));
  memset(word, 1, 5000);
  expect_refusal(k, word, 256, refused(6, 256));
  expect_refusal(k, word, 257, refused(4, 256));
  expect_refusal(k, word, 4097, refused(1, 4096));
  for (size_t i = 1; i < 4096; i += 2) word[i + 1] = 4;
  expect_refusal(k, word, 4095, 0); /* 2,048 operands, few at a time */
  expect_refusal(k, word, 4096, refused(6, 4096));
  memset(word, 2, 5000);
  expect_refusal(k, word, 256, refused(5, 255));
  word[255] = 1;
  expect_refusal(k, word, 257, refused(4, 256));
  for (size_t i = 1; i < 600; i += 2) word[i] = 2, word[i + 1] = 4;
  expect_refusal(k, word, 509, 0);
  expect_refusal(k, word, 511, refused(5, 509));
}

static size_t put_number(uint8_t *word, size_t n, uint32_t number) {
  for (; number >= 128; number /= 128) word[n++] = (uint8_t)(number % 128 + 128);
  word[n++] = (uint8_t)number;
  return n;
}

/* The longest answers there are: a labelled top with 255 labelled children. */
static void check_largest(struct check *k) {
  static uint8_t word[PATHPLUS_MAX_WORD], out[ROOM];
  size_t n = put_number(word, 0, 9 + 65535);
  for (uint32_t i = 0; i < PATHPLUS_MAX_STEPS; i++) {
    word[n++] = 2;
    n = put_number(word, n, 9 + 65000 + i);
    memcpy(word + n, (uint8_t[]){4, 5, 4}, 3);
    n += 3;
  }
  expect(k, write_checked(k, k->calls->plain_image, word, n, out) == 1283, "1,283", word, n);
  expect(k, write_checked(k, k->calls->minimal_image, word, n, out) == 1283, "1,283", word, n);
  expect(k, write_checked(k, k->calls->normal_form, word, n, out) == 1788, "1,788", word, n);
}

/* selects on a workspace that is guarded behind; what it left goes to space. */
static uint64_t ask(struct check *k, const uint8_t *word, size_t len, const struct small_doc *doc,
                    uint64_t m, uint64_t n, uint8_t *space) {
  memset(space, GUARD, SPACE);
  uint64_t r = k->calls->selects(word, len, doc->parents, doc->n, doc->labels, doc->n, m, n, space,
                                 SPACE - 1);
  expect(k, all_guard(space + PATHPLUS_WORKSPACE, SPACE - PATHPLUS_WORKSPACE),
         "bytes behind the workspace", word, len);
  return r;
}

static void check_pair_examples(struct check *k) {
  static uint8_t space[SPACE];
  struct small_doc doc = {3, {0, 0, 0}, {9, 1, 2}};
  uint8_t p5[8], p10[8];
  size_t n5 = bytes_of("03 02 04", p5), n10 = bytes_of("02 05 02 04 0A 04", p10);
  expect(k, ask(k, p5, n5, &doc, 1, 2, space) == 1, "P5 takes (1,2)", p5, n5);
  expect(k, ask(k, p5, n5, &doc, 1, 1, space) == 1, "P5 takes (1,1)", p5, n5);
  expect(k, ask(k, p10, n10, &doc, 0, 1, space) == 1, "P10 takes (0,1)", p10, n10);
  expect(k, ask(k, p10, n10, &doc, 0, 2, space) == 0, "P10 and not (0,2)", p10, n10);
}

/* Refusals 8, 9, 10 in their order, nothing changed. */
static void check_pair_refusals(struct check *k) {
  static uint8_t space[SPACE];
  static uint32_t zero[1025], big[1025], late[3] = {0, 1, 1}, top[3] = {1, 0, 0};
  const uint8_t empty[] = {0}, self[] = {1};
  pair_call *call = k->calls->selects;
  struct {
    const uint32_t *p;
    size_t np;
    const uint32_t *l;
    size_t nl;
    uint64_t m, n;
    size_t ws;
    uint64_t wanted;
  } cases[] = {{NULL, 0, NULL, 0, 9, 9, 0, refused(8, 0)},
               {zero, 1, zero, 2, 9, 9, 0, refused(8, 0)},
               {zero, 1025, zero, 1025, 9, 9, 0, refused(8, 0)},
               {top, 3, zero, 3, 9, 9, 0, refused(8, 0)},
               {late, 3, zero, 3, 9, 9, 0, refused(8, 0)},
               {zero, 1024, big, 1024, 0, 0, SPACE, refused(8, 0)},
               {zero, 3, zero, 3, 3, 0, 0, refused(9, 0)},
               {zero, 3, zero, 3, 0, UINT64_C(1) << 32, 0, refused(9, 0)},
               {zero, 3, zero, 3, UINT64_MAX, 0, SPACE, refused(9, 0)},
               {zero, 3, zero, 3, 2, 2, PATHPLUS_WORKSPACE - 1, refused(10, 32768)},
               {zero, 3, zero, 3, 2, 2, 0, refused(10, 32768)}};
  big[1023] = 65536;
  memset(space, GUARD, SPACE);
  for (size_t i = 0; i < sizeof cases / sizeof *cases; i++) {
    const uint8_t *word = i % 2 ? empty : self; /* empty is refused alike */
    uint64_t r = call(word, 1, cases[i].p, cases[i].np, cases[i].l, cases[i].nl, cases[i].m,
                      cases[i].n, space, cases[i].ws);
    expect(k, r == cases[i].wanted && all_guard(space, SPACE), "refusals 8 to 10", word, 1);
  }
  big[1023] = 65535;
  expect(k, call(self, 1, zero, 1024, big, 1024, 1023, 1023, space, PATHPLUS_WORKSPACE) == 1,
         "the largest table", self, 1);
}

/* ---- random words and documents ---- */

/* One of `variety` labels; some are far apart in bytes. */
static uint32_t random_label(struct random *g, unsigned variety) {
  static const uint32_t labels[] = {1, 0, 2, 127, 128, 255, 118, 119, 16383, 65535};
  return labels[random_below(g, variety)];
}

/* An accepted word with at most `steps` steps. In long words different labels
 * and intersections would nearly always clash somewhere and give empty, so
 * most of those have one label and none. */
static size_t random_word(struct random *g, unsigned steps, uint8_t *word) {
  bool calm = steps > 8 && random_below(g, 8);
  unsigned pending = 0, left = steps, variety = calm ? 1 : 1 + random_below(g, 10);
  unsigned meet = calm ? 0 : random_below(g, 8), one = 2 + random_below(g, 6);
  size_t n = 0;
  while (n < 3000 && (left || pending > 1)) {
    unsigned dice = random_below(g, 16);
    if (pending > 1 && (dice < 6 || !left || pending > 200))
      n = put_number(word, n, random_below(g, 20) < meet ? 7 : 4), pending--;
    else if (pending && dice < 6 + one / 2)
      n = put_number(word, n, (uint32_t[]){5, 5, 5, 6, 8}[random_below(g, 5)]);
    else if (left && random_below(g, 3))
      n = put_number(word, n, random_below(g, 3) ? 2 : 3), left--, pending++;
    else if (left && random_below(g, 60))
      n = put_number(word, n, random_below(g, 5) ? 9 + random_label(g, variety) : 1), pending++;
    else if (left && !calm && !random_below(g, 40)) word[n++] = 0, pending++;
  }
  while (pending > 1) word[n++] = 4, pending--;
  if (!pending) word[n++] = 1;
  return n;
}

static void random_doc(struct random *g, struct small_doc *doc) {
  doc->n = 1 + random_below(g, 9);
  doc->parents[0] = 0;
  unsigned deep = random_below(g, 3);
  for (unsigned v = 0; v < doc->n; v++) {
    if (v) doc->parents[v] = deep && random_below(g, 3) ? v - 1 : random_below(g, v);
    doc->labels[v] = random_label(g, 1 + random_below(g, 4));
  }
}

/* Brothers ascend by the bytes of their records; if folded, none folds. */
static bool well_ordered(const uint8_t *image, const struct query *q, bool folded) {
  for (unsigned u = 1; u < q->n; u++)
    for (unsigned v = 1; v < q->n; v++) {
      if (u == v || q->parent[u] != q->parent[v]) continue;
      if (folded && brute_folds(q, u, v)) return false;
      size_t a = q->to[u] - q->from[u], b = q->to[v] - q->from[v];
      if (u < v && memcmp(image + q->from[u], image + q->from[v], a < b ? a : b) > 0) return false;
    }
  return true;
}

static bool same_pairs(const struct query *q, const struct small_doc *doc, const struct pairs *p) {
  for (unsigned m = 0; m < doc->n; m++)
    for (unsigned n = 0; n < doc->n; n++)
      if (brute_selects(q, doc, m, n) != (p->to[m] >> n & 1)) return false;
  return true;
}

static bool right_matches(const struct query *q, const struct small_doc *doc,
                          const uint8_t *space) {
  for (unsigned u = 0; u < 256; u++)
    for (unsigned v = 0; v < 1024; v++) {
      bool wanted = u < q->n && v < doc->n && brute_lays(q, u, doc, v, -1, -1);
      if (PATHPLUS_MATCHES(space, u, v) != wanted) return false;
    }
  return true;
}

/* No 7 and no 8, and as many steps as nodes less one. */
static bool normal_signs(const uint8_t *word, size_t len, const struct query *q) {
  unsigned steps = 0;
  for (size_t at = 0; at < len;) {
    uint32_t sign = brute_number(word, &at);
    if (sign == 7 || sign == 8) return false;
    steps += sign == 2 || sign == 3;
  }
  return steps == (q->n ? q->n - 1 : 0);
}

/* All documents' part: word, plain, minimal and normal form mean the same. */
static void check_meaning(struct check *k, struct random *g, const uint8_t *word, size_t len,
                          const struct query *plain, const struct query *minimal,
                          const uint8_t *normal, size_t normal_len) {
  static uint8_t space[SPACE];
  struct small_doc doc;
  random_doc(g, &doc);
  struct pairs p = brute_pairs(word, len, &doc), pn = brute_pairs(normal, normal_len, &doc);
  expect(k, !memcmp(&p, &pn, sizeof p), "meaning of the normal form", word, len);
  expect(k, same_pairs(plain, &doc, &p), "meaning of the plain tree", word, len);
  expect(k, same_pairs(minimal, &doc, &p), "meaning of the minimal tree", word, len);
  for (unsigned m = 0; m < doc.n; m++)
    for (unsigned n = 0; n < doc.n; n++)
      expect(k, ask(k, word, len, &doc, m, n, space) == (p.to[m] >> n & 1), "pair question", word,
             len);
  expect(k, right_matches(minimal, &doc, space), "match table", word, len);
}

static void check_word(struct check *k, struct random *g, const uint8_t *word, size_t len) {
  static uint8_t plain[ROOM], minimal[ROOM], normal[ROOM], again[ROOM];
  static struct query pq, mq;
  size_t np = write_checked(k, k->calls->plain_image, word, len, plain);
  size_t nm = write_checked(k, k->calls->minimal_image, word, len, minimal);
  size_t nn = write_checked(k, k->calls->normal_form, word, len, normal);
  bool good = np && nm && nn && np <= 1538 && nm <= 1538 && brute_query(plain, np, &pq) &&
              brute_query(minimal, nm, &mq);
  expect(k, good, "images", word, len);
  if (!good) return;
  expect(k, !pq.n == !mq.n && (!pq.n || pq.n == brute_plain_nodes(word, len)), "plain nodes", word,
         len);
  expect(k, well_ordered(plain, &pq, false), "order of the plain image", word, len);
  expect(k, well_ordered(minimal, &mq, true), "order and folding of the minimal image", word, len);
  expect(k, normal_signs(normal, nn, &mq), "signs of the normal form", word, len);
  size_t na = write_checked(k, k->calls->minimal_image, normal, nn, again);
  expect(k, na == nm && !memcmp(again, minimal, nm), "minimal image of the normal form", word, len);
  na = write_checked(k, k->calls->normal_form, normal, nn, again);
  expect(k, na == nn && !memcmp(again, normal, nn), "normal form of the normal form", word, len);
  check_meaning(k, g, word, len, &pq, &mq, normal, nn);
}

/* A word with some bytes damaged: refusals by all calls. */
static void check_damaged(struct check *k, struct random *g, uint8_t *word, size_t len) {
  for (unsigned i = 1 + random_below(g, 3); i; i--)
    word[random_below(g, (uint32_t)len)] = (uint8_t)random_below(g, random_below(g, 2) ? 12 : 256);
  len -= random_below(g, 4) == 0;
  expect_refusal(k, word, len, brute_refusal(word, len));
}

int main(int argc, char **argv) {
  bool library = argc > 1 && !strcmp(argv[1], "library");
  long rounds = argc > 2 ? atol(argv[2]) : 2000;
  struct check k = {library ? &library_calls : &plain_calls, 0, 0};
  struct random g = random_from(20);
  static uint8_t word[5000];
  check_table(&k);
  check_limits(&k);
  check_largest(&k);
  check_pair_examples(&k);
  check_pair_refusals(&k);
  for (long i = 0; i < rounds; i++) {
    size_t len = random_word(&g, random_below(&g, 9), word);
    check_word(&k, &g, word, len);
    check_damaged(&k, &g, word, len);
    if (i % 20) continue;
    len = random_word(&g, random_below(&g, 256), word);
    check_word(&k, &g, word, len);
    check_damaged(&k, &g, word, len);
  }
  printf("%s: %lu of %lu checks failed\n", k.calls->name, k.failures, k.done);
  return k.failures != 0;
}
