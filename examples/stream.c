/* A small streaming server: it asks the library which curves of the cavity
 * store a saved query may have, and "sends" those by printing them.
 *
 * The store is a tree of presses, tools, cavities and curves. A tool that a
 * moulder may see carries that moulder's token as a child; the saved query has
 * a side branch that asks for it. That branch is the grant. */
#include <stdio.h>
#include <string.h>

#include "pathplus.h"

/* Labels of the store. The sign of label L in a word is 9 + L. */
enum { PRESS = 1, TOOL = 2, CAVITY = 3, CURVE = 4, TOKEN = 100, EXPIRED = 101 };
#define SIGN(label) (9 + (label))

/* The signs that are used below, by name. */
enum { CHILD = 2, THEN = 4, HAS = 5 };

/* From the press to a tool that has the token, to a cavity, to a curve. */
static const uint8_t saved[] = {
    SIGN(PRESS),
    CHILD, THEN, SIGN(TOOL), THEN,
    CHILD, SIGN(TOKEN), THEN, HAS, THEN, /* the grant */
    CHILD, THEN, SIGN(CAVITY), THEN,
    CHILD, THEN, SIGN(CURVE), THEN};

/* The same as an editor left it: the press has some tool, the tool has
 * something, has the token, and has a cavity; and then the way as above. */
static const uint8_t wordy[] = {
    SIGN(PRESS),
    CHILD, SIGN(TOOL), THEN, HAS, THEN,
    CHILD, THEN, SIGN(TOOL), THEN,
    CHILD, HAS, THEN,
    CHILD, SIGN(TOKEN), THEN, HAS, THEN, /* the grant */
    CHILD, SIGN(CAVITY), THEN, HAS, THEN,
    CHILD, THEN, SIGN(CAVITY), THEN,
    CHILD, THEN, SIGN(CURVE), THEN};

/* Node 0 is the press. Tool 1 carries the moulder's token, tool 6 none. */
enum { NODES = 9 };
static const uint32_t parents[NODES] = {0, 0, 1, 1, 3, 3, 0, 6, 7};
static const uint32_t labels[NODES] = {PRESS, TOOL, TOKEN, CAVITY, CURVE, CURVE,
                                       TOOL, CAVITY, CURVE};

/* Prints the curves that the query selects from the press. A refusal ends the
 * stream: what cannot be answered is never sent. */
static void stream(const char *title, const uint8_t *word, size_t len,
                   const uint32_t *store_parents, const uint32_t *store_labels) {
  static uint8_t workspace[PATHPLUS_WORKSPACE];
  printf("%s:", title);
  unsigned sent = 0;
  for (uint64_t n = 0; n < NODES; n++) {
    if (store_labels[n] != CURVE) continue;
    uint64_t r = pathplus_selects(word, len, store_parents, NODES, store_labels, NODES, 0, n,
                                  workspace, sizeof workspace);
    if (PATHPLUS_REFUSAL(r)) {
      printf(" refused %u %u\n", (unsigned)PATHPLUS_REFUSAL(r), (unsigned)PATHPLUS_VALUE(r));
      return;
    }
    if (PATHPLUS_VALUE(r)) printf(" curve %u", (unsigned)n), sent++;
  }
  puts(sent ? "" : " nothing");
}

static void print_hex(const char *title, const uint8_t *bytes, size_t n) {
  printf("%s:", title);
  for (size_t i = 0; i < n; i++) printf(" %02x", (unsigned)bytes[i]);
  puts("");
}

static void print_refusal(const char *title, uint64_t r) {
  printf("%s: refused %u %u\n", title, (unsigned)PATHPLUS_REFUSAL(r), (unsigned)PATHPLUS_VALUE(r));
}

/* The small form of a query drops what says nothing and keeps the grant. */
static void show_normal_form(void) {
  uint8_t normal[PATHPLUS_NORMAL_ROOM];
  uint64_t r = pathplus_normal_form(wordy, sizeof wordy, normal, sizeof normal);
  print_hex("wordy query", wordy, sizeof wordy);
  if (PATHPLUS_REFUSAL(r)) {
    print_refusal("normal form", r);
    return;
  }
  print_hex("normal form", normal, PATHPLUS_VALUE(r));
  print_hex("saved query", saved, sizeof saved);
  stream("normal form sends", normal, PATHPLUS_VALUE(r), parents, labels);
}

/* Whatever is handed in is answered or refused by number and place. */
static void show_refusals(void) {
  static uint8_t workspace[PATHPLUS_WORKSPACE];
  static const uint8_t cut[] = {CHILD, 0x80};
  uint32_t loop[NODES];
  uint8_t room[6];
  memcpy(loop, parents, sizeof loop);
  loop[3] = 5; /* a parent that comes later */
  print_refusal("word cut off", pathplus_minimal_image(cut, sizeof cut, room, sizeof room));
  print_refusal("room too short", pathplus_minimal_image(cut, 1, room, sizeof room));
  print_refusal("bad table",
                pathplus_selects(saved, sizeof saved, loop, NODES, labels, NODES, 0, 4,
                                 workspace, sizeof workspace));
  print_refusal("no such node",
                pathplus_selects(saved, sizeof saved, parents, NODES, labels, NODES, 0, NODES,
                                 workspace, sizeof workspace));
  print_refusal("short workspace",
                pathplus_selects(saved, sizeof saved, parents, NODES, labels, NODES, 0, 4,
                                 workspace, sizeof workspace - 1));
}

int main(void) {
  stream("store as it is", saved, sizeof saved, parents, labels);

  /* The tool is moved: in its new place it no longer carries the token, which
   * stays behind at the press. Nothing of the tool is sent. */
  uint32_t moved[NODES];
  memcpy(moved, parents, sizeof moved);
  moved[2] = 0;
  stream("tool moved", saved, sizeof saved, moved, labels);

  /* The grant has expired: its label differs from the one in the query. */
  uint32_t expired[NODES];
  memcpy(expired, labels, sizeof expired);
  expired[2] = EXPIRED;
  stream("grant expired", saved, sizeof saved, parents, expired);

  show_normal_form();
  show_refusals();
  return 0;
}
