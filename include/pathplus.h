/*
 * pathplus.h - verified Path+ queries for the cavity store (Gulphareti)
 *
 * This file is the manual of the C interface, from top to bottom: what a
 * query word is, the conventions of every call, the limits, the refusals,
 * and then the four calls. Link with target/staticlib/libpathplus.a
 * (`tools/archive`); nothing else is needed.
 *
 *
 * 1. WHAT A WORD IS
 *
 * A query selects pairs (m,n) of nodes of a document. It is handed over as a
 * word: a run of numbers in postfix order, each number in groups of seven
 * bits, low group first, the top bit of a byte set when another group
 * follows. Only the shortest writing of a number is read: 80 00 is refused.
 *
 *     number  sign               pairs selected on a document
 *     0       empty              none
 *     1       self               (m,m) for all m
 *     2       child              (m,n), n a child of m
 *     3       parent             (m,n), n the parent of m
 *     4       composition        (m,n) with some k: (m,k) by the first
 *                                operand, (k,n) by the second
 *     5       first projection   (m,m) with some n: (m,n)
 *     6       second projection  (n,n) with some m: (m,n)
 *     7       intersection       the pairs of both operands
 *     8       inverse            (n,m) for each (m,n)
 *     9+L     label L            (m,m), m labelled L; L is 0 to 65,535
 *
 * 4 and 7 take the two latest operands, the earlier one as first; 5, 6 and 8
 * take one. 2 and 3 are called steps. Example: the bytes 02 0A 04 05 02 04
 * say "has a child labelled 1; go on to any child" (XPath: .[child::a]/child::*).
 *
 * A document is a tree. It is handed over as a table: the parent number and
 * the label of each node, where node 0 is the root and its own parent, and
 * every other parent number is smaller than the node's own.
 *
 *
 * 2. CONVENTIONS OF EVERY CALL
 *
 * Result. Each call returns one 64-bit number. Its upper half is the number
 * of a refusal, or 0 where the call was answered; its lower half is the place
 * of the refusal, or the answer's value (a length, or 1 for yes and 0 for
 * no). Take it apart with PATHPLUS_REFUSAL and PATHPLUS_VALUE.
 *
 * Refusals. Any bytes, numbers and lengths may be handed in; what cannot be
 * answered is refused by number. A refusal changes no byte of any buffer.
 *
 * Answers. What is returned, and every byte of the room or the workspace
 * afterwards, is determined by what was handed in, and proved so.
 *
 * Pointers. A buffer is a pointer and a length in elements (so the length of
 * `parents` counts uint32_t). A pointer may be NULL only where its length is
 * 0. `parents` and `labels` are aligned as uint32_t is; bytes need no
 * alignment. The buffer that a call writes (`room`, `workspace`) must not
 * overlap any other that is handed to the same call; those that are only read
 * may overlap each other. Nothing of this paragraph can be checked by the
 * library: to keep to it is the caller's part.
 *
 * Memory, state, threads. Nothing is allocated, no buffer is kept after the
 * call, and there is no state: calls may run in parallel, in any threads, as
 * long as no two of them are lent the same room or workspace at one time. No
 * call waits, prints, or sets errno.
 *
 * Stack. It is bounded by the limits below. The deepest that was measured, by
 * `bench/run stack` over words made to be deep, is the pair question of two
 * branches of 128 and 127 nodes that are alike but for their ends: 24,872 bytes
 * on x86-64. The other calls took less than 24 KB. This is measured, not proved.
 */
#ifndef PATHPLUS_H
#define PATHPLUS_H

#include <stddef.h>
#include <stdint.h>

#ifdef __cplusplus
extern "C" {
#endif

/*
 * 3. LIMITS
 *
 * They keep every tree in local arrays, so that no call allocates and each
 * call's time and stack are bounded.
 */

/* Bytes of a word. Longer ones are refused unread (PATHPLUS_WORD_TOO_LONG). */
#define PATHPLUS_MAX_WORD 4096

/* Operands that may be pending at one time while a word is read. */
#define PATHPLUS_MAX_PENDING 256

/* Step signs (2 and 3) of a word. A tree query has at most one node more than
 * its word has steps, so no query has more than 256 nodes. */
#define PATHPLUS_MAX_STEPS 255

/* Nodes of a tree query: the steps, and one. */
#define PATHPLUS_MAX_QUERY_NODES 256

/* The largest label, in words and in tables, and its sign. */
#define PATHPLUS_MAX_LABEL 65535
#define PATHPLUS_MAX_SIGN 65544

/* Room that every image fits into: 2 bytes for the number of nodes, and for
 * each of 256 nodes 3 for the label code, 1 for the mark, 2 for the children. */
#define PATHPLUS_IMAGE_ROOM 1538

/* Room that every normal form fits into. It is shorter than the longest word,
 * so a normal form can always be saved and handed in again. */
#define PATHPLUS_NORMAL_ROOM 2048

/* Rows of a document table: 1 to 1,024. */
#define PATHPLUS_MAX_ROWS 1024

/* Bytes of one query node's row of match bits: one bit for each of 1,024
 * document nodes. */
#define PATHPLUS_MATCH_ROW 128

/* Workspace of the pair question: 256 query nodes of 128 bytes. It is the
 * same for all queries and documents, so one may be kept for each thread. */
#define PATHPLUS_WORKSPACE 32768

/*
 * 4. REFUSALS
 *
 * Each number is given exactly when its comment says so, and means the same
 * in every call. "Place" is the value of the result's lower half.
 *
 * Order, where several would fit: 1; then the signs of the word from left to
 * right, the first bad sign deciding (at one sign 4 goes before 5); then 6;
 * then 7 for the writers, or 8, 9, 10 for the pair question.
 */

/* 1: the word has more than 4,096 bytes. Place: 4,096. */
#define PATHPLUS_WORD_TOO_LONG 1

/* 2: a number of the word is cut off, is not in its shortest writing, or is
 * above 65,544. Place: its first byte. */
#define PATHPLUS_BAD_NUMBER 2

/* 3: an operator (4 to 8) finds fewer pending operands than it takes.
 * Place: the sign. */
#define PATHPLUS_MISSING_OPERAND 3

/* 4: an operand (0 to 3, or a label) would be the 257th pending one.
 * Place: the sign. */
#define PATHPLUS_TOO_MANY_PENDING 4

/* 5: a step (2 or 3) is the 256th step of the word. Place: the sign. */
#define PATHPLUS_TOO_MANY_STEPS 5

/* 6: at the end of the word, not exactly one operand is pending; so also for
 * no bytes at all. Place: the length of the word. */
#define PATHPLUS_NOT_ONE_OPERAND 6

/* 7 (writers): the room is shorter than the answer. Place: bytes needed, so
 * that a call with no room asks for the length. */
#define PATHPLUS_ROOM_TOO_SHORT 7

/* 8 (pair question): the table is bad. The two lists have different lengths,
 * or none or more than 1,024 rows, or node 0 has another parent than 0, or
 * some other node's parent number is not smaller than its own, or a label is
 * above 65,535. Place: 0. */
#define PATHPLUS_BAD_TABLE 8

/* 9 (pair question): m or n is not the number of a row. Place: 0. */
#define PATHPLUS_NO_SUCH_NODE 9

/* 10 (pair question): the workspace has under 32,768 bytes. Place: 32,768. */
#define PATHPLUS_WORKSPACE_TOO_SHORT 10

/* The refusal number of a result: one of the above, or 0 for an answer. */
static inline uint32_t PATHPLUS_REFUSAL(uint64_t result) {
  return (uint32_t)(result >> 32);
}

/* The place of a refusal, or the answer: a length written, or 1 or 0. */
static inline uint32_t PATHPLUS_VALUE(uint64_t result) {
  return (uint32_t)(result & UINT32_C(0xFFFFFFFF));
}

/*
 * 5. THE WRITERS
 *
 * Each of the three calls reads the word of `word_len` bytes at `word` and
 * writes its answer to the front of `room`.
 *
 *     answered   PATHPLUS_REFUSAL is 0, PATHPLUS_VALUE is the answer's length
 *                n, 1 or more; the first n bytes of the room are the answer
 *                and the later ones keep their values
 *     refused    1 to 7; the room keeps all its bytes
 *
 * The word is only read. `room` may be longer than the answer; with
 * PATHPLUS_IMAGE_ROOM or PATHPLUS_NORMAL_ROOM bytes there is no refusal 7.
 *
 * An image is a tree query in bytes: the number of nodes (0 for the empty
 * query, and then nothing more), and then the top's record. A record is the
 * label code (0 for a wildcard, else the label and 1), the mark (0 none,
 * 1 source, 2 destination, 3 both), the number of children, and then the
 * children's records in ascending byte order. All numbers are in seven-bit
 * groups in the shortest writing.
 */

/* The plain image: the tree query of the word as it was written, nothing
 * folded. At most 1,538 bytes. */
uint64_t pathplus_plain_image(const uint8_t *word, size_t word_len,
                              uint8_t *room, size_t room_len);

/* The minimal image: the smallest tree query that selects the same pairs on
 * every document. Two words select the same pairs on every document exactly
 * if their minimal images are the same bytes. The image is the one byte 00
 * exactly if no document yields any pair. At most 1,538 bytes. */
uint64_t pathplus_minimal_image(const uint8_t *word, size_t word_len,
                                uint8_t *room, size_t room_len);

/* The normal form: a word that selects the same pairs, with the fewest steps
 * that any such word has, and with no intersection and no inverse. Side
 * branches that say something (a grant, say) are always kept. At most 2,048
 * bytes; it is accepted by every call here, and its own normal form is itself. */
uint64_t pathplus_normal_form(const uint8_t *word, size_t word_len,
                              uint8_t *room, size_t room_len);

/*
 * 6. THE PAIR QUESTION
 *
 * Does the query of the word select the pair (m,n) of the document? The
 * document is the table of `parents` and `labels`: node v has the parent
 * parents[v] and the label labels[v], and parents_len equals labels_len.
 *
 *     answered   PATHPLUS_REFUSAL is 0, PATHPLUS_VALUE is 1 for yes and 0 for
 *                no; the workspace holds the match table, after no as well
 *     refused    1 to 6, 8 to 10; the workspace keeps all its bytes
 *
 * The match table: number the nodes of the minimal tree query from 0 in the
 * order of their records in the minimal image. Bit v mod 8 (the lowest bit
 * is 0) of byte 128u + v div 8 is set exactly if query node u with all below
 * it can be laid on the document with u on node v, the marks ignored. All
 * other bits of the first 32,768 bytes are clear, and for the empty query all
 * of them. Later bytes of the workspace keep their values. What stood in the
 * workspace before does not matter; it need not be cleared.
 *
 * word, parents and labels are only read. m and n have 64 bits so that no
 * node number of the caller's is cut down to one that is in the table.
 */
uint64_t pathplus_selects(const uint8_t *word, size_t word_len,
                          const uint32_t *parents, size_t parents_len,
                          const uint32_t *labels, size_t labels_len,
                          uint64_t m, uint64_t n,
                          uint8_t *workspace, size_t workspace_len);

/* 1 if, in the match table that an answered pair question left, query node u
 * (below 256) can lie on document node v (below 1,024); 0 if not. */
static inline int PATHPLUS_MATCHES(const uint8_t *workspace, size_t u, size_t v) {
  return (workspace[PATHPLUS_MATCH_ROW * u + v / 8] >> (v % 8)) & 1;
}

#ifdef __cplusplus
}
#endif

#endif /* PATHPLUS_H */
