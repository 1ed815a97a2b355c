/* Stands in for libpathplus.a (LIBRARY=plain), so that the example and the
 * benchmark can be run where the library has not been built. */
#include "pathplus.h"
#include "plain.h"

uint64_t pathplus_plain_image(const uint8_t *word, size_t word_len, uint8_t *room,
                              size_t room_len) {
  return plain_plain_image(word, word_len, room, room_len);
}

uint64_t pathplus_minimal_image(const uint8_t *word, size_t word_len, uint8_t *room,
                                size_t room_len) {
  return plain_minimal_image(word, word_len, room, room_len);
}

uint64_t pathplus_normal_form(const uint8_t *word, size_t word_len, uint8_t *room,
                              size_t room_len) {
  return plain_normal_form(word, word_len, room, room_len);
}

uint64_t pathplus_selects(const uint8_t *word, size_t word_len, const uint32_t *parents,
                          size_t parents_len, const uint32_t *labels, size_t labels_len, uint64_t m,
                          uint64_t n, uint8_t *workspace, size_t workspace_len) {
  return plain_selects(word, word_len, parents, parents_len, labels, labels_len, m, n, workspace,
                       workspace_len);
}
