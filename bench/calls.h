/* The contestants of the benchmark that share one interface. */
#ifndef CALLS_H
#define CALLS_H

#include <stddef.h>
#include <stdint.h>

typedef uint64_t write_call(const uint8_t *word, size_t word_len, uint8_t *room, size_t room_len);
typedef uint64_t pair_call(const uint8_t *word, size_t word_len, const uint32_t *parents,
                           size_t parents_len, const uint32_t *labels, size_t labels_len,
                           uint64_t m, uint64_t n, uint8_t *workspace, size_t workspace_len);

struct calls {
  const char *name;
  write_call *plain_image, *minimal_image, *normal_form;
  pair_call *selects;
};

extern const struct calls library_calls, plain_calls;

#endif
