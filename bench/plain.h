/* The plain C implementation: the four calls of pathplus.h under another
 * prefix. Results, refusals and buffers are as the manual there says. */
#ifndef PLAIN_H
#define PLAIN_H

#include <stddef.h>
#include <stdint.h>

uint64_t plain_plain_image(const uint8_t *word, size_t word_len, uint8_t *room, size_t room_len);
uint64_t plain_minimal_image(const uint8_t *word, size_t word_len, uint8_t *room, size_t room_len);
uint64_t plain_normal_form(const uint8_t *word, size_t word_len, uint8_t *room, size_t room_len);
uint64_t plain_selects(const uint8_t *word, size_t word_len, const uint32_t *parents,
                       size_t parents_len, const uint32_t *labels, size_t labels_len, uint64_t m,
                       uint64_t n, uint8_t *workspace, size_t workspace_len);

#endif
