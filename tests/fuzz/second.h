/* The second implementation (tests/src/exported.rs): what include/poheldu.h declares, under names of its own. */
#ifndef SECOND_H
#define SECOND_H

#include "poheldu.h"

poheldu_answer reference_open(uint8_t *heap, size_t heap_len, uint8_t *metadata, size_t metadata_len, uint32_t z, uint32_t w, uint32_t pattern);
poheldu_answer reference_serve(uint8_t *heap, size_t heap_len, uint8_t *metadata, size_t metadata_len,
                               const uint8_t *request, size_t request_len, const uint8_t *source, size_t source_len, const uint8_t *page,
                               size_t page_len);
poheldu_part reference_read(const uint8_t *heap, size_t heap_len, const uint8_t *metadata, size_t metadata_len, uint32_t offset, uint32_t count,
                            const uint8_t *page, size_t page_len);
poheldu_answer reference_inspect(const uint8_t *heap, size_t heap_len, const uint8_t *metadata, size_t metadata_len, uint32_t *list,
                                 size_t list_len);
poheldu_verdict reference_vote(const uint8_t *blocks, size_t blocks_len, size_t replicas, size_t block_len, uint8_t *output, size_t output_len);
poheldu_verdict reference_vote_whole(const uint8_t *outputs, size_t outputs_len, size_t replicas, size_t length, uint8_t *output, size_t output_len);
size_t reference_metadata_length(size_t heap_len);
poheldu_slot reference_nth_slot(size_t heap_len, const uint8_t *metadata, size_t metadata_len, uint32_t size_class, uint32_t number);
poheldu_slot reference_find_slot(size_t heap_len, const uint8_t *metadata, size_t metadata_len, uint32_t offset);
size_t reference_count_slots(size_t heap_len, const uint8_t *metadata, size_t metadata_len);
uint32_t reference_stored_pattern(size_t heap_len, const uint8_t *metadata, size_t metadata_len);

#endif
