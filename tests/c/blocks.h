/* A trace's block as 02 has it: 128 words of 32 bits, the low byte first, that add up to 2^32 - 1. */
#ifndef BLOCKS_H
#define BLOCKS_H

#include <stddef.h>
#include <stdint.h>

#include "jambthrush.h"

/* Words: the block's number, how many rows, the first of the first row's twelve, the first behind the tenth row's, the check. */
enum { BLOCK_NUMBER = 0, BLOCK_COUNT = 1, BLOCK_FIRST = 2, BLOCK_ROW_WORDS = 12, BLOCK_BEHIND = 122, BLOCK_CHECK = 127 };

static inline uint32_t block_word(const uint8_t *block, size_t k) {
    const uint8_t *b = block + 4 * k;
    return b[0] | (uint32_t)b[1] << 8 | (uint32_t)b[2] << 16 | (uint32_t)b[3] << 24;
}

static inline void block_set(uint8_t *block, size_t k, uint32_t word) {
    for (size_t i = 0; i < 4; i++)
        block[4 * k + i] = (uint8_t)(word >> (8 * i));
}

static inline uint32_t block_sum(const uint8_t *block) {
    uint32_t sum = 0;
    for (size_t k = 0; k <= BLOCK_CHECK; k++)
        sum += block_word(block, k);
    return sum;
}

/* The check of a block in which something was changed. */
static inline void block_mend(uint8_t *block) {
    block_set(block, BLOCK_CHECK, block_word(block, BLOCK_CHECK) + (UINT32_MAX - block_sum(block)));
}

#endif
