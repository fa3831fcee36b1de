// What the two implementations over native words share below the mode.
#ifndef WORDS_H
#define WORDS_H

#include "cipher.h"

#define INLINE static inline __attribute__((always_inline))

typedef unsigned __int128 uint128_t;

static const uint8_t SBOX[256] = {SBOX_ENTRIES};

// The rule of four words.
#define FOUR_WORDS(x0, x1, x2, x3, linear) \
    do { \
        x0 ^= x2 ^ x3 ^ linear(x1 ^ x3); \
        x1 ^= x3 ^ x0 ^ linear(x2 ^ x0); \
        x2 ^= x0 ^ x1 ^ linear(x3 ^ x1); \
        x3 ^= x1 ^ x2 ^ linear(x0 ^ x2); \
    } while (0)

// The constants of the rounds, in words of 64 bits from the lowest on; the wide ones stand in the low halves of its four
// words, at the same places.
static const uint64_t CONSTANT[6][4] = {
    {0x0f1e2d3b, 0, 0, 0}, {0, 0x4b5a6978, 0, 0},           {0, 0, 0x8796a5b4, 0},
    {0, 0, 0, 0xc3d2e1f0}, {0x2d3c4b5a00000000, 0, 0, 0}, {0, 0, 0x6978879600000000, 0},
};

INLINE uint128_t joined(const uint64_t *at) { return (uint128_t)at[1] << 64 | at[0]; }

// Writes a word of 128 bits in two.
INLINE void part(uint128_t x, uint64_t *at) {
    at[0] = (uint64_t)x;
    at[1] = (uint64_t)(x >> 64);
}

#endif
