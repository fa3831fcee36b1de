// The cipher over native words. A state is an array of words of 64 bits, the lowest first: 4 (narrow) or 8 (wide).
// The machine has its bytes lowest first, as the cipher has.
#include "words.h"

// S at byte i of x, as a number.
#define SUB(x, i) SBOX[(uint8_t)((x) >> (8 * (i)))]

INLINE uint64_t linear_64(uint64_t x) { return x << 1 ^ x >> 15; }
INLINE uint16_t linear_16(uint16_t x) { return (uint16_t)(x << 1 ^ x >> 1); }
INLINE uint8_t linear_pair(uint8_t x) { return (uint8_t)(x << 1 ^ x >> 3); }
INLINE uint128_t linear_128(uint128_t x) { return x << 1 ^ x >> 3; }
INLINE uint32_t linear_32(uint32_t x) { return x << 1 ^ x >> 3; }
INLINE uint8_t linear_8(uint8_t x) {
    uint8_t z = (uint8_t)(x ^ x << 1);
    return (uint8_t)(z << 1 | z >> 7);
}

// S, the rule of two bytes, S.
INLINE uint64_t finish_pair(uint16_t x) {
    uint8_t x0 = SUB(x, 0), x1 = SUB(x, 1);
    x0 ^= linear_pair(x1);
    x1 ^= linear_pair(x0);
    return (uint64_t)SBOX[x0] | (uint64_t)SBOX[x1] << 8;
}

// What follows D1 in a round, at a narrow word: S, D2, S, D3, S.
INLINE uint64_t finish_narrow(uint64_t x) {
    uint16_t x0 = (uint16_t)(SUB(x, 0) | SUB(x, 1) << 8), x1 = (uint16_t)(SUB(x, 2) | SUB(x, 3) << 8);
    uint16_t x2 = (uint16_t)(SUB(x, 4) | SUB(x, 5) << 8), x3 = (uint16_t)(SUB(x, 6) | SUB(x, 7) << 8);
    FOUR_WORDS(x0, x1, x2, x3, linear_16);
    return finish_pair(x0) | finish_pair(x1) << 16 | finish_pair(x2) << 32 | finish_pair(x3) << 48;
}

INLINE void mix_narrow(uint64_t *state) {
    uint64_t x0 = state[0], x1 = state[1], x2 = state[2], x3 = state[3];
    for (int r = 0; r < 6; r++) {
        x0 ^= CONSTANT[r][0];
        x1 ^= CONSTANT[r][1];
        x2 ^= CONSTANT[r][2];
        x3 ^= CONSTANT[r][3];
        FOUR_WORDS(x0, x1, x2, x3, linear_64);
        x0 = finish_narrow(x0);
        x1 = finish_narrow(x1);
        x2 = finish_narrow(x2);
        x3 = finish_narrow(x3);
    }
    state[0] = x0, state[1] = x1, state[2] = x2, state[3] = x3;
}

INLINE uint32_t sub_word(uint32_t x) {
    return (uint32_t)SUB(x, 0) | (uint32_t)SUB(x, 1) << 8 | (uint32_t)SUB(x, 2) << 16 | (uint32_t)SUB(x, 3) << 24;
}

// S, the rule of four bytes, S.
INLINE uint64_t finish_four(uint32_t x) {
    uint8_t x0 = SUB(x, 0), x1 = SUB(x, 1), x2 = SUB(x, 2), x3 = SUB(x, 3);
    FOUR_WORDS(x0, x1, x2, x3, linear_8);
    return (uint32_t)SBOX[x0] | (uint32_t)SBOX[x1] << 8 | (uint32_t)SBOX[x2] << 16 | (uint32_t)SBOX[x3] << 24;
}

// What follows D1 in a round, at a wide word.
INLINE uint128_t finish_wide(uint128_t x) {
    uint64_t low = (uint64_t)x, high = (uint64_t)(x >> 64);
    uint32_t x0 = sub_word((uint32_t)low), x1 = sub_word((uint32_t)(low >> 32));
    uint32_t x2 = sub_word((uint32_t)high), x3 = sub_word((uint32_t)(high >> 32));
    FOUR_WORDS(x0, x1, x2, x3, linear_32);
    low = finish_four(x0) | finish_four(x1) << 32;
    high = finish_four(x2) | finish_four(x3) << 32;
    return (uint128_t)high << 64 | low;
}

INLINE void mix_wide(uint64_t *state) {
    uint128_t x0 = joined(state), x1 = joined(state + 2), x2 = joined(state + 4), x3 = joined(state + 6);
    for (int r = 0; r < 6; r++) {
        x0 ^= CONSTANT[r][0];
        x1 ^= CONSTANT[r][1];
        x2 ^= CONSTANT[r][2];
        x3 ^= CONSTANT[r][3];
        FOUR_WORDS(x0, x1, x2, x3, linear_128);
        x0 = finish_wide(x0);
        x1 = finish_wide(x1);
        x2 = finish_wide(x2);
        x3 = finish_wide(x3);
    }
    part(x0, state);
    part(x1, state + 2);
    part(x2, state + 4);
    part(x3, state + 6);
}

#define NAMED(name) words_##name
#include "words_mode.h"
