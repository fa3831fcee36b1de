// The cipher over native words, with D2 and D3 worked on many short words at once: since S moves every byte anyway, it
// can lay them so that the first, second, third and fourth words of several groups stand side by side in one word of 64
// bits, each in a lane of its own.
#include "words.h"

// S at byte i of x.
#define SUB(x, i) ((uint64_t)SBOX[(uint8_t)((x) >> (8 * (i)))])

// Eight bytes, the lowest first.
#define EIGHT(a, b, c, d, e, f, g, h) \
    ((a) | (b) << 8 | (c) << 16 | (d) << 24 | (e) << 32 | (f) << 40 | (g) << 48 | (h) << 56)

// Lanes of 8 bits without their lowest bit.
#define HIGH_7 0xfefefefefefefefe

INLINE uint64_t linear_64(uint64_t x) { return x << 1 ^ x >> 15; }
INLINE uint64_t linear_16(uint64_t x) { return (x << 1 & 0xfffefffefffefffe) ^ (x >> 1 & 0x7fff7fff7fff7fff); }
INLINE uint64_t linear_pair(uint64_t x) { return (x << 1 & HIGH_7) ^ (x >> 3 & 0x1f1f1f1f1f1f1f1f); }
INLINE uint128_t linear_128(uint128_t x) { return x << 1 ^ x >> 3; }
INLINE uint64_t linear_32(uint64_t x) { return (x << 1 & 0xfffffffefffffffe) ^ (x >> 3 & 0x1fffffff1fffffff); }
INLINE uint64_t linear_8(uint64_t x) {
    uint64_t z = x ^ (x << 1 & HIGH_7);
    return (z << 1 & HIGH_7) | (z >> 7 & 0x0101010101010101);
}

// The i-th words of 16 bits of four words, with S at every byte: lane k is that of word k.
#define GATHER(i) \
    EIGHT(SUB(x0, 2 * i), SUB(x0, 2 * i + 1), SUB(x1, 2 * i), SUB(x1, 2 * i + 1), SUB(x2, 2 * i), \
          SUB(x2, 2 * i + 1), SUB(x3, 2 * i), SUB(x3, 2 * i + 1))

// The low bytes (j is 0) or the high ones (j is 1) of the lanes of p and then of q, with S.
#define HALVES(p, q, j) \
    EIGHT(SUB(p, j), SUB(p, 2 + j), SUB(p, 4 + j), SUB(p, 6 + j), SUB(q, j), SUB(q, 2 + j), SUB(q, 4 + j), \
          SUB(q, 6 + j))

// Word k from the low bytes a, b and the high bytes c, d of its short words, with S.
#define WORD(k) \
    EIGHT(SUB(a, k), SUB(c, k), SUB(a, 4 + k), SUB(c, 4 + k), SUB(b, k), SUB(d, k), SUB(b, 4 + k), SUB(d, 4 + k))

INLINE void mix_narrow(uint64_t *state) {
    uint64_t x0 = state[0], x1 = state[1], x2 = state[2], x3 = state[3];
    for (int r = 0; r < 6; r++) {
        x0 ^= CONSTANT[r][0];
        x1 ^= CONSTANT[r][1];
        x2 ^= CONSTANT[r][2];
        x3 ^= CONSTANT[r][3];
        FOUR_WORDS(x0, x1, x2, x3, linear_64);
        uint64_t q0 = GATHER(0), q1 = GATHER(1), q2 = GATHER(2), q3 = GATHER(3);
        FOUR_WORDS(q0, q1, q2, q3, linear_16);
        uint64_t a = HALVES(q0, q1, 0), c = HALVES(q0, q1, 1);
        uint64_t b = HALVES(q2, q3, 0), d = HALVES(q2, q3, 1);
        a ^= linear_pair(c);
        c ^= linear_pair(a);
        b ^= linear_pair(d);
        d ^= linear_pair(b);
        x0 = WORD(0);
        x1 = WORD(1);
        x2 = WORD(2);
        x3 = WORD(3);
    }
    state[0] = x0, state[1] = x1, state[2] = x2, state[3] = x3;
}

// The i-th words of 32 bits of x and y, at byte i of both, with S at every byte.
#define PAIR(x, y, i) \
    EIGHT(SUB(x, i), SUB(x, i + 1), SUB(x, i + 2), SUB(x, i + 3), SUB(y, i), SUB(y, i + 1), SUB(y, i + 2), \
          SUB(y, i + 3))

// The bytes j of all lanes, with S.
#define BYTES(j) \
    EIGHT(SUB(q0, j), SUB(q0, 4 + j), SUB(q1, j), SUB(q1, 4 + j), SUB(q2, j), SUB(q2, 4 + j), SUB(q3, j), \
          SUB(q3, 4 + j))

// Two words of 32 bits from their bytes, at the places p and p + 2, with S.
#define HALF(p) \
    EIGHT(SUB(a0, p), SUB(a1, p), SUB(a2, p), SUB(a3, p), SUB(a0, p + 2), SUB(a1, p + 2), SUB(a2, p + 2), \
          SUB(a3, p + 2))

// What follows D1 in a round, at two wide words.
INLINE void finish_two(uint128_t *x, uint128_t *y) {
    uint64_t x_low = (uint64_t)*x, x_high = (uint64_t)(*x >> 64);
    uint64_t y_low = (uint64_t)*y, y_high = (uint64_t)(*y >> 64);
    uint64_t q0 = PAIR(x_low, y_low, 0), q1 = PAIR(x_low, y_low, 4);
    uint64_t q2 = PAIR(x_high, y_high, 0), q3 = PAIR(x_high, y_high, 4);
    FOUR_WORDS(q0, q1, q2, q3, linear_32);
    uint64_t a0 = BYTES(0), a1 = BYTES(1), a2 = BYTES(2), a3 = BYTES(3);
    FOUR_WORDS(a0, a1, a2, a3, linear_8);
    *x = (uint128_t)HALF(4) << 64 | HALF(0);
    *y = (uint128_t)HALF(5) << 64 | HALF(1);
}

INLINE void mix_wide(uint64_t *state) {
    uint128_t x0 = joined(state), x1 = joined(state + 2), x2 = joined(state + 4), x3 = joined(state + 6);
    for (int r = 0; r < 6; r++) {
        x0 ^= CONSTANT[r][0];
        x1 ^= CONSTANT[r][1];
        x2 ^= CONSTANT[r][2];
        x3 ^= CONSTANT[r][3];
        FOUR_WORDS(x0, x1, x2, x3, linear_128);
        finish_two(&x0, &x1);
        finish_two(&x2, &x3);
    }
    part(x0, state);
    part(x1, state + 2);
    part(x2, state + 4);
    part(x3, state + 6);
}

#define NAMED(name) lanes_##name
#include "words_mode.h"
