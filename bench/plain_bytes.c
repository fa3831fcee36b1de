// The cipher over byte arrays, as its definition reads. A word of n bytes has its lowest byte first.
#include "cipher.h"

#include <string.h>

static const uint8_t SBOX[256] = {SBOX_ENTRIES};

// The linear map L of a word of n bytes: y = L(x).
typedef void linear(const uint8_t *x, int n, uint8_t *y);

// Byte i of x << by, and of x >> by.
static uint8_t left(const uint8_t *x, int i, int by) {
    int whole = by / 8, bits = by % 8;
    int high = i - whole >= 0 ? x[i - whole] : 0;
    int low = i - whole - 1 >= 0 ? x[i - whole - 1] : 0;
    return (uint8_t)(high << bits | low >> (8 - bits));
}

static uint8_t right(const uint8_t *x, int n, int i, int by) {
    int whole = by / 8, bits = by % 8;
    int low = i + whole < n ? x[i + whole] : 0;
    int high = i + whole + 1 < n ? x[i + whole + 1] : 0;
    return (uint8_t)(low >> bits | high << (8 - bits));
}

static void left_1_right_1(const uint8_t *x, int n, uint8_t *y) {
    for (int i = 0; i < n; i++) y[i] = left(x, i, 1) ^ right(x, n, i, 1);
}

static void left_1_right_3(const uint8_t *x, int n, uint8_t *y) {
    for (int i = 0; i < n; i++) y[i] = left(x, i, 1) ^ right(x, n, i, 3);
}

static void left_1_right_15(const uint8_t *x, int n, uint8_t *y) {
    for (int i = 0; i < n; i++) y[i] = left(x, i, 1) ^ right(x, n, i, 15);
}

static void rotated(const uint8_t *x, int n, uint8_t *y) {
    for (int i = 0; i < n; i++) {
        uint8_t z = (uint8_t)(x[i] ^ x[i] << 1);
        y[i] = (uint8_t)(z << 1 | z >> 7);
    }
}

// a := a + b + c + L(d + e), where + is exclusive or
static void gather(uint8_t *a, const uint8_t *b, const uint8_t *c, const uint8_t *d, const uint8_t *e, int n,
                   linear *map) {
    uint8_t sum[16], mapped[16];
    for (int i = 0; i < n; i++) sum[i] = d[i] ^ e[i];
    map(sum, n, mapped);
    for (int i = 0; i < n; i++) a[i] ^= b[i] ^ c[i] ^ mapped[i];
}

// The rule of four words of n bytes.
static void four_words(uint8_t *x, int n, linear *map) {
    uint8_t *x0 = x, *x1 = x + n, *x2 = x + 2 * n, *x3 = x + 3 * n;
    gather(x0, x2, x3, x1, x3, n, map);
    gather(x1, x3, x0, x2, x0, n, map);
    gather(x2, x0, x1, x3, x1, n, map);
    gather(x3, x1, x2, x0, x2, n, map);
}

// The rule of two bytes.
static void two_words(uint8_t *x) {
    uint8_t mapped[1];
    left_1_right_3(x + 1, 1, mapped);
    x[0] ^= mapped[0];
    left_1_right_3(x, 1, mapped);
    x[1] ^= mapped[0];
}

static void substitute(uint8_t *state, int length) {
    for (int i = 0; i < length; i++) state[i] = SBOX[state[i]];
}

// The constant of each round is a word of 32 bits at a place, in bits.
static const uint32_t CONSTANT[6] = {0x0f1e2d3b, 0x4b5a6978, 0x8796a5b4, 0xc3d2e1f0, 0x2d3c4b5a, 0x69788796};
static const int NARROW_PLACE[6] = {0, 64, 128, 192, 32, 160};
static const int WIDE_PLACE[6] = {0, 128, 256, 384, 32, 288};

static void add_constant(uint8_t *state, uint32_t constant, int place) {
    for (int i = 0; i < 4; i++) state[place / 8 + i] ^= (uint8_t)(constant >> (8 * i));
}

void bytes_narrow_mix(uint8_t *state) {
    for (int r = 0; r < 6; r++) {
        add_constant(state, CONSTANT[r], NARROW_PLACE[r]);
        four_words(state, 8, left_1_right_15);
        substitute(state, 32);
        for (int i = 0; i < 32; i += 8) four_words(state + i, 2, left_1_right_1);
        substitute(state, 32);
        for (int i = 0; i < 32; i += 2) two_words(state + i);
        substitute(state, 32);
    }
}

void bytes_wide_mix(uint8_t *state) {
    for (int r = 0; r < 6; r++) {
        add_constant(state, CONSTANT[r], WIDE_PLACE[r]);
        four_words(state, 16, left_1_right_3);
        substitute(state, 64);
        for (int i = 0; i < 64; i += 16) four_words(state + i, 4, left_1_right_3);
        substitute(state, 64);
        for (int i = 0; i < 64; i += 4) four_words(state + i, 1, rotated);
        substitute(state, 64);
    }
}

// The mode. The chain is a state, with the lower block first, and the block before the next one.
struct chain {
    mix_function *mix;
    size_t block;
    uint8_t state[64];
    uint8_t previous[32];
};

static void exclusive_or(uint8_t *x, const uint8_t *y, size_t length) {
    for (size_t i = 0; i < length; i++) x[i] ^= y[i];
}

// Takes in a block of data or message, and writes its ciphertext.
static void absorb(struct chain *chain, const uint8_t *block, uint8_t *cipher) {
    size_t b = chain->block;
    chain->mix(chain->state);
    exclusive_or(chain->state, chain->previous, b);
    exclusive_or(chain->state + b, block, b);
    memcpy(chain->previous, block, b);
    memcpy(cipher, chain->state + b, b);
}

// Takes in a block of ciphertext, and writes its message block.
static void recover(struct chain *chain, const uint8_t *cipher, uint8_t *block) {
    size_t b = chain->block;
    chain->mix(chain->state);
    exclusive_or(chain->state, chain->previous, b);
    memcpy(block, chain->state + b, b);
    exclusive_or(block, cipher, b);
    memcpy(chain->state + b, cipher, b);
    memcpy(chain->previous, block, b);
}

static void begin(struct chain *chain, const uint8_t *key, const uint8_t *nonce, size_t nonce_length,
                  const uint8_t *data, size_t data_length) {
    size_t b = chain->block;
    uint8_t ignored[32];
    memset(chain->previous, 0, b);
    memcpy(chain->previous, nonce, nonce_length);
    memcpy(chain->state, key, b);
    memcpy(chain->state + b, chain->previous, b);
    if (data_length > 0) {
        size_t whole = data_length / b * b;
        uint8_t last[32] = {0};
        for (size_t i = 0; i < whole; i += b) absorb(chain, data + i, ignored);
        memcpy(last, data + whole, data_length - whole);
        last[data_length - whole] = 1;
        absorb(chain, last, ignored);
    }
}

static void make_tag(struct chain *chain, const uint8_t *key, uint8_t *tag) {
    size_t b = chain->block;
    chain->mix(chain->state);
    memcpy(tag, chain->state, b);
    exclusive_or(tag, chain->previous, b);
    exclusive_or(tag, key, b);
}

static size_t cipher_length_for(size_t block, size_t message_length) {
    return (message_length + TRAILER + block - 1) / block * block;
}

static void make_trailer(size_t block, size_t nonce_length, size_t data_length, size_t message_length,
                         uint8_t *trailer) {
    unsigned __int128 number = (unsigned __int128)1 << 64 | 8 * message_length;
    number = number << 24 | 8 * data_length;
    number = number << (block == 16 ? 8 : 9) | 8 * nonce_length;
    for (int i = 0; i < TRAILER; i++) trailer[i] = (uint8_t)(number >> (8 * i));
}

static struct answer refused(uint8_t code) {
    return (struct answer){code, 0};
}

static struct answer seal(mix_function *mix, size_t block, const uint8_t *key, size_t key_length,
                          const uint8_t *nonce, size_t nonce_length, const uint8_t *data, size_t data_length,
                          const uint8_t *message, size_t message_length, uint8_t *out, size_t room) {
    if (key_length != block) return refused(KEY_LENGTH);
    if (nonce_length > block) return refused(NONCE_TOO_LONG);
    if (data_length > DATA_MOST) return refused(DATA_TOO_LONG);
    if (message_length > MESSAGE_MOST) return refused(MESSAGE_TOO_LONG);
    size_t cipher_length = cipher_length_for(block, message_length);
    if (room < cipher_length + block) return refused(BUFFER_TOO_SHORT);
    struct chain chain = {.mix = mix, .block = block};
    begin(&chain, key, nonce, nonce_length, data, data_length);
    memcpy(out, message, message_length);
    make_trailer(block, nonce_length, data_length, message_length, out + message_length);
    memset(out + message_length + TRAILER, 0, cipher_length - message_length - TRAILER);
    for (size_t i = 0; i < cipher_length; i += block) {
        uint8_t padded[32];
        memcpy(padded, out + i, block);
        absorb(&chain, padded, out + i);
    }
    make_tag(&chain, key, out + cipher_length);
    return (struct answer){DONE, cipher_length + block};
}

// The length of the message whose padding is `text`, or -1.
static ptrdiff_t message_length_in(size_t block, size_t nonce_length, size_t data_length, const uint8_t *text,
                                   size_t length) {
    uint8_t trailer[TRAILER];
    size_t end = length;
    while (end > 0 && text[end - 1] == 0) end--;
    if (end < TRAILER || end > MESSAGE_MOST + TRAILER) return -1;
    size_t message_length = end - TRAILER;
    if (length != cipher_length_for(block, message_length)) return -1;
    make_trailer(block, nonce_length, data_length, message_length, trailer);
    return memcmp(trailer, text + message_length, TRAILER) == 0 ? (ptrdiff_t)message_length : -1;
}

static struct answer open(mix_function *mix, size_t block, const uint8_t *key, size_t key_length,
                          const uint8_t *nonce, size_t nonce_length, const uint8_t *data, size_t data_length,
                          const uint8_t *cipher, size_t cipher_length, const uint8_t *tag, size_t tag_length,
                          uint8_t *text, size_t room) {
    if (key_length != block) return refused(KEY_LENGTH);
    if (nonce_length > block) return refused(NONCE_TOO_LONG);
    if (data_length > DATA_MOST) return refused(DATA_TOO_LONG);
    if (tag_length != block || cipher_length == 0 || cipher_length % block != 0 ||
        cipher_length > MESSAGE_MOST + block)
        return refused(CIPHER_LENGTH);
    if (room < cipher_length) return refused(BUFFER_TOO_SHORT);
    struct chain chain = {.mix = mix, .block = block};
    uint8_t expected[32];
    uint8_t difference = 0;
    ptrdiff_t length = -1;
    begin(&chain, key, nonce, nonce_length, data, data_length);
    for (size_t i = 0; i < cipher_length; i += block) recover(&chain, cipher + i, text + i);
    make_tag(&chain, key, expected);
    for (size_t i = 0; i < block; i++) difference |= expected[i] ^ tag[i];
    if (difference == 0) length = message_length_in(block, nonce_length, data_length, text, cipher_length);
    if (length < 0) {
        memset(text, 0, cipher_length);
        return refused(NOT_AUTHENTIC);
    }
    memset(text + length, 0, cipher_length - (size_t)length);
    return (struct answer){DONE, (size_t)length};
}

#define SEAL_AT(name, mix, block) \
    struct answer name(const uint8_t *key, size_t key_length, const uint8_t *nonce, size_t nonce_length, \
                       const uint8_t *data, size_t data_length, const uint8_t *message, size_t message_length, \
                       uint8_t *out, size_t room) { \
        return seal(mix, block, key, key_length, nonce, nonce_length, data, data_length, message, message_length, \
                    out, room); \
    }

#define OPEN_AT(name, mix, block) \
    struct answer name(const uint8_t *key, size_t key_length, const uint8_t *nonce, size_t nonce_length, \
                       const uint8_t *data, size_t data_length, const uint8_t *cipher, size_t cipher_length, \
                       const uint8_t *tag, size_t tag_length, uint8_t *text, size_t room) { \
        return open(mix, block, key, key_length, nonce, nonce_length, data, data_length, cipher, cipher_length, tag, \
                    tag_length, text, room); \
    }

SEAL_AT(bytes_narrow_seal, bytes_narrow_mix, 16)
SEAL_AT(bytes_wide_seal, bytes_wide_mix, 32)
OPEN_AT(bytes_narrow_open, bytes_narrow_mix, 16)
OPEN_AT(bytes_wide_open, bytes_wide_mix, 32)
