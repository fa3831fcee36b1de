// The mode over native words. Included by what has the mixings mix_narrow and mix_wide of a state in words of 64 bits,
// the lowest first, and NAMED, which makes the name of an exported function.
#include <string.h>

// At both widths, for a block of `words` words, a constant of each call. The mixing is inlined: as a call it would write
// the state to memory and read it again at every block.
INLINE void mix(int words, uint64_t *state) {
    if (words == 2)
        mix_narrow(state);
    else
        mix_wide(state);
}

void NAMED(narrow_mix)(uint8_t *state) {
    uint64_t x[4];
    memcpy(x, state, sizeof x);
    mix_narrow(x);
    memcpy(state, x, sizeof x);
}

void NAMED(wide_mix)(uint8_t *state) {
    uint64_t x[8];
    memcpy(x, state, sizeof x);
    mix_wide(x);
    memcpy(state, x, sizeof x);
}

// The mode. The chain is a state, with the lower block first, and the block before the next one.
struct chain {
    uint64_t state[8];
    uint64_t previous[4];
};

// Takes in a block of data or message. Its ciphertext is then the upper block of the state.
INLINE void absorb(int words, struct chain *chain, const uint8_t *block) {
    uint64_t next[4];
    memcpy(next, block, 8 * (size_t)words);
    mix(words, chain->state);
    for (int i = 0; i < words; i++) {
        chain->state[i] ^= chain->previous[i];
        chain->state[words + i] ^= next[i];
        chain->previous[i] = next[i];
    }
}

// Takes in a block of ciphertext. Its message block is then the block before.
INLINE void recover(int words, struct chain *chain, const uint8_t *cipher) {
    uint64_t next[4];
    memcpy(next, cipher, 8 * (size_t)words);
    mix(words, chain->state);
    for (int i = 0; i < words; i++) {
        chain->state[i] ^= chain->previous[i];
        chain->previous[i] = chain->state[words + i] ^ next[i];
        chain->state[words + i] = next[i];
    }
}

INLINE void begin(int words, struct chain *chain, const uint8_t *key, const uint8_t *nonce, size_t nonce_length,
                  const uint8_t *data, size_t data_length) {
    size_t b = 8 * (size_t)words;
    memset(chain->previous, 0, b);
    memcpy(chain->previous, nonce, nonce_length);
    memcpy(chain->state, key, b);
    memcpy(chain->state + words, chain->previous, b);
    if (data_length > 0) {
        uint8_t last[32] = {0};
        for (; data_length >= b; data += b, data_length -= b) absorb(words, chain, data);
        memcpy(last, data, data_length);
        last[data_length] = 1;
        absorb(words, chain, last);
    }
}

INLINE void make_tag(int words, struct chain *chain, const uint8_t *key, uint64_t *tag) {
    uint64_t secret[4];
    memcpy(secret, key, 8 * (size_t)words);
    mix(words, chain->state);
    for (int i = 0; i < words; i++) tag[i] = chain->state[i] ^ chain->previous[i] ^ secret[i];
}

INLINE size_t cipher_length_for(size_t block, size_t message_length) {
    return (message_length + TRAILER + block - 1) / block * block;
}

// Writes 13 bytes.
INLINE void make_trailer(int words, size_t nonce_length, size_t data_length, size_t message_length,
                         uint8_t *trailer) {
    uint128_t number = (uint128_t)1 << 64 | 8 * message_length;
    number = number << 24 | 8 * data_length;
    number = number << (words == 2 ? 8 : 9) | 8 * nonce_length;
    memcpy(trailer, &number, TRAILER);
}

INLINE struct answer refused(uint8_t code) { return (struct answer){code, 0}; }

INLINE struct answer seal(int words, const uint8_t *key, size_t key_length, const uint8_t *nonce,
                          size_t nonce_length, const uint8_t *data, size_t data_length, const uint8_t *message,
                          size_t message_length, uint8_t *out, size_t room) {
    size_t b = 8 * (size_t)words;
    if (key_length != b) return refused(KEY_LENGTH);
    if (nonce_length > b) return refused(NONCE_TOO_LONG);
    if (data_length > DATA_MOST) return refused(DATA_TOO_LONG);
    if (message_length > MESSAGE_MOST) return refused(MESSAGE_TOO_LONG);
    size_t cipher_length = cipher_length_for(b, message_length);
    if (room < cipher_length + b) return refused(BUFFER_TOO_SHORT);

    struct chain chain;
    begin(words, &chain, key, nonce, nonce_length, data, data_length);
    size_t whole = message_length / b * b;
    for (size_t i = 0; i < whole; i += b) {
        absorb(words, &chain, message + i);
        memcpy(out + i, chain.state + words, b);
    }
    uint8_t rest[64] = {0};
    memcpy(rest, message + whole, message_length - whole);
    make_trailer(words, nonce_length, data_length, message_length, rest + (message_length - whole));
    for (size_t i = whole; i < cipher_length; i += b) {
        absorb(words, &chain, rest + (i - whole));
        memcpy(out + i, chain.state + words, b);
    }
    uint64_t tag[4];
    make_tag(words, &chain, key, tag);
    memcpy(out + cipher_length, tag, b);
    return (struct answer){DONE, cipher_length + b};
}

// The length of the message whose padding is `text`, or -1.
INLINE ptrdiff_t message_length_in(int words, size_t nonce_length, size_t data_length, const uint8_t *text,
                                   size_t length) {
    uint8_t trailer[TRAILER];
    size_t end = length;
    while (end > 0 && text[end - 1] == 0) end--;
    if (end < TRAILER || end > MESSAGE_MOST + TRAILER) return -1;
    size_t message_length = end - TRAILER;
    if (length != cipher_length_for(8 * (size_t)words, message_length)) return -1;
    make_trailer(words, nonce_length, data_length, message_length, trailer);
    return memcmp(trailer, text + message_length, TRAILER) == 0 ? (ptrdiff_t)message_length : -1;
}

INLINE struct answer open(int words, const uint8_t *key, size_t key_length, const uint8_t *nonce,
                          size_t nonce_length, const uint8_t *data, size_t data_length, const uint8_t *cipher,
                          size_t cipher_length, const uint8_t *tag, size_t tag_length, uint8_t *text, size_t room) {
    size_t b = 8 * (size_t)words;
    if (key_length != b) return refused(KEY_LENGTH);
    if (nonce_length > b) return refused(NONCE_TOO_LONG);
    if (data_length > DATA_MOST) return refused(DATA_TOO_LONG);
    if (tag_length != b || cipher_length == 0 || cipher_length % b != 0 || cipher_length > MESSAGE_MOST + b)
        return refused(CIPHER_LENGTH);
    if (room < cipher_length) return refused(BUFFER_TOO_SHORT);

    struct chain chain;
    uint64_t expected[4], given[4], difference = 0;
    ptrdiff_t length = -1;
    begin(words, &chain, key, nonce, nonce_length, data, data_length);
    for (size_t i = 0; i < cipher_length; i += b) {
        recover(words, &chain, cipher + i);
        memcpy(text + i, chain.previous, b);
    }
    make_tag(words, &chain, key, expected);
    memcpy(given, tag, b);
    for (int i = 0; i < words; i++) difference |= expected[i] ^ given[i];
    if (difference == 0) length = message_length_in(words, nonce_length, data_length, text, cipher_length);
    if (length < 0) {
        memset(text, 0, cipher_length);
        return refused(NOT_AUTHENTIC);
    }
    memset(text + length, 0, cipher_length - (size_t)length);
    return (struct answer){DONE, (size_t)length};
}

#define SEAL_AT(name, words) \
    struct answer name(const uint8_t *key, size_t key_length, const uint8_t *nonce, size_t nonce_length, \
                       const uint8_t *data, size_t data_length, const uint8_t *message, size_t message_length, \
                       uint8_t *out, size_t room) { \
        return seal(words, key, key_length, nonce, nonce_length, data, data_length, message, message_length, out, \
                    room); \
    }

#define OPEN_AT(name, words) \
    struct answer name(const uint8_t *key, size_t key_length, const uint8_t *nonce, size_t nonce_length, \
                       const uint8_t *data, size_t data_length, const uint8_t *cipher, size_t cipher_length, \
                       const uint8_t *tag, size_t tag_length, uint8_t *text, size_t room) { \
        return open(words, key, key_length, nonce, nonce_length, data, data_length, cipher, cipher_length, tag, \
                    tag_length, text, room); \
    }

SEAL_AT(NAMED(narrow_seal), 2)
SEAL_AT(NAMED(wide_seal), 4)
OPEN_AT(NAMED(narrow_open), 2)
OPEN_AT(NAMED(wide_open), 4)
