// Compares the library with three C implementations of the same cipher: first that all give the same bytes, then
// how fast each of them is.
#include "cipher.h"

#include <stdio.h>
#include <stdlib.h>
#include <string.h>
#include <time.h>

enum { LIBRARY, WORDS, LANES, BYTES, IMPLEMENTATIONS };

// One width, under each implementation.
struct width {
    const char *name;
    size_t block;
    // the mixing of the state of zeros, highest byte first
    const char *check;
    struct cipher ciphers[IMPLEMENTATIONS];
};

static const struct width WIDTHS[2] = {
    {
        .name = "narrow",
        .block = 16,
        .check = "3a9eabbccd33af7fecf1abe96cadc1b67d790abd626d33e26f0cfc7e605827c7",
        .ciphers =
            {
                {"library", nirgusel_narrow_mix, nirgusel_narrow_seal, nirgusel_narrow_open},
                {"C words", words_narrow_mix, words_narrow_seal, words_narrow_open},
                {"C lanes", lanes_narrow_mix, lanes_narrow_seal, lanes_narrow_open},
                {"C bytes", bytes_narrow_mix, bytes_narrow_seal, bytes_narrow_open},
            },
    },
    {
        .name = "wide",
        .block = 32,
        .check = "e51ffef4d4ccbd041ec980258b26cba874a3282c1831aa4bca57519eac039971"
                 "72812271abc8dd3b160d177a9a19cb97bb20540ec5af1047f73a19651b16018b",
        .ciphers =
            {
                {"library", nirgusel_wide_mix, nirgusel_wide_seal, nirgusel_wide_open},
                {"C words", words_wide_mix, words_wide_seal, words_wide_open},
                {"C lanes", lanes_wide_mix, lanes_wide_seal, lanes_wide_open},
                {"C bytes", bytes_wide_mix, bytes_wide_seal, bytes_wide_open},
            },
    },
};

// Pseudo-random bytes, the same in every run.
static uint64_t seed = 1;

static uint8_t random_byte(void) {
    seed += 0x9e3779b97f4a7c15;
    uint64_t z = seed;
    z = (z ^ z >> 30) * 0xbf58476d1ce4e5b9;
    z = (z ^ z >> 27) * 0x94d049bb133111eb;
    return (uint8_t)(z >> 56);
}

static void randomize(uint8_t *bytes, size_t length) {
    for (size_t i = 0; i < length; i++) bytes[i] = random_byte();
}

// ---- Agreement

static size_t mixings, sealings, openings, refusals;

static void disagree(const struct width *width, const char *cipher, const char *what) {
    printf("%s, %s: %s\n", width->name, cipher, what);
    exit(1);
}

static void check_mixing(const struct width *width) {
    size_t length = 2 * width->block;
    for (int c = 0; c < IMPLEMENTATIONS; c++) {
        uint8_t state[64] = {0};
        char shown[129];
        width->ciphers[c].mix(state);
        for (size_t i = 0; i < length; i++) snprintf(shown + 2 * i, 3, "%02x", state[length - 1 - i]);
        if (strcmp(shown, width->check) != 0) disagree(width, width->ciphers[c].name, "wrong check value");
        mixings++;
    }
    for (int n = 0; n < 20000; n++) {
        uint8_t start[64], first[64], other[64];
        randomize(start, length);
        // states with few bits too
        if (n % 4 == 0) {
            memset(start, 0, length);
            start[(size_t)(n / 4) / 8 % length] = (uint8_t)(1 << n / 4 % 8);
        }
        for (int c = 0; c < IMPLEMENTATIONS; c++) {
            memcpy(c == 0 ? first : other, start, length);
            width->ciphers[c].mix(c == 0 ? first : other);
            if (c > 0 && memcmp(first, other, length) != 0) disagree(width, width->ciphers[c].name, "another mixing");
            mixings++;
        }
    }
}

static struct {
    uint8_t key[40], nonce[40], data[DATA_MOST + 1], message[MESSAGE_MOST + 1];
    size_t key_length, nonce_length, data_length, message_length;
} given;

#define ROOM (MESSAGE_MOST + 200)

// Seals what is given into a buffer of `room` bytes, under each implementation: the same answer and the same buffer,
// with what stands behind ciphertext and tag. Then opens what was sealed, `damage` being an exclusive or with one of its
// bits: again the same, and the message where nothing is damaged.
static void check_mode(const struct width *width, size_t room, int damage) {
    static uint8_t filler[ROOM], first[ROOM], other[ROOM], text[ROOM], other_text[ROOM];
    struct answer answer = {0, 0}, opened = {0, 0};
    size_t block = width->block;
    memset(filler, 0xa5, ROOM);
    for (int c = 0; c < IMPLEMENTATIONS; c++) {
        uint8_t *out = c == 0 ? first : other;
        memcpy(out, filler, ROOM);
        struct answer a =
            width->ciphers[c].seal(given.key, given.key_length, given.nonce, given.nonce_length, given.data,
                                   given.data_length, given.message, given.message_length, out, room);
        if (c == 0) answer = a;
        if (a.code != answer.code || a.length != answer.length)
            disagree(width, width->ciphers[c].name, "another answer of sealing");
        if (memcmp(out, first, ROOM) != 0) disagree(width, width->ciphers[c].name, "other sealed bytes");
        *(a.code == DONE ? &sealings : &refusals) += 1;
    }
    if (answer.code != DONE) return;
    size_t cipher_length = answer.length - block;
    if (damage) first[(size_t)damage % answer.length] ^= (uint8_t)(1 << damage % 8);
    for (int c = 0; c < IMPLEMENTATIONS; c++) {
        uint8_t *out = c == 0 ? text : other_text;
        memcpy(out, filler, ROOM);
        struct answer a = width->ciphers[c].open(given.key, given.key_length, given.nonce, given.nonce_length,
                                                 given.data, given.data_length, first, cipher_length,
                                                 first + cipher_length, block, out, cipher_length);
        if (c == 0) opened = a;
        if (a.code != opened.code || a.length != opened.length)
            disagree(width, width->ciphers[c].name, "another answer of opening");
        if (memcmp(out, text, ROOM) != 0) disagree(width, width->ciphers[c].name, "another opened text");
        if (damage) {
            if (a.code != NOT_AUTHENTIC) disagree(width, width->ciphers[c].name, "a damaged copy was accepted");
            for (size_t i = 0; i < cipher_length; i++)
                if (out[i] != 0) disagree(width, width->ciphers[c].name, "a damaged copy left text");
            refusals++;
        } else {
            if (a.code != DONE || a.length != given.message_length ||
                memcmp(out, given.message, given.message_length) != 0)
                disagree(width, width->ciphers[c].name, "another message was opened");
            openings++;
        }
    }
}

static void give(size_t key, size_t nonce, size_t data, size_t message) {
    given.key_length = key;
    given.nonce_length = nonce;
    given.data_length = data;
    given.message_length = message;
    randomize(given.key, key);
    randomize(given.nonce, nonce);
    randomize(given.data, data);
    randomize(given.message, message);
}

// Opening is refused with `code` from the lengths alone, and writes nothing.
static void check_refused(const struct width *width, size_t key, size_t nonce, size_t data, size_t cipher, size_t tag,
                          size_t room, uint8_t code) {
    static uint8_t given_cipher[ROOM], text[ROOM];
    for (int c = 0; c < IMPLEMENTATIONS; c++) {
        memset(text, 0xa5, ROOM);
        struct answer a = width->ciphers[c].open(given.key, key, given.nonce, nonce, given.data, data, given_cipher,
                                                 cipher, given.key, tag, text, room);
        if (a.code != code || a.length != 0) disagree(width, width->ciphers[c].name, "another refusal of opening");
        for (size_t i = 0; i < ROOM; i++)
            if (text[i] != 0xa5) disagree(width, width->ciphers[c].name, "a refusal wrote text");
        refusals++;
    }
}

static void check_modes(const struct width *width) {
    size_t b = width->block;
    // every length of message up to some blocks, with other lengths beside it
    for (size_t length = 0; length <= 200; length++) {
        give(b, length % (b + 1), length * 7 % 70, length);
        check_mode(width, ROOM, 0);
    }
    // the message that is timed, whole and with each byte of its tag damaged in turn
    give(b, 8, 10, 833);
    check_mode(width, ROOM, 0);
    size_t all = (833 + TRAILER + b - 1) / b * b + b;
    for (size_t byte = all - b; byte < all; byte++) check_mode(width, ROOM, (int)byte);
    // damage anywhere
    for (int damage = 1; damage < 400; damage++) check_mode(width, ROOM, damage);
    // the longest inputs, and the refusals
    give(b, b, DATA_MOST, MESSAGE_MOST);
    check_mode(width, ROOM, 0);
    give(b - 1, 8, 10, 100);
    check_mode(width, ROOM, 0);
    give(b, b + 1, 10, 100);
    check_mode(width, ROOM, 0);
    give(b, 8, DATA_MOST + 1, 100);
    check_mode(width, ROOM, 0);
    give(b, 8, 10, MESSAGE_MOST + 1);
    check_mode(width, ROOM, 0);
    give(b, 8, 10, 100);
    check_mode(width, 128 + b - 1, 0);
    check_mode(width, 128 + b, 0);
    check_refused(width, b - 1, 8, 10, 128, b, 128, KEY_LENGTH);
    check_refused(width, b, b + 1, 10, 128, b, 128, NONCE_TOO_LONG);
    check_refused(width, b, 8, DATA_MOST + 1, 128, b, 128, DATA_TOO_LONG);
    check_refused(width, b, 8, 10, 128, b - 1, 128, CIPHER_LENGTH);
    check_refused(width, b, 8, 10, 0, b, 128, CIPHER_LENGTH);
    check_refused(width, b, 8, 10, 127, b, 128, CIPHER_LENGTH);
    check_refused(width, b, 8, 10, MESSAGE_MOST + 2 * b, b, ROOM, CIPHER_LENGTH);
    check_refused(width, b, 8, 10, 128, b, 127, BUFFER_TOO_SHORT);
}

// ---- Time

enum { ROUNDS = 15, LENGTH = 833 };
static const double RUN = 20e6; // nanoseconds of one run

static uint8_t state[64], key[32], header[10], message[LENGTH], sealed[LENGTH + 100], text[LENGTH + 100];

static double now(void) {
    struct timespec t;
    clock_gettime(CLOCK_MONOTONIC, &t);
    return 1e9 * (double)t.tv_sec + (double)t.tv_nsec;
}

enum { MIX, SEAL, OPEN, KINDS };
static const char *const KIND[KINDS] = {"mixing", "sealing", "opening"};

// Does one thing `count` times, and answers the nanoseconds of it.
static double run(const struct width *width, const struct cipher *cipher, int kind, long count) {
    size_t b = width->block;
    size_t cipher_length = (LENGTH + TRAILER + b - 1) / b * b;
    uint8_t codes = DONE;
    double start = now();
    for (long i = 0; i < count; i++) {
        if (kind == MIX) {
            cipher->mix(state);
        } else if (kind == SEAL) {
            header[9] = (uint8_t)i;
            codes |= cipher->seal(key, b, header + 2, 8, header, 10, message, LENGTH, sealed, sizeof sealed).code;
        } else {
            codes |= cipher->open(key, b, header + 2, 8, header, 10, sealed, cipher_length, sealed + cipher_length, b,
                                  text, sizeof text).code;
        }
    }
    double time = now() - start;
    if (codes != DONE) disagree(width, cipher->name, "refused what was timed");
    return time;
}

static void measure(const struct width *width, int kind) {
    double best[IMPLEMENTATIONS];
    long count[IMPLEMENTATIONS];
    // what is opened
    width->ciphers[0].seal(key, width->block, header + 2, 8, header, 10, message, LENGTH, sealed, sizeof sealed);
    for (int c = 0; c < IMPLEMENTATIONS; c++) {
        count[c] = 1;
        while (run(width, &width->ciphers[c], kind, count[c]) < RUN / 4) count[c] *= 2;
        double once = run(width, &width->ciphers[c], kind, count[c]) / (double)count[c];
        count[c] = (long)(RUN / once) + 1;
        best[c] = 1e300;
    }
    for (int n = 0; n < ROUNDS; n++) {
        for (int c = 0; c < IMPLEMENTATIONS; c++) {
            double once = run(width, &width->ciphers[c], kind, count[c]) / (double)count[c];
            if (once < best[c]) best[c] = once;
        }
    }
    printf("%-7s %-8s", width->name, KIND[kind]);
    for (int c = 0; c < IMPLEMENTATIONS; c++) {
        if (kind == MIX)
            printf(" %8.1f ns  ", best[c]);
        else
            printf(" %8.1f MB/s", LENGTH / best[c] * 1e3);
    }
    for (int c = 1; c < IMPLEMENTATIONS; c++) printf(" %9.3f", best[c] / best[LIBRARY]);
    printf("\n");
}

int main(void) {
    for (int w = 0; w < 2; w++) {
        check_mixing(&WIDTHS[w]);
        check_modes(&WIDTHS[w]);
    }
    printf("agreed: %zu mixings, %zu sealings, %zu openings, %zu refusals\n\n", mixings, sealings, openings, refusals);

    randomize(state, sizeof state);
    randomize(key, sizeof key);
    randomize(header, sizeof header);
    randomize(message, sizeof message);
    printf("The last columns are the speed of the library over that of C: more than 1 is faster than C.\n");
    printf("Messages have %d bytes, with a nonce of 8 and data of 10. Best of %d runs, taken in turn.\n\n", LENGTH, ROUNDS);
    printf("%-16s", "");
    for (int c = 0; c < IMPLEMENTATIONS; c++) printf(" %13s", WIDTHS[0].ciphers[c].name);
    for (int c = 1; c < IMPLEMENTATIONS; c++) printf(" %9s", WIDTHS[0].ciphers[c].name);
    printf("\n");
    for (int w = 0; w < 2; w++)
        for (int kind = 0; kind < KINDS; kind++) measure(&WIDTHS[w], kind);
    return 0;
}
