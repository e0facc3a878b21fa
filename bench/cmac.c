/* AES-128 (FIPS 197) by tables of words, and AES-CMAC (RFC 4493), for bench/compare.sh: the same works, words and lines as
   crates/epic_bench. Each round begins with the value that the one before gave. */

#include <stdint.h>
#include <stdio.h>
#include <stdlib.h>
#include <string.h>
#include <time.h>

#define INLINE static inline __attribute__((always_inline))
#define NOINLINE static __attribute__((noinline))

static uint8_t sbox[256];
static uint32_t table0[256], table1[256], table2[256], table3[256];

typedef struct {
    uint32_t words[44];
} schedule;

typedef struct {
    uint32_t a, b, c, d;
} state;

static uint8_t doubled(uint8_t byte) {
    return (uint8_t)(byte << 1) ^ (byte & 0x80 ? 0x1b : 0);
}

static uint8_t rotated(uint8_t byte, int count) {
    return (uint8_t)(byte << count | byte >> (8 - count));
}

/* The S-box from powers of 3 and its inverse 0xf6; the tables join it to MixColumns. */
static void make_tables(void) {
    uint8_t power = 1, inverse = 1;
    do {
        power ^= doubled(power);
        inverse ^= (uint8_t)(inverse << 1);
        inverse ^= (uint8_t)(inverse << 2);
        inverse ^= (uint8_t)(inverse << 4);
        if (inverse & 0x80)
            inverse ^= 0x09;
        sbox[power] = inverse ^ rotated(inverse, 1) ^ rotated(inverse, 2) ^ rotated(inverse, 3) ^ rotated(inverse, 4) ^ 0x63;
    } while (power != 1);
    sbox[0] = 0x63;
    for (int i = 0; i < 256; i++) {
        uint32_t one = sbox[i], two = doubled(sbox[i]), three = one ^ two;
        table0[i] = two << 24 | one << 16 | one << 8 | three;
        table1[i] = three << 24 | two << 16 | one << 8 | one;
        table2[i] = one << 24 | three << 16 | two << 8 | one;
        table3[i] = one << 24 | one << 16 | three << 8 | two;
    }
}

INLINE uint32_t load(const uint8_t *bytes) {
    uint32_t word;
    memcpy(&word, bytes, 4);
    return __builtin_bswap32(word);
}

INLINE void store(uint8_t *bytes, uint32_t word) {
    word = __builtin_bswap32(word);
    memcpy(bytes, &word, 4);
}

INLINE uint32_t substituted(uint32_t a, uint32_t b, uint32_t c, uint32_t d) {
    return (uint32_t)sbox[a >> 24] << 24 | (uint32_t)sbox[b >> 16 & 255] << 16 | (uint32_t)sbox[c >> 8 & 255] << 8 | sbox[d & 255];
}

/* FIPS 197 5.2 */
INLINE void make_schedule(schedule *s, const uint8_t *key) {
    static const uint8_t constants[10] = {0x01, 0x02, 0x04, 0x08, 0x10, 0x20, 0x40, 0x80, 0x1b, 0x36};
    uint32_t *w = s->words;
    w[0] = load(key), w[1] = load(key + 4), w[2] = load(key + 8), w[3] = load(key + 12);
    for (int r = 0; r < 10; r++, w += 4) {
        uint32_t last = w[3] << 8 | w[3] >> 24;
        w[4] = w[0] ^ substituted(last, last, last, last) ^ (uint32_t)constants[r] << 24;
        w[5] = w[1] ^ w[4];
        w[6] = w[2] ^ w[5];
        w[7] = w[3] ^ w[6];
    }
}

INLINE uint32_t column(uint32_t a, uint32_t b, uint32_t c, uint32_t d, uint32_t key) {
    return table0[a >> 24] ^ table1[b >> 16 & 255] ^ table2[c >> 8 & 255] ^ table3[d & 255] ^ key;
}

INLINE state round_of(state s, const uint32_t *w) {
    state t = {
        column(s.a, s.b, s.c, s.d, w[0]),
        column(s.b, s.c, s.d, s.a, w[1]),
        column(s.c, s.d, s.a, s.b, w[2]),
        column(s.d, s.a, s.b, s.c, w[3]),
    };
    return t;
}

/* FIPS 197 5.1, the rounds written out */
INLINE state encrypted(const schedule *key, state s) {
    const uint32_t *w = key->words;
    s.a ^= w[0], s.b ^= w[1], s.c ^= w[2], s.d ^= w[3];
    s = round_of(s, w + 4);
    s = round_of(s, w + 8);
    s = round_of(s, w + 12);
    s = round_of(s, w + 16);
    s = round_of(s, w + 20);
    s = round_of(s, w + 24);
    s = round_of(s, w + 28);
    s = round_of(s, w + 32);
    s = round_of(s, w + 36);
    state t = {
        substituted(s.a, s.b, s.c, s.d) ^ w[40],
        substituted(s.b, s.c, s.d, s.a) ^ w[41],
        substituted(s.c, s.d, s.a, s.b) ^ w[42],
        substituted(s.d, s.a, s.b, s.c) ^ w[43],
    };
    return t;
}

INLINE state loaded(const uint8_t *block) {
    state s = {load(block), load(block + 4), load(block + 8), load(block + 12)};
    return s;
}

INLINE void stored(uint8_t *block, state s) {
    store(block, s.a), store(block + 4, s.b), store(block + 8, s.c), store(block + 12, s.d);
}

INLINE state sum(state s, state t) {
    s.a ^= t.a, s.b ^= t.b, s.c ^= t.c, s.d ^= t.d;
    return s;
}

/* The state stays in registers from block to block. */
INLINE state chained(const schedule *key, state s, const uint8_t *blocks, size_t count) {
    for (size_t i = 0; i < count; i++)
        s = encrypted(key, sum(s, loaded(blocks + 16 * i)));
    return s;
}

/* RFC 4493 2.3 */
INLINE state block_double(state s) {
    uint32_t over = s.a >> 31 ? 0x87 : 0;
    state t = {s.a << 1 | s.b >> 31, s.b << 1 | s.c >> 31, s.c << 1 | s.d >> 31, s.d << 1 ^ over};
    return t;
}

/* RFC 4493 2.4 */
INLINE void cmac(uint8_t *tag, const uint8_t *key, const uint8_t *message, size_t size) {
    schedule s;
    state zero = {0, 0, 0, 0};
    size_t count = size ? (size - 1) / 16 : 0;
    const uint8_t *rest = message + 16 * count;
    size_t left = size - 16 * count;
    make_schedule(&s, key);
    state x = chained(&s, zero, message, count);
    state subkey = block_double(encrypted(&s, zero));
    if (left == 16) {
        x = sum(x, loaded(rest));
    } else {
        uint8_t block[16] = {0};
        memcpy(block, rest, left);
        block[left] = 0x80;
        subkey = block_double(subkey);
        x = sum(x, loaded(block));
    }
    stored(tag, encrypted(&s, sum(x, subkey)));
}

/* ---- the works */

static const uint8_t start[16] = {
    0x2b, 0x7e, 0x15, 0x16, 0x28, 0xae, 0xd2, 0xa6, 0xab, 0xf7, 0x15, 0x88, 0x09, 0xcf, 0x4f, 0x3c,
};

NOINLINE void chain_rounds(uint8_t *value, const uint8_t *blocks, size_t count, uint32_t rounds) {
    schedule key;
    make_schedule(&key, start);
    memcpy(value, start, 16);
    for (uint32_t i = 0; i < rounds; i++)
        stored(value, chained(&key, loaded(value), blocks, count));
}

NOINLINE void tag_rounds(uint8_t *value, const uint8_t *message, size_t size, uint32_t rounds) {
    memcpy(value, start, 16);
    for (uint32_t i = 0; i < rounds; i++)
        cmac(value, value, message, size);
}

static void fill(uint8_t *bytes, size_t size, uint32_t seed) {
    for (size_t i = 0; i < size; i++)
        bytes[i] = (uint8_t)(seed + i);
}

static void aes_value(uint8_t *value, uint32_t rounds) {
    uint8_t blocks[1024];
    fill(blocks, sizeof blocks, rounds);
    chain_rounds(value, blocks, 64, rounds);
}

static void cmac_value(uint8_t *value, uint32_t rounds) {
    uint8_t message[1500];
    fill(message, sizeof message, rounds);
    tag_rounds(value, message, sizeof message, rounds);
}

static void short_value(uint8_t *value, uint32_t rounds) {
    uint8_t message[27];
    fill(message, sizeof message, rounds);
    tag_rounds(value, message, sizeof message, rounds);
}

static const struct work {
    const char *name, *unit;
    uint32_t operations;
    void (*value)(uint8_t *value, uint32_t rounds);
} works[] = {
    {"aes", "blocks", 64, aes_value},
    {"cmac", "messages", 1, cmac_value},
    {"short", "messages", 1, short_value},
};

enum { WORKS = sizeof works / sizeof works[0] };

/* ---- the examples of FIPS 197 C.1 and RFC 4493 4 */

static int is_right(void) {
    static const uint8_t key[16] = {0, 1, 2, 3, 4, 5, 6, 7, 8, 9, 10, 11, 12, 13, 14, 15};
    static const uint8_t block[16] = {
        0x00, 0x11, 0x22, 0x33, 0x44, 0x55, 0x66, 0x77, 0x88, 0x99, 0xaa, 0xbb, 0xcc, 0xdd, 0xee, 0xff,
    };
    static const uint8_t cipher[16] = {
        0x69, 0xc4, 0xe0, 0xd8, 0x6a, 0x7b, 0x04, 0x30, 0xd8, 0xcd, 0xb7, 0x80, 0x70, 0xb4, 0xc5, 0x5a,
    };
    static const uint8_t message[64] = {
        0x6b, 0xc1, 0xbe, 0xe2, 0x2e, 0x40, 0x9f, 0x96, 0xe9, 0x3d, 0x7e, 0x11, 0x73, 0x93, 0x17, 0x2a,
        0xae, 0x2d, 0x8a, 0x57, 0x1e, 0x03, 0xac, 0x9c, 0x9e, 0xb7, 0x6f, 0xac, 0x45, 0xaf, 0x8e, 0x51,
        0x30, 0xc8, 0x1c, 0x46, 0xa3, 0x5c, 0xe4, 0x11, 0xe5, 0xfb, 0xc1, 0x19, 0x1a, 0x0a, 0x52, 0xef,
        0xf6, 0x9f, 0x24, 0x45, 0xdf, 0x4f, 0x9b, 0x17, 0xad, 0x2b, 0x41, 0x7b, 0xe6, 0x6c, 0x37, 0x10,
    };
    static const struct {
        size_t size;
        uint8_t tag[16];
    } examples[] = {
        {0, {0xbb, 0x1d, 0x69, 0x29, 0xe9, 0x59, 0x37, 0x28, 0x7f, 0xa3, 0x7d, 0x12, 0x9b, 0x75, 0x67, 0x46}},
        {16, {0x07, 0x0a, 0x16, 0xb4, 0x6b, 0x4d, 0x41, 0x44, 0xf7, 0x9b, 0xdd, 0x9d, 0xd0, 0x4a, 0x28, 0x7c}},
        {40, {0xdf, 0xa6, 0x67, 0x47, 0xde, 0x9a, 0xe6, 0x30, 0x30, 0xca, 0x32, 0x61, 0x14, 0x97, 0xc8, 0x27}},
        {64, {0x51, 0xf0, 0xbe, 0xbf, 0x7e, 0x3b, 0x9d, 0x92, 0xfc, 0x49, 0x74, 0x17, 0x79, 0x36, 0x3c, 0xfe}},
    };
    schedule s;
    uint8_t answer[16];
    make_schedule(&s, key);
    stored(answer, encrypted(&s, loaded(block)));
    if (memcmp(answer, cipher, 16))
        return 0;
    for (size_t i = 0; i < sizeof examples / sizeof examples[0]; i++) {
        cmac(answer, start, message, examples[i].size);
        if (memcmp(answer, examples[i].tag, 16))
            return 0;
    }
    return 1;
}

/* ---- the program */

static void print_value(const struct work *work, uint32_t rounds, const uint8_t *value) {
    printf("%s %llu %s ", work->name, (unsigned long long)work->operations * rounds, work->unit);
    for (int i = 0; i < 16; i++)
        printf("%02x", value[i]);
}

static unsigned long long nanos(void) {
    struct timespec now;
    clock_gettime(CLOCK_MONOTONIC, &now);
    return now.tv_sec * 1000000000ull + now.tv_nsec;
}

static void print_time(const struct work *work, uint32_t rounds) {
    uint8_t value[16];
    unsigned long long before = nanos();
    work->value(value, rounds);
    unsigned long long tenths = (nanos() - before) * 10 / ((unsigned long long)work->operations * rounds);
    print_value(work, rounds, value);
    printf(" %llu.%llu ns\n", tenths / 10, tenths % 10);
}

int main(int count, char **words) {
    make_tables();
    if (!is_right()) {
        fputs("cmac: wrong by the standards' examples\n", stderr);
        return 1;
    }
    uint32_t rounds = count == 3 ? (uint32_t)strtoul(words[2], NULL, 10) : 0;
    if (rounds) {
        int digests = !strcmp(words[1], "digests");
        for (int i = 0; i < WORKS; i++) {
            if (digests) {
                uint8_t value[16];
                works[i].value(value, rounds);
                print_value(&works[i], rounds, value);
                putchar('\n');
            } else if (!strcmp(words[1], works[i].name)) {
                print_time(&works[i], rounds);
                return 0;
            }
        }
        if (digests)
            return 0;
    }
    fputs("cmac: words\n", stderr);
    return 2;
}
