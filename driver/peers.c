// Our own C to measure beside the proved code: none of it is the ciphers' authors'.
#include "peers.h"

#include <string.h>

typedef uint64_t u64;
typedef uint8_t u8;

#define INLINE static inline __attribute__((always_inline))

enum { ROUNDS = 254, ROUND_KEYS = 2 * ROUNDS, LANES = 64, KEY_BITS = 80 };

static u8 ir[ROUNDS];                // IR of each round
static u8 key_bit[ROUND_KEYS];       // KTANTAN: the key bit numbers of ka and kb of each round

void peers_init(void) {
    unsigned t = 0xff;
    for (int r = 0; r < ROUNDS; r++) {
        t = (t << 1 & 0xff) | ((t >> 7 ^ t >> 6 ^ t >> 4 ^ t >> 2) & 1);
        unsigned u = t >> 4, v = t & 3, t32 = t >> 2 & 3;
        ir[r] = t >> 7;
        key_bit[2 * r] = t32 == 0 ? u : 16 * (1 + v) + u;
        key_bit[2 * r + 1] = t32 == 1 ? 64 + u : 16 * (3 - v) + u;
    }
}

// ---- one block

static void round_keys(int variant, const u8 *key, u8 *k) {
    u8 bits[KEY_BITS];
    for (int i = 0; i < KEY_BITS; i++) bits[i] = key[i / 8] >> i % 8 & 1;
    if (variant <= 3) {
        memcpy(k, bits, KEY_BITS);
        for (int i = KEY_BITS; i < ROUND_KEYS; i++) k[i] = k[i - 80] ^ k[i - 61] ^ k[i - 50] ^ k[i - 13];
    } else {
        for (int i = 0; i < ROUND_KEYS; i++) k[i] = bits[key_bit[i]];
    }
}

#define BIT(l, i) ((l) >> (i) & 1)

// The registers after each round are stored too, unless `stored` is NULL.
INLINE u64 scalar(int len1, int len2, int x2, int x3, int x4, int x5, int y2, int y3, int y4, int y5, int y6, int clocks,
                  int decrypt, const u8 *k, u64 block, u64 *stored) {
    int x1 = len1 - 1, y1 = len2 - 1;
    u64 mask1 = ((u64)1 << len1) - 1, mask2 = ((u64)1 << len2) - 1;
    u64 l1 = block >> len2, l2 = block & mask2;
    for (int i = 0; i < ROUNDS; i++) {
        int r = decrypt ? ROUNDS - 1 - i : i;
        u64 ka = k[2 * r], kb = k[2 * r + 1], irregular = ir[r];
        for (int c = 0; c < clocks; c++) {
            if (!decrypt) {
                u64 fa = BIT(l1, x1) ^ BIT(l1, x2) ^ (BIT(l1, x3) & BIT(l1, x4)) ^ (BIT(l1, x5) & irregular) ^ ka;
                u64 fb = BIT(l2, y1) ^ BIT(l2, y2) ^ (BIT(l2, y3) & BIT(l2, y4)) ^ (BIT(l2, y5) & BIT(l2, y6)) ^ kb;
                l1 = (l1 << 1 | fb) & mask1;
                l2 = (l2 << 1 | fa) & mask2;
            } else {
                u64 fa = l2 & 1, fb = l1 & 1;
                l1 >>= 1;
                l2 >>= 1;
                fa ^= BIT(l1, x2) ^ (BIT(l1, x3) & BIT(l1, x4)) ^ (BIT(l1, x5) & irregular) ^ ka;
                fb ^= BIT(l2, y2) ^ (BIT(l2, y3) & BIT(l2, y4)) ^ (BIT(l2, y5) & BIT(l2, y6)) ^ kb;
                l1 |= fa << x1;
                l2 |= fb << y1;
            }
        }
        if (stored) stored[i] = l1 << len2 | l2;
    }
    return l1 << len2 | l2;
}

// One block with the key bits of all rounds at hand.
INLINE u64 keyed(int variant, int decrypt, const u8 *k, u64 block, u64 *stored) {
    switch (variant) {
    case 1: case 4: return scalar(13, 19, 7, 8, 5, 3, 7, 12, 10, 8, 3, 1, decrypt, k, block, stored);
    case 2: case 5: return scalar(19, 29, 12, 15, 7, 6, 19, 21, 13, 15, 6, 2, decrypt, k, block, stored);
    default: return scalar(25, 39, 15, 20, 11, 9, 25, 33, 21, 14, 9, 3, decrypt, k, block, stored);
    }
}

INLINE u64 one(int variant, int decrypt, const u8 *key, u64 block) {
    u8 k[ROUND_KEYS];
    round_keys(variant, key, k);
    return keyed(variant, decrypt, k, block, NULL);
}

uint64_t peer_one(int variant, int decrypt, const uint8_t *key, uint64_t block) {
    return decrypt ? one(variant, 1, key, block) : one(variant, 0, key, block);
}

void peer_scalar(int variant, int decrypt, const u8 *keys, const u64 *blocks, u64 *out, size_t count) {
    for (size_t i = 0; i < count; i++) out[i] = peer_one(variant, decrypt, keys + 10 * i, blocks[i]);
}

void peer_sheet(int variant, const u8 *keys, const u64 *blocks, u64 *sheet, size_t count) {
    for (size_t i = 0; i < count; i++, sheet += 2 * ROUNDS) {
        u8 k[ROUND_KEYS];
        round_keys(variant, keys + 10 * i, k);
        u64 last = keyed(variant, 0, k, blocks[i], sheet);
        keyed(variant, 1, k, last, sheet + ROUNDS);
    }
}

// ---- counter mode, one block at a time, low byte first: the key bits are made once

static int width(int variant) { return 32 + 16 * ((variant - 1) % 3); }

void peer_keystream(int variant, const u8 *key, u64 start, const u8 *data, u8 *out, size_t length) {
    u8 k[ROUND_KEYS];
    size_t size = width(variant) / 8;
    round_keys(variant, key, k);
    for (size_t at = 0; at < length; at += size) {
        u64 block = keyed(variant, 0, k, start++, NULL);
        for (size_t j = at; j < at + size && j < length; j++, block >>= 8) out[j] = data[j] ^ (u8)block;
    }
}

// ---- fa and fb of a clock, followed back: a bit, and how many block bits were looked up for it

typedef struct {
    u64 bit, count;
} traced;

typedef struct {
    int len2, clocks, x[5], y[6];
} taps;

typedef struct {
    const taps *taps;
    int variant;
    const u8 *key;
    u64 block;
} source;

static u64 round_key(const source *s, int i) {
    int number = s->variant <= 3 ? i : key_bit[i];  // the first 24 rounds of KATAN take key bits 0 to 47
    return BIT(s->key[number / 8], number % 8);
}

static traced fb_at(const source *s, int t);

static traced fa_at(const source *s, int t) {
    const taps *p = s->taps;
    int r = t / p->clocks;
    traced l[5];
    u64 count = 0;
    for (int j = 0; j < 5; j++) {
        int i = p->x[j];
        l[j] = i < t ? fb_at(s, t - 1 - i) : (traced){BIT(s->block, p->len2 + i - t), 1};
        count += l[j].count;
    }
    u64 bit = l[0].bit ^ l[1].bit ^ (l[2].bit & l[3].bit) ^ (l[4].bit & ir[r]) ^ round_key(s, 2 * r);
    return (traced){bit, count};
}

static traced fb_at(const source *s, int t) {
    const taps *p = s->taps;
    traced l[6];
    u64 count = 0;
    for (int j = 0; j < 6; j++) {
        int i = p->y[j];
        l[j] = i < t ? fa_at(s, t - 1 - i) : (traced){BIT(s->block, i - t), 1};
        count += l[j].count;
    }
    u64 bit = l[0].bit ^ l[1].bit ^ (l[2].bit & l[3].bit) ^ (l[4].bit & l[5].bit) ^ round_key(s, 2 * (t / p->clocks) + 1);
    return (traced){bit, count};
}

void peer_origin(int variant, const u8 *key, u64 block, int clock, u64 *out) {
    static const taps rows[] = {
        {19, 1, {12, 7, 8, 5, 3}, {18, 7, 12, 10, 8, 3}},
        {29, 2, {18, 12, 15, 7, 6}, {28, 19, 21, 13, 15, 6}},
        {39, 3, {24, 15, 20, 11, 9}, {38, 25, 33, 21, 14, 9}},
    };
    source s = {&rows[(variant - 1) % 3], variant, key, block};
    traced a = fa_at(&s, clock), b = fb_at(&s, clock);
    out[0] = a.bit;
    out[1] = b.bit;
    out[2] = a.count + b.count;
}

// ---- smudged bits: the bits known as 1 and those known as 0

typedef struct {
    u64 ones, zeros;
} known;

INLINE known at(known l, int i) { return (known){BIT(l.ones, i), BIT(l.zeros, i)}; }

INLINE known sum(known a, known b) {
    return (known){(a.ones & b.zeros) | (a.zeros & b.ones), (a.ones & b.ones) | (a.zeros & b.zeros)};
}

INLINE known product(known a, known b) { return (known){a.ones & b.ones, a.zeros | b.zeros}; }

INLINE known shifted(known l, known in, u64 mask) {
    return (known){(l.ones << 1 | in.ones) & mask, (l.zeros << 1 | in.zeros) & mask};
}

INLINE known smudged(int len1, int len2, int x2, int x3, int x4, int x5, int y2, int y3, int y4, int y5, int y6, int clocks,
                     const known *k, known block, int position) {
    int x1 = len1 - 1, y1 = len2 - 1;
    u64 mask1 = ((u64)1 << len1) - 1, mask2 = ((u64)1 << len2) - 1;
    known l1 = {block.ones >> len2, block.zeros >> len2}, l2 = {block.ones & mask2, block.zeros & mask2};
    for (int r = 0; r < position; r++) {
        known ka = k[2 * r], kb = k[2 * r + 1], irregular = {ir[r], !ir[r]};
        for (int c = 0; c < clocks; c++) {
            known fa = sum(sum(at(l1, x1), at(l1, x2)), product(at(l1, x3), at(l1, x4)));
            known fb = sum(sum(at(l2, y1), at(l2, y2)), product(at(l2, y3), at(l2, y4)));
            fa = sum(sum(fa, product(at(l1, x5), irregular)), ka);
            fb = sum(sum(fb, product(at(l2, y5), at(l2, y6))), kb);
            l1 = shifted(l1, fb, mask1);
            l2 = shifted(l2, fa, mask2);
        }
    }
    return (known){l1.ones << len2 | l2.ones, l1.zeros << len2 | l2.zeros};
}

void peer_smudged(int variant, const u64 *block, const u8 *key_ones, const u8 *key_zeros, int position, u64 *out) {
    known k[ROUND_KEYS], bits[KEY_BITS], b = {block[0], block[1]};
    for (int i = 0; i < KEY_BITS; i++) bits[i] = (known){BIT(key_ones[i / 8], i % 8), BIT(key_zeros[i / 8], i % 8)};
    if (variant <= 3) {
        memcpy(k, bits, sizeof bits);
        for (int i = KEY_BITS; i < ROUND_KEYS; i++) k[i] = sum(sum(k[i - 80], k[i - 61]), sum(k[i - 50], k[i - 13]));
    } else {
        for (int i = 0; i < ROUND_KEYS; i++) k[i] = bits[key_bit[i]];
    }
    switch (variant) {
    case 1: case 4: b = smudged(13, 19, 7, 8, 5, 3, 7, 12, 10, 8, 3, 1, k, b, position); break;
    case 2: case 5: b = smudged(19, 29, 12, 15, 7, 6, 19, 21, 13, 15, 6, 2, k, b, position); break;
    default: b = smudged(25, 39, 15, 20, 11, 9, 25, 33, 21, 14, 9, 3, k, b, position);
    }
    out[0] = b.ones;
    out[1] = b.zeros;
}

// ---- all lanes on the screen

int peer_screen(const u8 *bench, u64 mask, u64 *out, u64 *shown) {
    u64 numbers[LANES], found = 0;
    if (bench[0] < 1 || bench[0] > 6) return 1;
    int n = width(bench[0]);
    for (int i = 0; i < LANES; i++) {
        const u8 *lane = bench + 1 + 20 * i;
        u64 registers;
        memcpy(&registers, lane + 12, 8);
        if (lane[0] > 1 || (lane[0] == 1 && (lane[1] > 254 || (n < 64 && registers >> n)))) return 1;
        u64 bit = lane[0] & mask >> i;
        numbers[i] = bit ? registers : 0;
        found |= bit << i;
    }
    if (mask == 0) return 8;
    memcpy(out, numbers, sizeof numbers);
    *shown = found;
    return 0;
}

// ---- bit-sliced, in the way of the ciphers' authors: word i of a register holds bit i of all lanes

INLINE void sliced_rounds(int len1, int len2, int x2, int x3, int x4, int x5, int y2, int y3, int y4, int y5, int y6, int clocks,
                          int decrypt, const u64 *k, u64 *l2) {
    u64 *l1 = l2 + len2;
    int x1 = len1 - 1, y1 = len2 - 1;
    for (int i = 0; i < ROUNDS; i++) {
        int r = decrypt ? ROUNDS - 1 - i : i;
        u64 ka = k[2 * r], kb = k[2 * r + 1], irregular = -(u64)ir[r];
        for (int c = 0; c < clocks; c++) {
            if (!decrypt) {
                u64 fa = l1[x1] ^ l1[x2] ^ (l1[x3] & l1[x4]) ^ (l1[x5] & irregular) ^ ka;
                u64 fb = l2[y1] ^ l2[y2] ^ (l2[y3] & l2[y4]) ^ (l2[y5] & l2[y6]) ^ kb;
                for (int j = x1; j > 0; j--) l1[j] = l1[j - 1];
                for (int j = y1; j > 0; j--) l2[j] = l2[j - 1];
                l1[0] = fb;
                l2[0] = fa;
            } else {
                u64 fa = l2[0], fb = l1[0];
                for (int j = 0; j < x1; j++) l1[j] = l1[j + 1];
                for (int j = 0; j < y1; j++) l2[j] = l2[j + 1];
                l1[x1] = fa ^ l1[x2] ^ (l1[x3] & l1[x4]) ^ (l1[x5] & irregular) ^ ka;
                l2[y1] = fb ^ l2[y2] ^ (l2[y3] & l2[y4]) ^ (l2[y5] & l2[y6]) ^ kb;
            }
        }
    }
}

static void sliced_keys(int variant, const u64 *bits, u64 *k) {
    if (variant <= 3) {
        memcpy(k, bits, KEY_BITS * sizeof *k);
        for (int i = KEY_BITS; i < ROUND_KEYS; i++) k[i] = k[i - 80] ^ k[i - 61] ^ k[i - 50] ^ k[i - 13];
    } else {
        for (int i = 0; i < ROUND_KEYS; i++) k[i] = bits[key_bit[i]];
    }
}

static void sliced(int variant, int decrypt, const u64 *key_words, u64 *words) {
    u64 k[ROUND_KEYS];
    sliced_keys(variant, key_words, k);
    switch (variant) {
    case 1: case 4:
        if (decrypt) sliced_rounds(13, 19, 7, 8, 5, 3, 7, 12, 10, 8, 3, 1, 1, k, words);
        else sliced_rounds(13, 19, 7, 8, 5, 3, 7, 12, 10, 8, 3, 1, 0, k, words);
        break;
    case 2: case 5:
        if (decrypt) sliced_rounds(19, 29, 12, 15, 7, 6, 19, 21, 13, 15, 6, 2, 1, k, words);
        else sliced_rounds(19, 29, 12, 15, 7, 6, 19, 21, 13, 15, 6, 2, 0, k, words);
        break;
    default:
        if (decrypt) sliced_rounds(25, 39, 15, 20, 11, 9, 25, 33, 21, 14, 9, 3, 1, k, words);
        else sliced_rounds(25, 39, 15, 20, 11, 9, 25, 33, 21, 14, 9, 3, 0, k, words);
    }
}

void peer_sliced(int variant, int decrypt, const u8 *keys, const u64 *blocks, u64 *out, size_t count) {
    u64 words[LANES] = {0}, key_words[KEY_BITS] = {0};
    int n = width(variant);
    for (size_t i = 0; i < count; i++) {
        for (int j = 0; j < n; j++) words[j] |= (blocks[i] >> j & 1) << i;
        for (int j = 0; j < KEY_BITS; j++) key_words[j] |= (u64)(keys[10 * i + j / 8] >> j % 8 & 1) << i;
    }
    sliced(variant, decrypt, key_words, words);
    for (size_t i = 0; i < count; i++) {
        u64 block = 0;
        for (int j = 0; j < n; j++) block |= (words[j] >> i & 1) << j;
        out[i] = block;
    }
}

// Blocks of so many bits are exchanged between rows that lie as far apart.
INLINE void stage(u64 *rows, int step, u64 mask) {
    for (int block = 0; block < LANES; block += 2 * step) {
        for (int i = block; i < block + step; i++) {
            u64 t = (rows[i] >> step ^ rows[i + step]) & mask;
            rows[i] ^= t << step;
            rows[i + step] ^= t;
        }
    }
}

// Bit j of row i becomes bit i of row j.
static void transpose(u64 *rows) {
    stage(rows, 32, 0x00000000ffffffff);
    stage(rows, 16, 0x0000ffff0000ffff);
    stage(rows, 8, 0x00ff00ff00ff00ff);
    stage(rows, 4, 0x0f0f0f0f0f0f0f0f);
    stage(rows, 2, 0x3333333333333333);
    stage(rows, 1, 0x5555555555555555);
}

void peer_sliced_transposed(int variant, int decrypt, const u8 *keys, const u64 *blocks, u64 *out, size_t count) {
    u64 words[LANES] = {0}, low[LANES] = {0}, high[LANES] = {0}, key_words[KEY_BITS];
    memcpy(words, blocks, count * sizeof *words);
    for (size_t i = 0; i < count; i++) {
        memcpy(&low[i], keys + 10 * i, 8);
        memcpy(&high[i], keys + 10 * i + 8, 2);
    }
    transpose(words);
    transpose(low);
    transpose(high);
    memcpy(key_words, low, sizeof low);
    memcpy(key_words + LANES, high, 16 * sizeof *high);
    sliced(variant, decrypt, key_words, words);
    memset(words + width(variant), 0, (LANES - width(variant)) * sizeof *words);
    transpose(words);
    memcpy(out, words, count * sizeof *out);
}
