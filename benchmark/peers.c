#define _GNU_SOURCE
#include "peers.h"
#include <string.h>

/* The key with t^k, which falls out of the 64 bits where k is 64: a residue moved up by one bit loses it there too. */
static inline uint64_t number(uint32_t k, uint64_t word) { return word | UINT64_C(2) << (k - 1); }

/* One bit behind a residue. */
static inline uint64_t step(uint64_t f, unsigned bit, uint64_t key, uint32_t k) { return (f << 1 | bit) ^ (key & -(f >> (k - 1))); }

uint64_t peer_feed_bits(uint32_t k, uint64_t word, uint64_t f, const uint8_t *p, size_t n) {
    uint64_t key = number(k, word);
    for (size_t i = 0; i < n; i++)
        for (int j = 7; j >= 0; j--)
            f = step(f, p[i] >> j & 1, key, k);
    return f;
}

void peer_fill(uint32_t k, uint64_t word, uint64_t *words) {
    uint64_t key = number(k, word), w = word;
    for (int j = 0; j < 4; j++) {
        uint64_t *t = words + 256 * j;
        t[0] = 0;
        for (int z = 1; z < 256; z *= 2) {
            for (int m = 0; m < z; m++)
                t[z + m] = t[m] ^ w;
            w = step(w, 0, key, k);
        }
    }
}

uint64_t peer_test(uint32_t k, uint64_t word, const uint64_t *words) {
    uint64_t key = number(k, word), w = word, differences = 0;
    for (int j = 0; j < 4; j++) {
        const uint64_t *t = words + 256 * j;
        differences |= t[0];
        for (int z = 1; z < 256; z *= 2) {
            for (int m = 0; m < z; m++)
                differences |= t[z + m] ^ t[m] ^ w;
            w = step(w, 0, key, k);
        }
    }
    return differences;
}

static inline uint32_t big_endian(const uint8_t *p) {
    uint32_t x;
    memcpy(&x, p, 4);
    return __builtin_bswap32(x);
}

#define LOOKED_UP(t, h) ((t)[(h) & 255] ^ (t)[256 + ((h) >> 8 & 255)] ^ (t)[512 + ((h) >> 16 & 255)] ^ (t)[768 + ((h) >> 24 & 255)])

uint64_t peer_slicing_by_4(uint32_t k, uint64_t f, const uint64_t *words, const uint8_t *p, size_t n) {
    uint64_t mask = UINT64_MAX >> (64 - k);
    size_t i = 0;
    if (k >= 32) {
        uint32_t s = k - 32;
        for (; i + 4 <= n; i += 4) {
            uint64_t h = f >> s;
            f = ((f << 32 | big_endian(p + i)) & mask) ^ LOOKED_UP(words, h);
        }
    } else {
        for (; i + 4 <= n; i += 4) {
            uint64_t v = f << 32 | big_endian(p + i), h = v >> k;
            f = (v & mask) ^ LOOKED_UP(words, h);
        }
    }
    for (; i < n; i++)
        f = (f << 8 & mask) ^ p[i] ^ words[f >> (k - 8)];
    return f;
}

size_t peer_rabin_karp(const uint8_t *text, size_t n, const uint8_t *pattern, size_t m, uint32_t *places, size_t room) {
    size_t count = 0;
    if (m > n)
        return 0;
    uint32_t power = 1, window = 0, wanted = 0;
    for (size_t i = 0; i < m; i++) {
        window = window * 257 + text[i];
        wanted = wanted * 257 + pattern[i];
        power *= 257;
    }
    for (size_t i = 0;; i++) {
        if (window == wanted) {
            size_t j = 0;
            while (j < m && text[i + j] == pattern[j])
                j++;
            if (j == m) {
                if (count < room)
                    places[count] = (uint32_t)i;
                count++;
            }
        }
        if (i + m >= n)
            return count;
        window = window * 257 + text[i + m] - power * text[i];
    }
}

size_t peer_memmem(const uint8_t *text, size_t n, const uint8_t *pattern, size_t m, uint32_t *places, size_t room) {
    size_t count = 0, at = 0;
    while (at < n) {
        const uint8_t *found = memmem(text + at, n - at, pattern, m);
        if (!found)
            break;
        if (count < room)
            places[count] = (uint32_t)(found - text);
        count++;
        at = (size_t)(found - text) + 1;
    }
    return count;
}

/* One bit behind a residue, by a branch. */
static inline uint64_t step_by_if(uint64_t f, unsigned bit, uint64_t key, uint32_t k) {
    uint64_t v = f << 1 | bit;
    if (f >> (k - 1))
        v ^= key;
    return v;
}

/* gcc would make a conditional move of the branch. */
__attribute__((optimize("no-if-conversion", "no-if-conversion2"))) uint64_t peer_feed_bits_by_if(uint32_t k, uint64_t word, uint64_t f, const uint8_t *p,
                                                                                                  size_t n) {
    uint64_t key = number(k, word);
    for (size_t i = 0; i < n; i++)
        for (int j = 7; j >= 0; j--)
            f = step_by_if(f, p[i] >> j & 1, key, k);
    return f;
}
