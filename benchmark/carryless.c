/* Residues modulo the house key by carry-less multiplication, as a hand-written CRC takes them: 16 bytes to a lane. A
 * lane is carried over the bytes between it and its next 16 by two products with powers of t, reduced beforehand. */
#include "peers.h"
#include <immintrin.h>
#include <string.h>

typedef __m128i block;

/* What carries a lane over d bits: t^d and t^(d + 64) modulo the house key. */
static const uint64_t OVER_128[2] = {0x10540, 0x13d9600};
static const uint64_t OVER_256[2] = {0x100111000, 0x13812ab8000};
static const uint64_t OVER_512[2] = {0x10101000138, 0x1393938010540};
static const uint64_t OVER_1024[2] = {0x1000001390478, 0x1380001047c9340};
static const uint64_t OVER_2048[2] = {0x1047900101540, 0x13c927813961600};

static inline block powers(const uint64_t over[2]) { return _mm_loadu_si128((const block *)over); }

/* 16 bytes, the first bit highest. */
static inline block load(const uint8_t *p) {
    return _mm_shuffle_epi8(_mm_loadu_si128((const block *)p), _mm_set_epi8(0, 1, 2, 3, 4, 5, 6, 7, 8, 9, 10, 11, 12, 13, 14, 15));
}

static inline block carried(block a, block over, block next) {
    block low = _mm_clmulepi64_si128(a, over, 0x00), high = _mm_clmulepi64_si128(a, over, 0x11);
    return _mm_xor_si128(_mm_xor_si128(low, next), high);
}

/* A residue carried over the first 16 bytes behind it. */
static inline block over_first(uint64_t f) { return _mm_clmulepi64_si128(_mm_cvtsi64_si128((int64_t)f), powers(OVER_128), 0x00); }

/* Four lanes over n bytes behind a residue; n is a multiple of 64 and not 0. */
static inline block four_lanes(uint64_t f, const uint8_t *p, size_t n) {
    block over = powers(OVER_512);
    block a = _mm_xor_si128(load(p), over_first(f)), b = load(p + 16), c = load(p + 32), d = load(p + 48);
    for (size_t i = 64; i < n; i += 64) {
        a = carried(a, over, load(p + i));
        b = carried(b, over, load(p + i + 16));
        c = carried(c, over, load(p + i + 32));
        d = carried(d, over, load(p + i + 48));
    }
    c = carried(a, powers(OVER_256), c);
    d = carried(b, powers(OVER_256), d);
    return carried(c, powers(OVER_128), d);
}

static inline uint64_t big_endian_64(const uint8_t *p) {
    uint64_t x;
    memcpy(&x, p, 8);
    return __builtin_bswap64(x);
}

/* Fewer than 16 bytes. */
static inline block load_few(const uint8_t *p, size_t n) {
    unsigned __int128 x = 0;
    if (n >= 8)
        x = (unsigned __int128)big_endian_64(p) << 8 * (n - 8) | big_endian_64(p + n - 8);
    else
        for (size_t i = 0; i < n; i++)
            x = x << 8 | p[i];
    return _mm_set_epi64x((int64_t)(uint64_t)(x >> 64), (int64_t)(uint64_t)x);
}

/* Fewer than 16 bytes behind a: the bytes of a that go past 128 bits are carried over the others. */
static inline block behind_few(block a, const uint8_t *p, size_t n) {
    static const uint8_t SLIDE[48] = {128, 128, 128, 128, 128, 128, 128, 128, 128, 128, 128, 128, 128, 128, 128, 128,
                                      0,   1,   2,   3,   4,   5,   6,   7,   8,   9,   10,  11,  12,  13,  14,  15,
                                      128, 128, 128, 128, 128, 128, 128, 128, 128, 128, 128, 128, 128, 128, 128, 128};
    block up = _mm_shuffle_epi8(a, _mm_loadu_si128((const block *)(SLIDE + 16 - n)));
    block past = _mm_shuffle_epi8(a, _mm_loadu_si128((const block *)(SLIDE + 32 - n)));
    return carried(past, powers(OVER_128), _mm_xor_si128(up, load_few(p, n)));
}

/* t^64 is t^8 + t^5 + t^4 + t^3: 72 bits are left. Then what stands at t^61 and above comes back at t^5, t^2, t and 1. */
static inline uint64_t reduced(block a) {
    block b = _mm_clmulepi64_si128(a, _mm_cvtsi32_si128(0x138), 0x01);
    uint64_t low = (uint64_t)_mm_cvtsi128_si64(_mm_xor_si128(a, b)), high = (uint64_t)_mm_cvtsi128_si64(_mm_unpackhi_epi64(b, b));
    uint64_t h = high << 3 | low >> 61;
    return (low & (UINT64_MAX >> 3)) ^ h ^ h << 1 ^ h << 2 ^ h << 5;
}

int peer_carryless_runs(void) { return __builtin_cpu_supports("pclmul") && __builtin_cpu_supports("avx"); }

uint64_t peer_carryless(uint64_t f, const uint8_t *p, size_t n) {
    size_t i = n / 64 * 64;
    block a = i > 0 ? four_lanes(f, p, i) : _mm_cvtsi64_si128((int64_t)f);
    for (; i + 16 <= n; i += 16)
        a = carried(a, powers(OVER_128), load(p + i));
    if (i < n)
        a = behind_few(a, p + i, n - i);
    return reduced(a);
}

/* ---- four lanes to a register of 512 bits */

#define WIDE __attribute__((target("avx512f,avx512bw,vpclmulqdq")))
typedef __m512i wide;

WIDE static inline wide wide_powers(const uint64_t over[2]) { return _mm512_broadcast_i32x4(powers(over)); }

WIDE static inline wide wide_load(const uint8_t *p) {
    block order = _mm_set_epi8(0, 1, 2, 3, 4, 5, 6, 7, 8, 9, 10, 11, 12, 13, 14, 15);
    return _mm512_shuffle_epi8(_mm512_loadu_si512(p), _mm512_broadcast_i32x4(order));
}

WIDE static inline wide wide_carried(wide a, wide over, wide next) {
    wide low = _mm512_clmulepi64_epi128(a, over, 0x00), high = _mm512_clmulepi64_epi128(a, over, 0x11);
    return _mm512_ternarylogic_epi64(low, high, next, 0x96); /* the sum of the three */
}

/* Sixteen lanes over n bytes behind a residue; n is a multiple of 256 and not 0. */
WIDE static inline block sixteen_lanes(uint64_t f, const uint8_t *p, size_t n) {
    wide over = wide_powers(OVER_2048), half = wide_powers(OVER_1024);
    wide a = _mm512_xor_si512(wide_load(p), _mm512_zextsi128_si512(over_first(f)));
    wide b = wide_load(p + 64), c = wide_load(p + 128), d = wide_load(p + 192);
    for (size_t i = 256; i < n; i += 256) {
        a = wide_carried(a, over, wide_load(p + i));
        b = wide_carried(b, over, wide_load(p + i + 64));
        c = wide_carried(c, over, wide_load(p + i + 128));
        d = wide_carried(d, over, wide_load(p + i + 192));
    }
    d = wide_carried(wide_carried(a, half, c), wide_powers(OVER_512), wide_carried(b, half, d));
    block third = carried(_mm512_castsi512_si128(d), powers(OVER_256), _mm512_extracti32x4_epi32(d, 2));
    block fourth = carried(_mm512_extracti32x4_epi32(d, 1), powers(OVER_256), _mm512_extracti32x4_epi32(d, 3));
    return carried(third, powers(OVER_128), fourth);
}

int peer_carryless_wide_runs(void) {
    return peer_carryless_runs() && __builtin_cpu_supports("avx512bw") && __builtin_cpu_supports("vpclmulqdq");
}

WIDE uint64_t peer_carryless_wide(uint64_t f, const uint8_t *p, size_t n) {
    size_t i = n / 256 * 256;
    if (i > 0) {
        f = reduced(sixteen_lanes(f, p, i));
        _mm256_zeroupper(); /* code for 128 bits, behind this, is slow otherwise */
    }
    return i == n && n > 0 ? f : peer_carryless(f, p + i, n - i);
}
