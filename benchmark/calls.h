// A key as the library that is measured takes it: up to GFP_INTERFACE 4 as one number, since then as a pair. So one program measures the
// library before and after (HEADER, BUILT in the Makefile).
#ifndef CALLS_H
#define CALLS_H
#include "gfp.h"

struct Key {
    uint32_t degree;
    uint64_t word;   // the coefficients below t^degree
    uint64_t number; // those and t^degree; t^64 has no place in it
    // of the coefficients those below t^degree are taken, so that a number will do too
    constexpr Key(uint32_t degree, uint64_t coefficients)
        : degree(degree), word(coefficients & UINT64_MAX >> (64 - degree)), number(word | UINT64_C(2) << (degree - 1)) {}
};

// the first arguments of a call, to the peers and to the library
#define PAIR(key) (key).degree, (key).word

// what gfp_read_sheet writes
struct Contents {
    uint32_t version, degree;
    uint64_t word, bits, page_size, pages, fingerprint;
};

#if GFP_INTERFACE < 5

#define KEY(key) (key).number
#define KEY_PLACES(c) &(c).word
constexpr Key HOUSE(61, GFP_HOUSE_KEY);
constexpr uint32_t GREATEST_DEGREE = 63;

#else

#define KEY(key) PAIR(key)
#define KEY_PLACES(c) &(c).degree, &(c).word
constexpr Key HOUSE(GFP_HOUSE_DEGREE, GFP_HOUSE_WORD);
constexpr uint32_t GREATEST_DEGREE = 64;

#endif

// What a library before pkg-config's version 5.1 does not have: null there, and its lines are left out.
extern "C" {
__attribute__((weak)) uint32_t gfp_turn(uint32_t degree, uint64_t word, uint64_t *fingerprint, uint64_t *bits);
__attribute__((weak)) uint32_t gfp_join_plain_behind(uint32_t degree, uint64_t word, uint64_t *fingerprint, uint64_t *bits,
                                                     uint64_t other_fingerprint, uint64_t other_bits);
}

#endif
