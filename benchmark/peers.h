/* The C programs that the library is measured against: the same work, written plainly and compiled with -O3. A key is its degree, 8 to 64,
 * and the word of its coefficients below. */
#ifndef PEERS_H
#define PEERS_H
#include <stddef.h>
#include <stdint.h>
#ifdef __cplusplus
extern "C" {
#endif

/* A fingerprint bit by bit, with no branch on the data. */
uint64_t peer_feed_bits(uint32_t degree, uint64_t word, uint64_t f, const uint8_t *p, size_t n);

/* The same loop with the step written by an `if`, and compiled so that it stays a branch. */
uint64_t peer_feed_bits_by_if(uint32_t degree, uint64_t word, uint64_t f, const uint8_t *p, size_t n);

/* The table of 1,024 words, and its test by linearity: 0 where the words are right. */
void peer_fill(uint32_t degree, uint64_t word, uint64_t *words);
uint64_t peer_test(uint32_t degree, uint64_t word, const uint64_t *words);

/* A fingerprint by slicing by four: four bytes at a time through the key's table. */
uint64_t peer_slicing_by_4(uint32_t degree, uint64_t f, const uint64_t *words, const uint8_t *p, size_t n);

/* A fingerprint under the house key by carry-less multiplication, in registers of 128 bits (PCLMULQDQ) and of 512
 * (VPCLMULQDQ), and whether this machine has the instructions. */
uint64_t peer_carryless(uint64_t f, const uint8_t *p, size_t n);
int peer_carryless_runs(void);
uint64_t peer_carryless_wide(uint64_t f, const uint8_t *p, size_t n);
int peer_carryless_wide_runs(void);

/* Rabin and Karp's search modulo 2^32, base 257: the number of places, the first ones written. */
size_t peer_rabin_karp(const uint8_t *text, size_t n, const uint8_t *pattern, size_t m, uint32_t *places, size_t room);

/* The same places by memmem. */
size_t peer_memmem(const uint8_t *text, size_t n, const uint8_t *pattern, size_t m, uint32_t *places, size_t room);

#ifdef __cplusplus
}
#endif
#endif
