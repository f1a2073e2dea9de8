/* A stream that stops inside a byte: readings of 11 bits arrive in two parts, and the second goes on at the next bit.
 * The marks of the two parts, joined, give the same. The exit status is 0 only where they do and the line was written.
 * Site level. */
#include "gfp.h"
#include <inttypes.h>
#include <stdio.h>

enum { READINGS = 5, FIRST = 3, WIDTH = 11 };

/* Writes readings one behind the other, each with its high bit first, into zero bytes. Gives the number of bits. */
static size_t pack(const uint16_t *readings, size_t count, uint8_t *bytes) {
    size_t bit = 0;
    for (size_t i = 0; i < count; i++)
        for (int j = WIDTH - 1; j >= 0; j--, bit++)
            bytes[bit / 8] |= (uint8_t)((readings[i] >> j & 1) << (7 - bit % 8));
    return bit;
}

/* Feeds readings as one part: the bytes, and how many bits of the final byte are used. */
static uint32_t feed(uint64_t *fingerprint, uint64_t *bits, const uint16_t *readings, size_t count) {
    uint8_t bytes[(READINGS * WIDTH + 7) / 8] = {0};
    size_t n = pack(readings, count, bytes);
    uint32_t used = n % 8 == 0 ? 8 : (uint32_t)(n % 8);
    return gfp_feed(GFP_HOUSE_DEGREE, GFP_HOUSE_WORD, fingerprint, bits, bytes, (n + 7) / 8, used);
}

int main(void) {
    static const uint16_t readings[READINGS] = {1021, 1023, 1022, 517, 2047};
    uint64_t stream, bits, back, back_bits, whole, whole_bits;
    if (gfp_begin(GFP_HOUSE_DEGREE, GFP_HOUSE_WORD, &stream, &bits) != GFP_OK
        || feed(&stream, &bits, readings, FIRST) != GFP_OK)
        return 1;
    printf("%" PRIu64 " bits", bits);
    uint64_t joined = stream, joined_bits = bits;
    if (feed(&stream, &bits, readings + FIRST, READINGS - FIRST) != GFP_OK)
        return 1;
    printf(", then %" PRIu64 " bits: ", bits);
    if (gfp_begin(GFP_HOUSE_DEGREE, GFP_HOUSE_WORD, &back, &back_bits) != GFP_OK
        || feed(&back, &back_bits, readings + FIRST, READINGS - FIRST) != GFP_OK
        || gfp_join_behind(GFP_HOUSE_DEGREE, GFP_HOUSE_WORD, &joined, &joined_bits, back, back_bits) != GFP_OK)
        return 1;
    if (gfp_begin(GFP_HOUSE_DEGREE, GFP_HOUSE_WORD, &whole, &whole_bits) != GFP_OK
        || feed(&whole, &whole_bits, readings, READINGS) != GFP_OK)
        return 1;
    int fed_same = stream == whole && bits == whole_bits, joined_same = joined == whole && joined_bits == whole_bits;
    printf("%s, %s\n", fed_same ? "as fed whole" : "differs", joined_same ? "and so joined" : "joined differs");
    /* what was printed is written only once standard output is closed without an error */
    if (ferror(stdout) || fclose(stdout) != 0) {
        fprintf(stderr, "tilt_stream: standard output cannot be written\n");
        return 1;
    }
    return !fed_same || !joined_same;
}
