/* The mark of a file as it is read: fingerprint KEY < FILE, the key in hexadecimal, 1 to 17 digits, or the stock key of
 * degree 61. A file of whole bytes has 8 used bits in the final byte of each part. The exit status is 0 only where all
 * of the file was read and the line was written. Other users of the machine can read KEY: do not pass a drawn one so.
 * Bench level. */
#include "gfp.h"
#include <inttypes.h>
#include <stdio.h>
#include <stdlib.h>
#include <string.h>

/* Splits a key that is written as a number: the degree is the place of its highest one bit, the word the number without
 * that bit. The first of 17 digits stands at 2^64. Gives 0 where the text is not 1 to 17 digits. */
static int split(const char *text, uint32_t *degree, uint64_t *word) {
    const size_t digits = strlen(text);
    uint64_t top = 0;
    if (digits < 1 || digits > 17 || strspn(text, "0123456789abcdefABCDEF") != digits)
        return 0;
    if (digits == 17) {
        const char first[2] = {text[0], 0};
        top = strtoull(first, NULL, 16);
        text++;
    }
    *word = strtoull(text, NULL, 16);
    *degree = top != 0 ? 64 : 0;
    for (uint64_t rest = top != 0 ? top : *word; rest > 1; rest >>= 1)
        ++*degree;
    if (*degree < 64)
        *word &= ~(UINT64_C(1) << *degree);
    return 1;
}

/* What a program printed is written only once standard output is closed without an error. */
static int closing(int status) {
    if (ferror(stdout) || fclose(stdout) != 0) {
        fprintf(stderr, "fingerprint: standard output cannot be written\n");
        return 1;
    }
    return status;
}

int main(int argc, char **argv) {
    static uint64_t words[GFP_TABLE_WORDS];
    static uint8_t part[65536];
    uint32_t degree = 61;
    uint64_t word = gfp_stock_key(degree), fingerprint, bits;
    if (argc > 1 && !split(argv[1], &degree, &word)) {
        printf("no key\n");
        return closing(1);
    }
    uint32_t refusal = gfp_begin(degree, word, &fingerprint, &bits);
    if (refusal == GFP_OK)
        refusal = gfp_make_table(degree, word, words, GFP_TABLE_WORDS);
    for (size_t n; refusal == GFP_OK && (n = fread(part, 1, sizeof part, stdin)) > 0;)
        refusal = gfp_feed_table(degree, word, &fingerprint, &bits, words, GFP_TABLE_WORDS, part, n, 8);
    if (refusal != GFP_OK) {
        printf("refused %" PRIu32 "\n", refusal);
        return closing(1);
    }
    /* fread gives 0 at the end and where a read failed: the mark is the file's only in the first case */
    if (ferror(stdin)) {
        fprintf(stderr, "fingerprint: standard input cannot be read\n");
        return 1;
    }
    printf("%" PRIu64 " bytes, fingerprint %" PRIx64 "\n", bits / 8, fingerprint);
    return closing(0);
}
