/* A file that an archive began goes on under our rule. The archive holds the plain mark of the file's first part, which
 * is taken without the leading 1, under the house key. It is turned into a mark, and the rest of the file is fed behind
 * it: the first part is not read again. The mark turned back is the archive's next entry. The exit status is 0 only
 * where both are as fed whole and the line was written. Under the house key, which is public, both may be kept. Under a
 * drawn key keep one of the two: together they give the key away (SECURITY.md). Bench level. */
#include "gfp.h"
#include <inttypes.h>
#include <stdio.h>

#define HOUSE GFP_HOUSE_DEGREE, GFP_HOUSE_WORD

/* Whether a call was refused, with a line that says which. */
static int refused(const char *call, uint32_t number) {
    if (number != GFP_OK)
        fprintf(stderr, "archive_mark: %s refused %" PRIu32 "\n", call, number);
    return number != GFP_OK;
}

int main(void) {
    static const uint8_t file[] = "offset 183.2 kPa; checked 2026-11-15;";
    const size_t length = sizeof file - 1; /* without the zero byte behind the text */
    /* the archive's entry: the plain fingerprint of the first part, and its bits */
    const uint64_t archived = UINT64_C(0xcc796862c0b4b01), archived_bits = 136;
    const size_t first = archived_bits / 8;
    uint64_t mark = archived, bits = archived_bits, whole, whole_bits, plain, plain_bits;
    if (refused("gfp_turn", gfp_turn(HOUSE, &mark, &bits))
        || refused("gfp_feed_house", gfp_feed_house(HOUSE, &mark, &bits, file + first, length - first, 8)))
        return 1;
    /* nothing in a mark tells its kind: so each kind has places of its own */
    uint64_t entry = mark, entry_bits = bits;
    if (refused("gfp_turn", gfp_turn(HOUSE, &entry, &entry_bits)))
        return 1;
    if (refused("gfp_begin", gfp_begin(HOUSE, &whole, &whole_bits))
        || refused("gfp_feed_house", gfp_feed_house(HOUSE, &whole, &whole_bits, file, length, 8))
        || refused("gfp_begin_plain", gfp_begin_plain(HOUSE, &plain, &plain_bits))
        || refused("gfp_feed_house", gfp_feed_house(HOUSE, &plain, &plain_bits, file, length, 8)))
        return 1;
    int mark_same = mark == whole && bits == whole_bits, entry_same = entry == plain && entry_bits == plain_bits;
    printf("%" PRIu64 " bits archived, then %" PRIu64 " bits: %s, %s\n", archived_bits, bits,
           mark_same ? "as fed whole" : "differs", entry_same ? "and so turned back" : "turned back differs");
    /* what was printed is written only once standard output is closed without an error */
    if (ferror(stdout) || fclose(stdout) != 0) {
        fprintf(stderr, "archive_mark: standard output cannot be written\n");
        return 1;
    }
    return !mark_same || !entry_same;
}
