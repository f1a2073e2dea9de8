/* Calls every function of gfp.h as a C programmer would: good input, each refusal, buffers of length 0 at NULL, and
 * refusals with everything lent on a page that cannot be written to. Compiles as C99 and as C++. Prints what is wrong,
 * and "N right, M wrong".
 * interface stack: prints instead how many bytes of stack each function takes, measured on a stack of its own. */
#define _DEFAULT_SOURCE
#include "gfp.h"
#include <pthread.h>
#include <stdio.h>
#include <stdlib.h>
#include <string.h>
#include <sys/mman.h>

/* keys, each two arguments: degree and word */
#define KEY 8, UINT64_C(0x1b)
#define KEY_64 64, UINT64_C(0x1b)
#define HOUSE GFP_HOUSE_DEGREE, GFP_HOUSE_WORD
#define SMALL 7, UINT64_C(0x7f)
#define LARGE 65, UINT64_C(0x1b)
#define WIDE 8, UINT64_C(0x11b)
#define REDUCIBLE 8, UINT64_C(0x01)
#define REDUCIBLE_64 64, UINT64_C(0)
#define LONGEST UINT64_C(34359738360) /* in bits */
#define LONGEST_BYTES UINT64_C(4294967295)
#define NONE UINT64_C(0x1234567812345678)
#define NONE32 UINT32_C(0x12345678)

/* a key where it is chosen by number */
struct key {
    uint32_t degree;
    uint64_t word;
};

static unsigned right, wrong;

static void same(const char *what, uint64_t ours, uint64_t expected) {
    if (ours == expected) {
        right++;
        return;
    }
    wrong++;
    printf("%s: 0x%llx, not 0x%llx\n", what, (unsigned long long)ours, (unsigned long long)expected);
}

/* the number, and what a mark's places hold afterwards */
static void marked(const char *what, uint32_t number, uint32_t expected, const uint64_t *fingerprint,
                   const uint64_t *bits, uint64_t fingerprint_after, uint64_t bits_after) {
    same(what, number, expected);
    same(what, *fingerprint, fingerprint_after);
    same(what, *bits, bits_after);
}

static const uint8_t AB[2] = {0x41, 0x42}, CD[2] = {0x43, 0x44};
/* a final byte with 3 used bits, and another */
static const uint8_t UNFINISHED[2] = {0x41, 0x40}, OTHER[2] = {0x41, 0xa0};
static uint64_t words[GFP_TABLE_WORDS];
static const uint8_t *too_long; /* 4,294,967,296 bytes, of which none is touched */
static const size_t TOO_LONG = (size_t)1 << 32;

static void *area(size_t size) {
    void *p = mmap(NULL, size, PROT_READ | PROT_WRITE, MAP_PRIVATE | MAP_ANONYMOUS | MAP_NORESERVE, -1, 0);
    if (p == MAP_FAILED) {
        perror("mmap");
        exit(2);
    }
    return p;
}

/* ---- Bench */

static void keys(void) {
    uint32_t k;
    same("test_key", gfp_test_key(KEY), GFP_OK);
    same("test_key", gfp_test_key(KEY_64), GFP_OK);
    same("test_key", gfp_test_key(HOUSE), GFP_OK);
    same("test_key", gfp_test_key(SMALL), GFP_KEY_RANGE);
    same("test_key", gfp_test_key(LARGE), GFP_KEY_RANGE);
    same("test_key", gfp_test_key(WIDE), GFP_KEY_RANGE);
    same("test_key", gfp_test_key(0, 0), GFP_KEY_RANGE);
    same("test_key", gfp_test_key(255, 0x1b), GFP_KEY_RANGE);
    same("test_key", gfp_test_key(UINT32_MAX, UINT64_MAX), GFP_KEY_RANGE);
    same("test_key", gfp_test_key(63, UINT64_C(1) << 63 | 3), GFP_KEY_RANGE);
    same("test_key", gfp_test_key(63, 3), GFP_OK);
    same("test_key", gfp_test_key(REDUCIBLE), GFP_KEY_REDUCIBLE);
    same("test_key", gfp_test_key(REDUCIBLE_64), GFP_KEY_REDUCIBLE);
    same("test_key", gfp_test_key(64, UINT64_MAX), GFP_KEY_REDUCIBLE);
    same("stock_key", gfp_stock_key(8), 0x1b);
    same("stock_key", gfp_stock_key(GFP_HOUSE_DEGREE), GFP_HOUSE_WORD);
    same("stock_key", gfp_stock_key(64), 0x1b);
    for (k = 0; k < 70; k++) {
        const uint64_t word = gfp_stock_key(k);
        const int listed = 8 <= k && k <= 64;
        same("stock_key", word != 0, (uint64_t)listed);
        same("stock_key", gfp_test_key(k, word), listed ? GFP_OK : GFP_KEY_RANGE);
    }
    same("stock_key", gfp_stock_key(UINT32_MAX), 0);
    same("stock_key", gfp_stock_key((UINT32_C(1) << 31) + 8), 0);
}

static void marks_and_tables(void) {
    static uint64_t made[GFP_TABLE_WORDS];
    uint64_t f = NONE, n = NONE;
    marked("begin", gfp_begin(SMALL, &f, &n), GFP_KEY_RANGE, &f, &n, NONE, NONE);
    marked("begin", gfp_begin(WIDE, &f, &n), GFP_KEY_RANGE, &f, &n, NONE, NONE);
    marked("begin", gfp_begin(REDUCIBLE, &f, &n), GFP_KEY_REDUCIBLE, &f, &n, NONE, NONE);
    marked("begin", gfp_begin(KEY_64, &f, &n), GFP_OK, &f, &n, 1, 0);
    f = 7;
    same("begin", gfp_begin(KEY, &f, &n), GFP_OK);
    same("begin", f, 1);
    same("begin", n, 0);
    same("make_table", gfp_make_table(SMALL, made, GFP_TABLE_WORDS), GFP_KEY_RANGE);
    same("make_table", gfp_make_table(REDUCIBLE, made, GFP_TABLE_WORDS), GFP_KEY_REDUCIBLE);
    same("make_table", gfp_make_table(KEY, made, GFP_TABLE_WORDS - 1), GFP_TABLE_SIZE);
    same("make_table", made[1], 0);
    same("make_table", gfp_make_table(KEY_64, made, GFP_TABLE_WORDS), GFP_OK);
    same("make_table", made[1] == 0x1b && made[128] == 0xd80 && made[257] == 0x1b00, 1);
    same("test_table", gfp_test_table(KEY_64, made, GFP_TABLE_WORDS), GFP_OK);
    same("test_table", gfp_test_table(KEY, made, GFP_TABLE_WORDS), GFP_TABLE_WORD);
    same("make_table", gfp_make_table(KEY, made, GFP_TABLE_WORDS), GFP_OK);
    same("make_table", made[257], 0x5e);
    memcpy(words, made, sizeof words);
    same("test_table", gfp_test_table(KEY, made, GFP_TABLE_WORDS), GFP_OK);
    same("test_table", gfp_test_table(SMALL, made, GFP_TABLE_WORDS), GFP_KEY_RANGE);
    same("test_table", gfp_test_table(REDUCIBLE, made, GFP_TABLE_WORDS), GFP_KEY_REDUCIBLE);
    same("test_table", gfp_test_table(KEY, made, 0), GFP_TABLE_SIZE);
    made[1023] ^= 1;
    same("test_table", gfp_test_table(KEY, made, GFP_TABLE_WORDS), GFP_TABLE_WORD);
}

/* the three ways of feeding, by number */
static uint32_t fed(int way, uint32_t degree, uint64_t word, uint64_t *f, uint64_t *n, const uint8_t *part,
                    size_t part_length, uint32_t used) {
    switch (way) {
    case 0:
        return gfp_feed(degree, word, f, n, part, part_length, used);
    case 1:
        return gfp_feed_table(degree, word, f, n, words, GFP_TABLE_WORDS, part, part_length, used);
    default:
        return gfp_feed_house(degree, word, f, n, part, part_length, used);
    }
}

static const char *const WAYS[3] = {"feed", "feed_table", "feed_house"};

static void feeding(void) {
    static uint64_t damaged[GFP_TABLE_WORDS];
    uint64_t f, n;
    int way;
    for (way = 0; way < 3; way++) {
        const uint32_t k = way == 2 ? GFP_HOUSE_DEGREE : 8;
        const uint64_t word = way == 2 ? GFP_HOUSE_WORD : 0x1b, above = UINT64_C(1) << k;
        f = 1, n = 0;
        marked(WAYS[way], fed(way, k, word, &f, &n, AB, 2, 8), GFP_OK, &f, &n, way == 2 ? 0x14142 : 0x9d, 16);
        marked(WAYS[way], fed(way, k, word, &f, &n, AB, 0, 8), GFP_OK, &f, &n, way == 2 ? 0x14142 : 0x9d, 16);
        f = 5, n = 6;
        marked(WAYS[way], fed(way, SMALL, &f, &n, AB, 2, 8), GFP_KEY_RANGE, &f, &n, 5, 6);
        marked(WAYS[way], fed(way, REDUCIBLE, &f, &n, AB, 2, 8), GFP_KEY_REDUCIBLE, &f, &n, 5, 6);
        marked(WAYS[way], fed(way, k, word, &f, &n, too_long, TOO_LONG, 8), GFP_TOO_LONG, &f, &n, 5, 6);
        marked(WAYS[way], fed(way, k, word, &f, &n, too_long, TOO_LONG, 1), GFP_TOO_LONG, &f, &n, 5, 6);
        n = LONGEST;
        marked(WAYS[way], fed(way, k, word, &f, &n, AB, 1, 8), GFP_TOO_LONG, &f, &n, 5, LONGEST);
        marked(WAYS[way], fed(way, k, word, &f, &n, UNFINISHED + 1, 1, 2), GFP_TOO_LONG, &f, &n, 5, LONGEST);
        f = above, n = 6;
        marked(WAYS[way], fed(way, k, word, &f, &n, AB, 2, 8), GFP_MARK_NOT_REDUCED, &f, &n, above, 6);
    }
    f = 5, n = 6;
    memcpy(damaged, words, sizeof damaged);
    damaged[700] ^= 1;
    marked("feed_table", gfp_feed_table(KEY, &f, &n, words, 1023, AB, 2, 8), GFP_TABLE_SIZE, &f, &n, 5, 6);
    marked("feed_table", gfp_feed_table(KEY, &f, &n, damaged, GFP_TABLE_WORDS, AB, 2, 8), GFP_TABLE_WORD, &f, &n, 5, 6);
    marked("feed_house", gfp_feed_house(KEY, &f, &n, AB, 2, 8), GFP_TABLE_WORD, &f, &n, 5, 6);
    marked("feed_house", gfp_feed_house(KEY_64, &f, &n, AB, 2, 8), GFP_TABLE_WORD, &f, &n, 5, 6);
}

/* degree 64: two files that share a fingerprint, and fingerprints of 2^63 or more, which are refused at degree 63 */
static void degree_64(void) {
    static const uint8_t ZEROS[9] = {0, 0, 0, 0, 0, 0, 0, 0, 0}, SAME[9] = {1, 0, 0, 0, 0, 0, 0, 0, 0x1b};
    const uint64_t half = UINT64_C(1) << 63;
    uint64_t f = 1, n = 0;
    marked("feed", gfp_feed(KEY_64, &f, &n, AB, 2, 8), GFP_OK, &f, &n, 0x14142, 16);
    f = 1, n = 0;
    marked("feed", gfp_feed(KEY_64, &f, &n, ZEROS, 9, 8), GFP_OK, &f, &n, 0x1b00, 72);
    f = 1, n = 0;
    marked("feed", gfp_feed(KEY_64, &f, &n, SAME, 9, 8), GFP_OK, &f, &n, 0x1b00, 72);
    f = half, n = 64;
    marked("feed", gfp_feed(KEY_64, &f, &n, ZEROS, 1, 1), GFP_OK, &f, &n, 0x1b, 65);
    f = UINT64_MAX, n = 64;
    marked("join_behind", gfp_join_behind(KEY_64, &f, &n, 1, 0), GFP_OK, &f, &n, UINT64_MAX, 64);
    f = 1, n = 0;
    marked("join_behind", gfp_join_behind(KEY_64, &f, &n, UINT64_MAX, 64), GFP_OK, &f, &n, UINT64_MAX, 64);
    marked("join_in_front", gfp_join_in_front(KEY_64, &f, &n, 1, 0), GFP_OK, &f, &n, UINT64_MAX, 64);
    marked("replace_page", gfp_replace_page(KEY_64, &f, &n, 0, AB, 2, 8, AB, 2, 8), GFP_OK, &f, &n, UINT64_MAX, 64);
    f = half, n = 64;
    marked("feed", gfp_feed(63, 3, &f, &n, ZEROS, 1, 1), GFP_MARK_NOT_REDUCED, &f, &n, half, 64);
    marked("join_behind", gfp_join_behind(63, 3, &f, &n, 1, 0), GFP_MARK_NOT_REDUCED, &f, &n, half, 64);
    marked("replace_page", gfp_replace_page(63, 3, &f, &n, 0, AB, 2, 8, AB, 2, 8), GFP_MARK_NOT_REDUCED, &f, &n, half,
           64);
}

/* parts that stop inside a byte, and each wrong final byte */
static void unfinished_parts(void) {
    static const uint8_t REST[2] = {0x0a, 0x10};
    uint64_t f, n;
    int way;
    for (way = 0; way < 3; way++) {
        const uint32_t k = way == 2 ? GFP_HOUSE_DEGREE : 8;
        const uint64_t word = way == 2 ? GFP_HOUSE_WORD : 0x1b;
        f = 1, n = 0;
        marked(WAYS[way], fed(way, k, word, &f, &n, UNFINISHED, 2, 3), GFP_OK, &f, &n, way == 2 ? 0xa0a : 0xe4, 11);
        f = 1, n = 0;
        marked(WAYS[way], fed(way, k, word, &f, &n, UNFINISHED + 1, 1, 3), GFP_OK, &f, &n, 0x0a, 3);
        marked(WAYS[way], fed(way, k, word, &f, &n, REST, 2, 5), GFP_OK, &f, &n, way == 2 ? 0x14142 : 0x9d, 16);
        f = 5, n = 6;
        marked(WAYS[way], fed(way, k, word, &f, &n, AB, 2, 0), GFP_FINAL_BYTE, &f, &n, 5, 6);
        marked(WAYS[way], fed(way, k, word, &f, &n, AB, 2, 9), GFP_FINAL_BYTE, &f, &n, 5, 6);
        marked(WAYS[way], fed(way, k, word, &f, &n, AB, 2, UINT32_MAX), GFP_FINAL_BYTE, &f, &n, 5, 6);
        marked(WAYS[way], fed(way, k, word, &f, &n, AB, 2, 6), GFP_FINAL_BYTE, &f, &n, 5, 6);
        marked(WAYS[way], fed(way, k, word, &f, &n, AB, 0, 7), GFP_FINAL_BYTE, &f, &n, 5, 6);
        /* in a length 0 and 9 count as 8 */
        n = LONGEST - 7;
        marked(WAYS[way], fed(way, k, word, &f, &n, AB, 1, 0), GFP_TOO_LONG, &f, &n, 5, LONGEST - 7);
        marked(WAYS[way], fed(way, k, word, &f, &n, AB, 1, 9), GFP_TOO_LONG, &f, &n, 5, LONGEST - 7);
        marked(WAYS[way], fed(way, k, word, &f, &n, AB, 1, 7), GFP_FINAL_BYTE, &f, &n, 5, LONGEST - 7);
    }
}

static void beginning_plain_marks(void) {
    uint64_t f = NONE, n = NONE;
    marked("begin_plain", gfp_begin_plain(SMALL, &f, &n), GFP_KEY_RANGE, &f, &n, NONE, NONE);
    marked("begin_plain", gfp_begin_plain(LARGE, &f, &n), GFP_KEY_RANGE, &f, &n, NONE, NONE);
    marked("begin_plain", gfp_begin_plain(WIDE, &f, &n), GFP_KEY_RANGE, &f, &n, NONE, NONE);
    marked("begin_plain", gfp_begin_plain(REDUCIBLE, &f, &n), GFP_KEY_REDUCIBLE, &f, &n, NONE, NONE);
    marked("begin_plain", gfp_begin_plain(REDUCIBLE_64, &f, &n), GFP_KEY_REDUCIBLE, &f, &n, NONE, NONE);
    marked("begin_plain", gfp_begin_plain(KEY, &f, &n), GFP_OK, &f, &n, 0, 0);
    f = n = NONE;
    marked("begin_plain", gfp_begin_plain(HOUSE, &f, &n), GFP_OK, &f, &n, 0, 0);
    f = n = NONE;
    marked("begin_plain", gfp_begin_plain(KEY_64, &f, &n), GFP_OK, &f, &n, 0, 0);
}

/* a plain mark begun and fed in a way: the fingerprint after it */
static void fed_plain_mark(int way, uint32_t degree, uint64_t word, const uint8_t *part, size_t part_length,
                           uint32_t used, uint64_t bits, uint64_t fingerprint) {
    uint64_t f = NONE, n = NONE;
    same("begin_plain", gfp_begin_plain(degree, word, &f, &n), GFP_OK);
    marked(WAYS[way], fed(way, degree, word, &f, &n, part, part_length, used), GFP_OK, &f, &n, fingerprint, bits);
}

/* the functions that feed take plain marks as they are; four files share the plain fingerprint 0, and at degree 64 two
 * of nine bytes */
static void feeding_plain_marks(void) {
    static const uint8_t ZEROS[9] = {0, 0, 0, 0, 0, 0, 0, 0, 0}, SAME[2] = {1, 0x1b};
    static const uint8_t SAME_64[9] = {1, 0, 0, 0, 0, 0, 0, 0, 0x1b};
    int way;
    for (way = 0; way < 3; way++) {
        const uint32_t k = way == 2 ? GFP_HOUSE_DEGREE : 8;
        const uint64_t word = way == 2 ? GFP_HOUSE_WORD : 0x1b;
        fed_plain_mark(way, k, word, AB, 0, 8, 0, 0);
        fed_plain_mark(way, k, word, AB, 1, 8, 8, 0x41);
        fed_plain_mark(way, k, word, AB, 2, 8, 16, way == 2 ? 0x4142 : 0xc3);
        fed_plain_mark(way, k, word, UNFINISHED, 2, 3, 11, way == 2 ? 0x20a : 0x3c);
        fed_plain_mark(way, k, word, ZEROS, 1, 8, 8, 0);
        fed_plain_mark(way, k, word, ZEROS, 2, 8, 16, 0);
        fed_plain_mark(way, k, word, SAME, 2, 8, 16, way == 2 ? 0x11b : 0);
    }
    fed_plain_mark(0, KEY_64, AB, 2, 8, 16, 0x4142);
    fed_plain_mark(0, KEY_64, ZEROS, 9, 8, 72, 0);
    fed_plain_mark(0, KEY_64, SAME_64, 9, 8, 72, 0);
}

/* a mark turned, and the same call turns it back */
static void turned(uint32_t degree, uint64_t word, uint64_t bits, uint64_t one, uint64_t other) {
    uint64_t f = one, n = bits;
    marked("turn", gfp_turn(degree, word, &f, &n), GFP_OK, &f, &n, other, bits);
    marked("turn", gfp_turn(degree, word, &f, &n), GFP_OK, &f, &n, one, bits);
}

static void turning(void) {
    static const struct key ACCEPTED[3] = {{KEY}, {HOUSE}, {KEY_64}};
    uint64_t f, n;
    int i;
    turned(KEY, 16, 0x9d, 0xc3);
    turned(KEY, 8, 0x41, 0x5a);
    turned(KEY, 3, 0x02, 0x0a);
    turned(KEY_64, 72, 0, 0x1b00);
    turned(KEY, LONGEST, 0, 1);
    turned(HOUSE, LONGEST, 0, UINT64_C(0x10afe820511c00ee));
    turned(KEY_64, LONGEST, 0, UINT64_C(0x19b3fcc2ab3699fd));
    turned(KEY_64, 64, UINT64_MAX, UINT64_MAX - 0x1b);
    for (i = 0; i < 3; i++) {
        turned(ACCEPTED[i].degree, ACCEPTED[i].word, 0, 0, 1);
        f = 0, n = LONGEST + 1;
        marked("turn", gfp_turn(ACCEPTED[i].degree, ACCEPTED[i].word, &f, &n), GFP_TOO_LONG, &f, &n, 0, LONGEST + 1);
    }
    f = 0x100, n = 8;
    marked("turn", gfp_turn(KEY, &f, &n), GFP_MARK_NOT_REDUCED, &f, &n, 0x100, 8);
    n = LONGEST + 1;
    marked("turn", gfp_turn(KEY, &f, &n), GFP_TOO_LONG, &f, &n, 0x100, LONGEST + 1);
    n = UINT64_MAX;
    marked("turn", gfp_turn(KEY, &f, &n), GFP_TOO_LONG, &f, &n, 0x100, UINT64_MAX);
    marked("turn", gfp_turn(7, 0, &f, &n), GFP_KEY_RANGE, &f, &n, 0x100, UINT64_MAX);
    marked("turn", gfp_turn(LARGE, &f, &n), GFP_KEY_RANGE, &f, &n, 0x100, UINT64_MAX);
    marked("turn", gfp_turn(WIDE, &f, &n), GFP_KEY_RANGE, &f, &n, 0x100, UINT64_MAX);
    marked("turn", gfp_turn(REDUCIBLE, &f, &n), GFP_KEY_REDUCIBLE, &f, &n, 0x100, UINT64_MAX);
    f = UINT64_C(1) << 63, n = 64;
    marked("turn", gfp_turn(63, 3, &f, &n), GFP_MARK_NOT_REDUCED, &f, &n, UINT64_C(1) << 63, 64);
}

/* turned between two parts, and inside a byte: feeding goes on as if the file had begun under the other rule */
static void turned_between_parts(void) {
    static const uint8_t REST[2] = {0x0a, 0x10};
    uint64_t f, n;
    int way;
    for (way = 0; way < 3; way++) {
        const uint32_t k = way == 2 ? GFP_HOUSE_DEGREE : 8;
        const uint64_t word = way == 2 ? GFP_HOUSE_WORD : 0x1b;
        f = 0, n = 0;
        marked(WAYS[way], fed(way, k, word, &f, &n, AB, 1, 8), GFP_OK, &f, &n, 0x41, 8);
        marked("turn", gfp_turn(k, word, &f, &n), GFP_OK, &f, &n, way == 2 ? 0x141 : 0x5a, 8);
        marked(WAYS[way], fed(way, k, word, &f, &n, AB + 1, 1, 8), GFP_OK, &f, &n, way == 2 ? 0x14142 : 0x9d, 16);
        f = 0, n = 0;
        marked(WAYS[way], fed(way, k, word, &f, &n, UNFINISHED + 1, 1, 3), GFP_OK, &f, &n, 0x02, 3);
        marked("turn", gfp_turn(k, word, &f, &n), GFP_OK, &f, &n, 0x0a, 3);
        marked(WAYS[way], fed(way, k, word, &f, &n, REST, 2, 5), GFP_OK, &f, &n, way == 2 ? 0x14142 : 0x9d, 16);
        f = 1, n = 0;
        marked(WAYS[way], fed(way, k, word, &f, &n, UNFINISHED + 1, 1, 3), GFP_OK, &f, &n, 0x0a, 3);
        marked("turn", gfp_turn(k, word, &f, &n), GFP_OK, &f, &n, 0x02, 3);
        marked(WAYS[way], fed(way, k, word, &f, &n, REST, 2, 5), GFP_OK, &f, &n, way == 2 ? 0x4142 : 0xc3, 16);
    }
}

/* ---- Site */

static void joining(void) {
    uint64_t f = 0x5a, n = 8;
    marked("join_behind", gfp_join_behind(KEY, &f, &n, 0x59, 8), GFP_OK, &f, &n, 0x9d, 16);
    f = 0x59, n = 8;
    marked("join_in_front", gfp_join_in_front(KEY, &f, &n, 0x5a, 8), GFP_OK, &f, &n, 0x9d, 16);
    f = 0x0a, n = 3;
    marked("join_behind", gfp_join_behind(KEY, &f, &n, 0x14, 13), GFP_OK, &f, &n, 0x9d, 16);
    f = 0x14, n = 13;
    marked("join_in_front", gfp_join_in_front(KEY, &f, &n, 0x0a, 3), GFP_OK, &f, &n, 0x9d, 16);
    f = 5, n = LONGEST;
    marked("join_behind", gfp_join_behind(KEY, &f, &n, 1, 0), GFP_OK, &f, &n, 5, LONGEST);
    marked("join_behind", gfp_join_behind(KEY, &f, &n, 1, 1), GFP_TOO_LONG, &f, &n, 5, LONGEST);
    f = 5, n = 6;
    marked("join_behind", gfp_join_behind(SMALL, &f, &n, 1, 1), GFP_KEY_RANGE, &f, &n, 5, 6);
    marked("join_behind", gfp_join_behind(REDUCIBLE, &f, &n, 1, 1), GFP_KEY_REDUCIBLE, &f, &n, 5, 6);
    marked("join_behind", gfp_join_behind(KEY, &f, &n, 1, LONGEST), GFP_TOO_LONG, &f, &n, 5, 6);
    marked("join_behind", gfp_join_behind(KEY, &f, &n, 0x100, 1), GFP_MARK_NOT_REDUCED, &f, &n, 5, 6);
    marked("join_in_front", gfp_join_in_front(SMALL, &f, &n, 1, 1), GFP_KEY_RANGE, &f, &n, 5, 6);
    marked("join_in_front", gfp_join_in_front(REDUCIBLE, &f, &n, 1, 1), GFP_KEY_REDUCIBLE, &f, &n, 5, 6);
    marked("join_in_front", gfp_join_in_front(KEY, &f, &n, 1, LONGEST), GFP_TOO_LONG, &f, &n, 5, 6);
    marked("join_in_front", gfp_join_in_front(KEY, &f, &n, 0x100, 1), GFP_MARK_NOT_REDUCED, &f, &n, 5, 6);
}

/* 5a and 59 are marks of 41 and 42 with the leading 1: joined as plain marks they give 86, and not 9d */
static void joining_plain_marks(void) {
    uint64_t f = 0x41, n = 8;
    marked("join_plain_behind", gfp_join_plain_behind(KEY, &f, &n, 0x42, 8), GFP_OK, &f, &n, 0xc3, 16);
    f = 0x5a, n = 8;
    marked("join_plain_behind", gfp_join_plain_behind(KEY, &f, &n, 0x59, 8), GFP_OK, &f, &n, 0x86, 16);
    f = 0x02, n = 3;
    marked("join_plain_behind", gfp_join_plain_behind(KEY_64, &f, &n, 0x142, 13), GFP_OK, &f, &n, 0x4142, 16);
    f = 0x42, n = 8;
    marked("join_plain_in_front", gfp_join_plain_in_front(KEY, &f, &n, 0x41, 8), GFP_OK, &f, &n, 0xc3, 16);
    f = 0x59, n = 8;
    marked("join_plain_in_front", gfp_join_plain_in_front(KEY, &f, &n, 0x5a, 8), GFP_OK, &f, &n, 0x86, 16);
    f = 0x142, n = 13;
    marked("join_plain_in_front", gfp_join_plain_in_front(KEY_64, &f, &n, 0x02, 3), GFP_OK, &f, &n, 0x4142, 16);
    f = UINT64_MAX, n = LONGEST;
    marked("join_plain_behind", gfp_join_plain_behind(KEY_64, &f, &n, 0, 0), GFP_OK, &f, &n, UINT64_MAX, LONGEST);
    marked("join_plain_in_front", gfp_join_plain_in_front(KEY_64, &f, &n, 0, 0), GFP_OK, &f, &n, UINT64_MAX, LONGEST);
}

/* both functions that join plain marks: each refusal */
static void refused_plain_joins(void) {
    static const char *const NAMES[2] = {"join_plain_behind", "join_plain_in_front"};
    uint32_t (*const JOINS[2])(uint32_t, uint64_t, uint64_t *, uint64_t *, uint64_t, uint64_t) = {
        gfp_join_plain_behind, gfp_join_plain_in_front};
    uint64_t f, n;
    int i;
    for (i = 0; i < 2; i++) {
        f = 5, n = 6;
        marked(NAMES[i], JOINS[i](SMALL, &f, &n, 1, 1), GFP_KEY_RANGE, &f, &n, 5, 6);
        marked(NAMES[i], JOINS[i](LARGE, &f, &n, 1, 1), GFP_KEY_RANGE, &f, &n, 5, 6);
        marked(NAMES[i], JOINS[i](WIDE, &f, &n, 1, 1), GFP_KEY_RANGE, &f, &n, 5, 6);
        marked(NAMES[i], JOINS[i](REDUCIBLE, &f, &n, 1, 1), GFP_KEY_REDUCIBLE, &f, &n, 5, 6);
        marked(NAMES[i], JOINS[i](KEY, &f, &n, 1, LONGEST), GFP_TOO_LONG, &f, &n, 5, 6);
        marked(NAMES[i], JOINS[i](KEY, &f, &n, 0x100, UINT64_MAX), GFP_TOO_LONG, &f, &n, 5, 6);
        marked(NAMES[i], JOINS[i](KEY, &f, &n, 0x100, 1), GFP_MARK_NOT_REDUCED, &f, &n, 5, 6);
        f = 0x100, n = 6;
        marked(NAMES[i], JOINS[i](KEY, &f, &n, 1, 1), GFP_MARK_NOT_REDUCED, &f, &n, 0x100, 6);
        f = 5, n = LONGEST;
        marked(NAMES[i], JOINS[i](KEY, &f, &n, 1, 1), GFP_TOO_LONG, &f, &n, 5, LONGEST);
        f = 0x100, n = UINT64_MAX;
        marked(NAMES[i], JOINS[i](KEY, &f, &n, 1, 1), GFP_TOO_LONG, &f, &n, 0x100, UINT64_MAX);
        marked(NAMES[i], JOINS[i](SMALL, &f, &n, 1, 1), GFP_KEY_RANGE, &f, &n, 0x100, UINT64_MAX);
        marked(NAMES[i], JOINS[i](REDUCIBLE, &f, &n, 1, 1), GFP_KEY_REDUCIBLE, &f, &n, 0x100, UINT64_MAX);
    }
}

static uint64_t page_f, page_n;

/* a call of gfp_replace_page with pages of one length in bytes, its number, and the fingerprint after it */
static void replaced(uint32_t degree, uint64_t word, uint64_t place, const uint8_t *old_page, uint32_t old_used,
                     const uint8_t *new_page, uint32_t new_used, size_t length, uint32_t expected, uint64_t after) {
    const uint64_t bits = page_n;
    const uint32_t number = gfp_replace_page(degree, word, &page_f, &page_n, place, old_page, length, old_used,
                                             new_page, length, new_used);
    marked("replace_page", number, expected, &page_f, &page_n, after, bits);
}

static void page_change(void) {
    uint64_t f = 5, n = 48, whole = 1, zero = 0;
    same("feed", gfp_feed(KEY, &whole, &zero, CD, 2, 8), GFP_OK);
    page_f = 0x9d, page_n = 16;
    replaced(KEY, 0, AB, 8, CD, 8, 2, GFP_OK, whole);
    page_f = 5, page_n = 48;
    replaced(SMALL, 0, AB, 8, CD, 8, 2, GFP_KEY_RANGE, 5);
    replaced(REDUCIBLE, 0, AB, 8, CD, 8, 2, GFP_KEY_REDUCIBLE, 5);
    replaced(KEY, 5, AB, 8, CD, 8, 2, GFP_PAGE_PAST_END, 5);
    replaced(KEY, UINT64_C(1) << 61, AB, 8, CD, 8, 2, GFP_PAGE_PAST_END, 5);
    replaced(KEY, UINT64_MAX, AB, 8, CD, 8, 0, GFP_PAGE_PAST_END, 5);
    /* both pages are only read, and may be one */
    replaced(KEY, 4, AB, 8, AB, 8, 2, GFP_OK, 5);
    page_f = 0x100;
    replaced(KEY, 0, AB, 8, CD, 8, 2, GFP_MARK_NOT_REDUCED, 0x100);
    marked("replace_page", gfp_replace_page(KEY, &f, &n, 0, too_long, TOO_LONG, 8, CD, 2, 8), GFP_TOO_LONG, &f, &n, 5,
           48);
    marked("replace_page", gfp_replace_page(KEY, &f, &n, 0, AB, 2, 8, CD, 1, 8), GFP_PAGE_LENGTHS_DIFFER, &f, &n, 5,
           48);
}

/* pages that stop inside a byte, in the middle of the file and at its end, and each wrong final byte */
static void unfinished_pages(void) {
    page_f = 0x9d, page_n = 16;
    replaced(KEY, 1, UNFINISHED + 1, 3, OTHER + 1, 3, 1, GFP_OK, 0x7d);
    /* the same page of a plain mark */
    page_f = 0xc3, page_n = 16;
    replaced(KEY, 1, UNFINISHED + 1, 3, OTHER + 1, 3, 1, GFP_OK, 0x23);
    page_f = 0xe4, page_n = 11;
    replaced(KEY, 0, UNFINISHED, 3, UNFINISHED, 3, 2, GFP_OK, 0xe4);
    replaced(KEY, 0, UNFINISHED, 4, UNFINISHED, 4, 2, GFP_PAGE_PAST_END, 0xe4);
    replaced(KEY, 0, UNFINISHED, 3, UNFINISHED, 2, 2, GFP_PAGE_LENGTHS_DIFFER, 0xe4);
    page_n = 16;
    replaced(KEY, 0, AB, 6, CD, 6, 2, GFP_FINAL_BYTE, 0xe4);
    replaced(KEY, 0, CD, 6, AB, 6, 2, GFP_FINAL_BYTE, 0xe4);
    replaced(KEY, 0, AB, 0, CD, 8, 2, GFP_FINAL_BYTE, 0xe4);
    replaced(KEY, 0, AB, 8, CD, UINT32_MAX, 2, GFP_FINAL_BYTE, 0xe4);
    replaced(KEY, 2, AB, 7, CD, 7, 0, GFP_FINAL_BYTE, 0xe4);
    /* in a length 0 counts as 8 */
    replaced(KEY, 0, UNFINISHED, 0, OTHER, 7, 2, GFP_PAGE_LENGTHS_DIFFER, 0xe4);
    page_n = 15;
    replaced(KEY, 0, UNFINISHED, 0, OTHER, 0, 2, GFP_PAGE_PAST_END, 0xe4);
}

static void searching(void) {
    static const uint8_t text[5] = {'a', 'a', 'a', 'b', 'a'};
    uint32_t places[3] = {7, 7, 7}, count = NONE32, alarms = NONE32;
    same("search", gfp_search(SMALL, text, 5, text, 2, places, 3, &count, &alarms), GFP_KEY_RANGE);
    same("search", gfp_search(REDUCIBLE, text, 5, text, 2, places, 3, &count, &alarms), GFP_KEY_REDUCIBLE);
    same("search", gfp_search(KEY, too_long, TOO_LONG, text, 2, places, 3, &count, &alarms), GFP_TOO_LONG);
    same("search", gfp_search(KEY, text, 5, text, 0, places, 3, &count, &alarms), GFP_EMPTY_PATTERN);
    same("search", places[0] == 7 && places[1] == 7 && places[2] == 7 && count == NONE32 && alarms == NONE32, 1);
    /* the pattern lies inside its text: both are only read */
    same("search", gfp_search(KEY, text, 5, text + 1, 2, places, 3, &count, &alarms), GFP_OK);
    same("search", places[0] == 0 && places[1] == 1 && places[2] == 7 && count == 2 && alarms == 0, 1);
    same("search", gfp_search(KEY, text, 5, text, 1, places, 0, &count, &alarms), GFP_OK);
    same("search", places[0] == 0 && count == 4 && alarms == 0, 1);
}

/* what gfp_read_sheet writes */
static uint32_t version, degree_read;
static uint64_t word_read, bits_read, size_read, pages_read, fingerprint_read;

static uint32_t read_all(const uint8_t *sheet, size_t sheet_length) {
    version = degree_read = NONE32, word_read = bits_read = size_read = pages_read = fingerprint_read = NONE;
    return gfp_read_sheet(sheet, sheet_length, &version, &degree_read, &word_read, &bits_read, &size_read, &pages_read,
                          &fingerprint_read);
}

static int nothing_read(void) {
    return version == NONE32 && degree_read == NONE32 && word_read == NONE && bits_read == NONE && size_read == NONE
           && pages_read == NONE && fingerprint_read == NONE;
}

/* of a sheet under a key with one page of 16 bytes */
static int one_page_read(uint32_t version_expected, uint32_t degree, uint64_t word, uint64_t bits,
                         uint64_t fingerprint) {
    return version == version_expected && degree_read == degree && word_read == word && bits_read == bits
           && size_read == 16 && pages_read == 1 && fingerprint_read == fingerprint;
}

static void writing_sheets(void) {
    static const uint8_t expected[40] = {'G', 'F', 'P', 0, 4, 8, 0, 0, 0, 0, 0, 0, 0, 0x1b, 0, 0, 0, 0, 0, 0,
                                         0, 16, 0, 16, 0, 0, 0, 0, 0, 0, 0, 0x9d, 0, 0, 0, 0, 0, 0, 0, 0x9d};
    static const uint8_t expected_64[40] = {'G', 'F', 'P', 0, 4, 64, 0, 0, 0, 0, 0, 0, 0, 0x1b, 0, 0, 0, 0, 0, 0,
                                            0, 16, 0, 16, 0, 0, 0, 0, 0, 1, 0x41, 0x42, 0, 0, 0, 0, 0, 1, 0x41, 0x42};
    uint8_t sheet[41];
    memset(sheet, 9, sizeof sheet);
    same("write_sheet", gfp_write_sheet(SMALL, 16, AB, 2, 8, sheet, 41), GFP_KEY_RANGE);
    same("write_sheet", gfp_write_sheet(LARGE, 16, AB, 2, 8, sheet, 41), GFP_KEY_RANGE);
    same("write_sheet", gfp_write_sheet(WIDE, 16, AB, 2, 8, sheet, 41), GFP_KEY_RANGE);
    same("write_sheet", gfp_write_sheet(REDUCIBLE, 16, AB, 2, 8, sheet, 41), GFP_KEY_REDUCIBLE);
    same("write_sheet", gfp_write_sheet(KEY, 16, too_long, TOO_LONG, 8, sheet, 41), GFP_TOO_LONG);
    same("write_sheet", gfp_write_sheet(KEY, 15, AB, 2, 8, sheet, 41), GFP_PAGE_SIZE);
    same("write_sheet", gfp_write_sheet(KEY, 16, AB, 2, 8, sheet, 39), GFP_BUFFER_SHORT);
    same("write_sheet", gfp_write_sheet(KEY, 16, AB, 2, 0, sheet, 39), GFP_BUFFER_SHORT);
    same("write_sheet", gfp_write_sheet(KEY, 16, AB, 2, 0, sheet, 41), GFP_FINAL_BYTE);
    same("write_sheet", gfp_write_sheet(KEY, 16, AB, 2, 9, sheet, 41), GFP_FINAL_BYTE);
    same("write_sheet", gfp_write_sheet(KEY, 16, AB, 2, 6, sheet, 41), GFP_FINAL_BYTE);
    same("write_sheet", gfp_write_sheet(KEY, 16, AB, 0, 7, sheet, 41), GFP_FINAL_BYTE);
    same("write_sheet", sheet[0] == 9 && sheet[39] == 9, 1);
    same("write_sheet", gfp_write_sheet(KEY, 16, AB, 2, 8, sheet, 41), GFP_OK);
    same("write_sheet", memcmp(sheet, expected, 40) == 0 && sheet[40] == 9, 1);
    same("GFP_SHEET_VERSION", (unsigned)sheet[3] << 8 | sheet[4], GFP_SHEET_VERSION);
    same("write_sheet", gfp_write_sheet(KEY_64, 16, AB, 2, 8, sheet, 41), GFP_OK);
    same("write_sheet", memcmp(sheet, expected_64, 40) == 0 && sheet[40] == 9, 1);
    same("read_sheet", read_all(sheet, 40), GFP_OK);
    same("read_sheet", one_page_read(4, KEY_64, 16, 0x14142), 1);
    same("write_sheet", gfp_write_sheet(KEY, 16, UNFINISHED, 2, 3, sheet, 41), GFP_OK);
    same("write_sheet", sheet[21] == 11 && sheet[31] == 0xe4 && sheet[39] == 0xe4 && sheet[40] == 9, 1);
}

static void reading_sheets(void) {
    static const uint8_t DEGREES[4] = {0, 7, 65, 255};
    uint8_t sheet[41];
    uint64_t fingerprints[2] = {7, 7};
    int i;
    memset(sheet, 9, sizeof sheet);
    same("write_sheet", gfp_write_sheet(KEY, 16, AB, 2, 8, sheet, 41), GFP_OK);
    same("read_sheet", read_all(sheet, 41), GFP_SHEET_MALFORMED);
    same("read_sheet", nothing_read(), 1);
    same("read_sheet", read_all(sheet, 40), GFP_OK);
    same("read_sheet", one_page_read(4, KEY, 16, 0x9d), 1);
    same("read_pages", gfp_read_pages(sheet, 41, fingerprints, 2), GFP_SHEET_MALFORMED);
    same("read_pages", fingerprints[0], 7);
    same("read_pages", gfp_read_pages(sheet, 40, fingerprints, 2), GFP_OK);
    same("read_pages", fingerprints[0] == 0x9d && fingerprints[1] == 7, 1);
    sheet[23] = 15;
    same("read_sheet", read_all(sheet, 40), GFP_PAGE_SIZE);
    /* the degree, the word's bit at t^8, and the word of a reducible key */
    for (i = 0; i < 4; i++) {
        sheet[5] = DEGREES[i];
        same("read_sheet", read_all(sheet, 40), GFP_KEY_RANGE);
        same("read_sheet", read_all(sheet, 32), GFP_KEY_RANGE);
        same("read_sheet", read_all(sheet, 31), GFP_SHEET_MALFORMED);
        same("read_sheet", read_all(sheet, 27), GFP_SHEET_MALFORMED);
    }
    sheet[5] = 8, sheet[12] = 1;
    same("read_sheet", read_all(sheet, 40), GFP_KEY_RANGE);
    sheet[12] = 0, sheet[13] = 1;
    same("read_sheet", read_all(sheet, 40), GFP_KEY_REDUCIBLE);
    /* the length field past the limit, by one and by far, whatever the key */
    sheet[17] = 7, sheet[18] = sheet[19] = sheet[20] = 0xff, sheet[21] = 0xf8;
    same("read_sheet", read_all(sheet, 40), GFP_KEY_REDUCIBLE);
    sheet[21] = 0xf9;
    same("read_sheet", read_all(sheet, 40), GFP_SHEET_MALFORMED);
    memset(sheet + 14, 0xff, 8);
    same("read_sheet", read_all(sheet, 40), GFP_SHEET_MALFORMED);
    same("read_sheet", nothing_read(), 1);
}

static void checking_files(void) {
    uint8_t sheet[40];
    uint32_t outcome = NONE32, page = NONE32;
    same("write_sheet", gfp_write_sheet(KEY, 16, AB, 2, 8, sheet, 40), GFP_OK);
    same("check_file", gfp_check_file(sheet, 40, too_long, TOO_LONG, 8, &outcome, &page), GFP_TOO_LONG);
    same("check_file", gfp_check_file(sheet, 40, too_long, TOO_LONG, 0, &outcome, &page), GFP_TOO_LONG);
    same("check_file", gfp_check_file(sheet, 39, AB, 2, 8, &outcome, &page), GFP_SHEET_MALFORMED);
    same("check_file", gfp_check_file(sheet, 40, AB, 2, 0, &outcome, &page), GFP_FINAL_BYTE);
    same("check_file", gfp_check_file(sheet, 40, AB, 1, 9, &outcome, &page), GFP_FINAL_BYTE);
    same("check_file", gfp_check_file(sheet, 40, AB, 2, 6, &outcome, &page), GFP_FINAL_BYTE);
    same("check_file", outcome == NONE32 && page == NONE32, 1);
    same("check_file", gfp_check_file(sheet, 40, AB, 1, 8, &outcome, &page), GFP_OK);
    same("check_file", outcome == GFP_OTHER_LENGTH && page == 0, 1);
    page = outcome = NONE32;
    same("check_file", gfp_check_file(sheet, 40, AB, 2, 7, &outcome, &page), GFP_OK);
    same("check_file", outcome == GFP_OTHER_LENGTH && page == 0, 1);
    page = NONE32;
    same("check_file", gfp_check_file(sheet, 40, AB, 2, 8, &outcome, &page), GFP_OK);
    same("check_file", outcome == GFP_SAME && page == 0, 1);
    page = NONE32;
    same("check_file", gfp_check_file(sheet, 40, CD, 2, 8, &outcome, &page), GFP_OK);
    same("check_file", outcome == GFP_PAGE && page == 0, 1);
    same("write_sheet", gfp_write_sheet(KEY, 16, UNFINISHED, 2, 3, sheet, 40), GFP_OK);
    same("check_file", gfp_check_file(sheet, 40, UNFINISHED, 2, 3, &outcome, &page), GFP_OK);
    same("check_file", outcome == GFP_SAME && page == 0, 1);
    same("check_file", gfp_check_file(sheet, 40, OTHER, 2, 3, &outcome, &page), GFP_OK);
    same("check_file", outcome == GFP_PAGE && page == 0, 1);
    same("check_file", gfp_check_file(sheet, 40, UNFINISHED, 2, 4, &outcome, &page), GFP_OK);
    same("check_file", outcome == GFP_OTHER_LENGTH && page == 0, 1);
}

/* the sheet of 41 42 in a version whose key is a number: in version 1 its page is filled up with zero bytes; in
 * versions 1 and 2 its length is in bytes, in version 3 in bits */
static void sheets_of_version(uint8_t number, uint8_t page_field) {
    static const uint8_t IN_BYTES[14] = {0, 0, 0, 0, 0, 0, 1, 0x1b, 0, 0, 0, 2, 0, 16};
    static const uint8_t IN_BITS[18] = {0, 0, 0, 0, 0, 0, 1, 0x1b, 0, 0, 0, 0, 0, 0, 0, 16, 0, 16};
    const size_t head = number < 3 ? 19 : 23, total = head + 16;
    uint8_t sheet[39] = {'G', 'F', 'P'};
    uint64_t fingerprints[2] = {7, 7}, from = NONE, to = NONE;
    uint32_t outcome = NONE32, page = NONE32;
    memcpy(sheet + 5, number < 3 ? IN_BYTES : IN_BITS, head - 5);
    sheet[4] = number, sheet[head + 7] = page_field, sheet[head + 15] = 0x9d;
    same("read_sheet", read_all(sheet, total), GFP_OK);
    same("read_sheet", one_page_read(number, KEY, 16, 0x9d), 1);
    same("read_pages", gfp_read_pages(sheet, total, fingerprints, 2), GFP_OK);
    same("read_pages", fingerprints[0] == page_field && fingerprints[1] == 7, 1);
    same("check_file", gfp_check_file(sheet, total, AB, 2, 8, &outcome, &page), GFP_OK);
    same("check_file", outcome == GFP_SAME && page == 0, 1);
    same("check_file", gfp_check_file(sheet, total, UNFINISHED, 2, 3, &outcome, &page), GFP_OK);
    same("check_file", outcome == GFP_OTHER_LENGTH && page == 0, 1);
    same("changed_range", gfp_changed_range(sheet, total, CD, 2, 8, &outcome, &from, &to), GFP_OK);
    same("changed_range", outcome == GFP_PAGE && from == 0 && to == 2, 1);
    /* the key, a number below 256 and a reducible one */
    sheet[11] = 0;
    same("read_sheet", read_all(sheet, total), GFP_KEY_RANGE);
    sheet[11] = 1, sheet[12] = 1;
    same("read_sheet", read_all(sheet, total), GFP_KEY_REDUCIBLE);
    sheet[12] = 0x1b;
    if (number < 3) {
        sheet[4] = (uint8_t)(3 - number);
        same("read_sheet", read_all(sheet, total), GFP_SHEET_MALFORMED);
        sheet[4] = 3;
        same("read_sheet", read_all(sheet, total), GFP_PAGE_SIZE);
    }
    /* in version 4 the first byte of the number is the degree; other versions there are none */
    sheet[4] = 4;
    same("read_sheet", read_all(sheet, total), number < 3 ? GFP_SHEET_MALFORMED : GFP_KEY_RANGE);
    sheet[4] = 5;
    same("read_sheet", read_all(sheet, total), GFP_SHEET_MALFORMED);
    sheet[3] = 1, sheet[4] = number;
    same("check_file", gfp_check_file(sheet, total, AB, 2, 8, &outcome, &page), GFP_SHEET_MALFORMED);
}

static void sheet_lengths(void) {
    uint64_t bytes = NONE;
    same("sheet_length", gfp_sheet_length(LONGEST_BYTES + 1, 16, &bytes), GFP_TOO_LONG);
    same("sheet_length", gfp_sheet_length(UINT64_C(1) << 61, 16, &bytes), GFP_TOO_LONG);
    same("sheet_length", gfp_sheet_length(40, 4097, &bytes), GFP_PAGE_SIZE);
    same("sheet_length", bytes, NONE);
    same("sheet_length", gfp_sheet_length(40, 16, &bytes), GFP_OK);
    same("sheet_length", bytes, 56);
    same("sheet_length", gfp_sheet_length(0, 16, &bytes), GFP_OK);
    same("sheet_length", bytes, GFP_SHEET_BYTES);
    same("sheet_length", gfp_sheet_length(LONGEST_BYTES, 4096, &bytes), GFP_OK);
    same("sheet_length", bytes, GFP_SHEET_BYTES + 8 * UINT64_C(1048576));
}

/* a file of 40 bytes, with all bits of the final byte or with 1 */
static void ranges(uint32_t used) {
    static uint8_t file[40], sheet[56];
    uint64_t from = NONE, to = NONE;
    uint32_t outcome = NONE32;
    memset(file, 0, sizeof file);
    same("write_sheet", gfp_write_sheet(HOUSE, 16, file, 40, used, sheet, 56), GFP_OK);
    same("changed_range", gfp_changed_range(sheet, 55, file, 40, used, &outcome, &from, &to), GFP_SHEET_MALFORMED);
    same("changed_range", gfp_changed_range(sheet, 56, too_long, TOO_LONG, used, &outcome, &from, &to), GFP_TOO_LONG);
    same("changed_range", gfp_changed_range(sheet, 56, file, 40, 0, &outcome, &from, &to), GFP_FINAL_BYTE);
    same("changed_range", gfp_changed_range(sheet, 56, file, 0, 7, &outcome, &from, &to), GFP_FINAL_BYTE);
    same("changed_range", outcome == NONE32 && from == NONE && to == NONE, 1);
    same("changed_range", gfp_changed_range(sheet, 56, file, 40, used, &outcome, &from, &to), GFP_OK);
    same("changed_range", outcome == GFP_SAME && from == 0 && to == 0, 1);
    file[39] = 0x80;
    same("changed_range", gfp_changed_range(sheet, 56, file, 40, used, &outcome, &from, &to), GFP_OK);
    same("changed_range", outcome == GFP_PAGE && from == 32 && to == 40, 1);
    file[16] = 1;
    same("changed_range", gfp_changed_range(sheet, 56, file, 40, used, &outcome, &from, &to), GFP_OK);
    same("changed_range", outcome == GFP_PAGE && from == 16 && to == 32, 1);
    same("changed_range", gfp_changed_range(sheet, 56, file, 39, used, &outcome, &from, &to), GFP_OK);
    same("changed_range", outcome == GFP_OTHER_LENGTH && from == 0 && to == 0, 1);
    outcome = NONE32;
    same("changed_range", gfp_changed_range(sheet, 56, file, 40, used == 8 ? 7 : 8, &outcome, &from, &to), GFP_OK);
    same("changed_range", outcome == GFP_OTHER_LENGTH && from == 0 && to == 0, 1);
}

/* ---- Keyholder */

static void drawing(void) {
    uint64_t word = NONE;
    same("draw", gfp_draw(12, 2, &word), GFP_DEGREE_NOT_LISTED);
    same("draw", gfp_draw(64, 2, &word), GFP_DEGREE_NOT_LISTED);
    same("draw", gfp_draw((UINT32_C(1) << 31) + 11, 2, &word), GFP_DEGREE_NOT_LISTED);
    same("draw", gfp_draw(11, 1, &word), GFP_ELEMENT_OUT_OF_RANGE);
    same("draw", gfp_draw(11, 2048, &word), GFP_ELEMENT_OUT_OF_RANGE);
    same("draw", word, NONE);
    same("draw", gfp_draw(11, 3, &word), GFP_OK);
    same("draw", word, 0x70b);
    same("draw", gfp_test_key(11, word), GFP_OK);
}

/* ---- buffers of length 0 at NULL: every function that takes a buffer takes them, and none is read or written. A read
 * or a write would end the program */

static const struct key EMPTY_KEYS[4] = {{KEY}, {HOUSE}, {31, 9}, {KEY_64}};
static const char *const EMPTY_WAYS[3] = {"NULL, feed", "NULL, feed_table", "NULL, feed_house"};

static void empty_parts_and_tables(void) {
    uint64_t f = 5, n = 48;
    int way, i;
    for (i = 0; i < 4; i++) {
        const uint32_t k = EMPTY_KEYS[i].degree;
        const uint64_t word = EMPTY_KEYS[i].word;
        same("make_table", gfp_make_table(k, word, words, GFP_TABLE_WORDS), GFP_OK);
        for (way = 0; way < 3; way++) {
            const int mine = way != 2 || k == GFP_HOUSE_DEGREE;
            marked(EMPTY_WAYS[way], fed(way, k, word, &f, &n, NULL, 0, 8), mine ? GFP_OK : GFP_TABLE_WORD, &f, &n, 5,
                   48);
            marked(EMPTY_WAYS[way], fed(way, k, word, &f, &n, NULL, 0, 3), mine ? GFP_FINAL_BYTE : GFP_TABLE_WORD, &f,
                   &n, 5, 48);
        }
        marked("NULL, replace_page", gfp_replace_page(k, word, &f, &n, 6, NULL, 0, 8, NULL, 0, 8), GFP_OK, &f, &n, 5,
               48);
        marked("NULL, replace_page", gfp_replace_page(k, word, &f, &n, 6, NULL, 0, 8, NULL, 0, 7), GFP_FINAL_BYTE, &f,
               &n, 5, 48);
        marked("NULL, replace_page", gfp_replace_page(k, word, &f, &n, 0, NULL, 0, 8, AB, 2, 8),
               GFP_PAGE_LENGTHS_DIFFER, &f, &n, 5, 48);
        marked("NULL, replace_page", gfp_replace_page(k, word, &f, &n, 0, AB, 2, 8, NULL, 0, 8),
               GFP_PAGE_LENGTHS_DIFFER, &f, &n, 5, 48);
        same("NULL, make_table", gfp_make_table(k, word, NULL, 0), GFP_TABLE_SIZE);
        same("NULL, test_table", gfp_test_table(k, word, NULL, 0), GFP_TABLE_SIZE);
        marked("NULL, feed_table", gfp_feed_table(k, word, &f, &n, NULL, 0, AB, 2, 8), GFP_TABLE_SIZE, &f, &n, 5, 48);
        marked("NULL, feed_table", gfp_feed_table(k, word, &f, &n, NULL, 0, NULL, 0, 8), GFP_TABLE_SIZE, &f, &n, 5, 48);
    }
    same("make_table", gfp_make_table(KEY, words, GFP_TABLE_WORDS), GFP_OK);
}

static void empty_texts(void) {
    static const uint8_t text[3] = {'a', 'a', 'a'};
    uint32_t places[1], count, alarms;
    int i;
    for (i = 0; i < 4; i++) {
        const uint32_t k = EMPTY_KEYS[i].degree;
        const uint64_t word = EMPTY_KEYS[i].word;
        places[0] = 7, count = alarms = NONE32;
        same("NULL, search", gfp_search(k, word, text, 3, NULL, 0, places, 1, &count, &alarms), GFP_EMPTY_PATTERN);
        same("NULL, search", gfp_search(k, word, NULL, 0, NULL, 0, NULL, 0, &count, &alarms), GFP_EMPTY_PATTERN);
        same("NULL, search", count == NONE32 && alarms == NONE32, 1);
        same("NULL, search", gfp_search(k, word, NULL, 0, text, 2, places, 1, &count, &alarms), GFP_OK);
        same("NULL, search", count == 0 && alarms == 0 && places[0] == 7, 1);
        count = alarms = NONE32;
        same("NULL, search", gfp_search(k, word, NULL, 0, text, 2, NULL, 0, &count, &alarms), GFP_OK);
        same("NULL, search", count == 0 && alarms == 0, 1);
        same("NULL, search", gfp_search(k, word, text, 3, text, 2, NULL, 0, &count, &alarms), GFP_OK);
        same("NULL, search", count == 2 && alarms == 0, 1);
    }
}

/* a sheet of a file without bytes, or of 41 42, checked with no file and read into no words */
static void empty_checked(const uint8_t *sheet, size_t sheet_length, uint32_t expected) {
    uint64_t from = NONE, to = NONE;
    uint32_t outcome = NONE32, page = NONE32;
    same("NULL, read_pages", gfp_read_pages(sheet, sheet_length, NULL, 0), GFP_OK);
    same("NULL, check_file", gfp_check_file(sheet, sheet_length, NULL, 0, 8, &outcome, &page), GFP_OK);
    same("NULL, check_file", outcome == expected && page == 0, 1);
    outcome = NONE32;
    same("NULL, changed_range", gfp_changed_range(sheet, sheet_length, NULL, 0, 8, &outcome, &from, &to), GFP_OK);
    same("NULL, changed_range", outcome == expected && from == 0 && to == 0, 1);
    same("NULL, check_file", gfp_check_file(sheet, sheet_length, NULL, 0, 7, &outcome, &page), GFP_FINAL_BYTE);
    same("NULL, changed_range", gfp_changed_range(sheet, sheet_length, NULL, 0, 7, &outcome, &from, &to),
         GFP_FINAL_BYTE);
}

static void empty_sheets(void) {
    /* of a file without bytes in version 1; version 2 has the same fields, version 3 four bytes of length more */
    static const uint8_t OLD[31] = {'G', 'F', 'P', 0, 1, 0, 0, 0, 0, 0, 0, 1, 0x1b, 0, 0, 0, 0, 0, 16, 0, 0, 0, 0, 0, 0,
                                    0, 1};
    uint8_t sheet[40], other[GFP_SHEET_BYTES];
    uint64_t from = NONE, to = NONE;
    uint32_t outcome = NONE32, page = NONE32;
    int i;
    for (i = 0; i < 4; i++) {
        const uint32_t k = EMPTY_KEYS[i].degree;
        const uint64_t word = EMPTY_KEYS[i].word;
        same("NULL, write_sheet", gfp_write_sheet(k, word, 16, NULL, 0, 8, NULL, 0), GFP_BUFFER_SHORT);
        same("NULL, write_sheet", gfp_write_sheet(k, word, 16, AB, 2, 8, NULL, 0), GFP_BUFFER_SHORT);
        same("NULL, write_sheet", gfp_write_sheet(k, word, 16, NULL, 0, 7, sheet, GFP_SHEET_BYTES), GFP_FINAL_BYTE);
        same("NULL, write_sheet", gfp_write_sheet(k, word, 16, NULL, 0, 8, sheet, GFP_SHEET_BYTES), GFP_OK);
        same("write_sheet", gfp_write_sheet(k, word, 16, AB, 0, 8, other, GFP_SHEET_BYTES), GFP_OK);
        same("NULL, write_sheet", memcmp(sheet, other, GFP_SHEET_BYTES) == 0, 1);
        empty_checked(sheet, GFP_SHEET_BYTES, GFP_SAME);
        same("write_sheet", gfp_write_sheet(k, word, 16, AB, 2, 8, sheet, 40), GFP_OK);
        empty_checked(sheet, 40, GFP_OTHER_LENGTH);
    }
    memcpy(sheet, OLD, 27);
    empty_checked(sheet, 27, GFP_SAME);
    sheet[4] = 2;
    empty_checked(sheet, 27, GFP_SAME);
    memset(sheet + 13, 0, 18);
    sheet[4] = 3, sheet[22] = 16, sheet[30] = 1;
    empty_checked(sheet, 31, GFP_SAME);
    same("NULL, read_sheet", read_all(NULL, 0), GFP_SHEET_MALFORMED);
    same("NULL, read_sheet", nothing_read(), 1);
    same("NULL, read_pages", gfp_read_pages(NULL, 0, NULL, 0), GFP_SHEET_MALFORMED);
    same("NULL, read_pages", gfp_read_pages(NULL, 0, &from, 1), GFP_SHEET_MALFORMED);
    same("NULL, check_file", gfp_check_file(NULL, 0, AB, 2, 8, &outcome, &page), GFP_SHEET_MALFORMED);
    same("NULL, check_file", gfp_check_file(NULL, 0, NULL, 0, 8, &outcome, &page), GFP_SHEET_MALFORMED);
    same("NULL, changed_range", gfp_changed_range(NULL, 0, AB, 2, 8, &outcome, &from, &to), GFP_SHEET_MALFORMED);
    same("NULL, changed_range", gfp_changed_range(NULL, 0, NULL, 0, 8, &outcome, &from, &to), GFP_SHEET_MALFORMED);
    same("NULL, sheets", outcome == NONE32 && page == NONE32 && from == NONE && to == NONE, 1);
}

/* ---- refusals with everything lent on a page that cannot be written to: a write would end the program */

static void read_only(void) {
    uint64_t *u = (uint64_t *)area(65536);
    uint32_t *v = (uint32_t *)(u + 4096);
    uint8_t *b = (uint8_t *)(u + 6144), written[GFP_SHEET_BYTES];
    int way, i;
    u[0] = 0x100, u[1] = 2, u[5] = LONGEST + 1;
    if (mprotect(u, 65536, PROT_READ) != 0) {
        perror("mprotect");
        exit(2);
    }
    for (i = 0; i < 3; i++) {
        static const struct key TRIED[3] = {{SMALL}, {REDUCIBLE}, {KEY}};
        static const uint32_t NUMBERS[3] = {GFP_KEY_RANGE, GFP_KEY_REDUCIBLE, GFP_MARK_NOT_REDUCED};
        const uint32_t k = TRIED[i].degree;
        const uint64_t word = TRIED[i].word;
        for (way = 0; way < 2; way++)
            same("read-only, feeding", fed(way, k, word, u, u + 1, AB, 2, 8), NUMBERS[i]);
        same("read-only, feed_house", gfp_feed_house(k, word, u, u + 1, AB, 2, 8),
             i == 2 ? GFP_TABLE_WORD : NUMBERS[i]);
        same("read-only, join_behind", gfp_join_behind(k, word, u, u + 1, 1, 1), NUMBERS[i]);
        same("read-only, join_in_front", gfp_join_in_front(k, word, u, u + 1, 1, 1), NUMBERS[i]);
        same("read-only, turn", gfp_turn(k, word, u, u + 1), NUMBERS[i]);
        same("read-only, join_plain_behind", gfp_join_plain_behind(k, word, u, u + 1, 1, 1), NUMBERS[i]);
        same("read-only, join_plain_in_front", gfp_join_plain_in_front(k, word, u, u + 1, 1, 1), NUMBERS[i]);
        same("read-only, replace_page", gfp_replace_page(k, word, u, u + 1, 0, AB, 2, 8, CD, 2, 8), NUMBERS[i]);
        same("read-only, make_table", gfp_make_table(k, word, u, i == 2 ? 1023 : 1024),
             i == 2 ? GFP_TABLE_SIZE : NUMBERS[i]);
        same("read-only, search", gfp_search(k, word, AB, 2, AB, i == 2 ? 0 : 1, v, 2, v + 2, v + 3),
             i == 2 ? GFP_EMPTY_PATTERN : NUMBERS[i]);
        same("read-only, write_sheet", gfp_write_sheet(k, word, 16, AB, 2, 8, b, 39),
             i == 2 ? GFP_BUFFER_SHORT : NUMBERS[i]);
    }
    same("read-only, begin", gfp_begin(SMALL, u, u + 1), GFP_KEY_RANGE);
    same("read-only, begin_plain", gfp_begin_plain(SMALL, u, u + 1), GFP_KEY_RANGE);
    same("read-only, begin_plain", gfp_begin_plain(REDUCIBLE, u, u + 1), GFP_KEY_REDUCIBLE);
    same("read-only, feed", gfp_feed(KEY, u, u + 1, too_long, TOO_LONG, 8), GFP_TOO_LONG);
    same("read-only, join_behind", gfp_join_behind(KEY, u, u + 1, 1, LONGEST), GFP_TOO_LONG);
    same("read-only, join_plain_behind", gfp_join_plain_behind(KEY, u, u + 1, 1, LONGEST), GFP_TOO_LONG);
    same("read-only, join_plain_in_front", gfp_join_plain_in_front(KEY, u, u + 1, 1, LONGEST), GFP_TOO_LONG);
    same("read-only, turn", gfp_turn(KEY, u, u + 5), GFP_TOO_LONG);
    same("read-only, replace_page", gfp_replace_page(KEY, u + 2, u + 1, 0, AB, 2, 8, CD, 1, 8),
         GFP_PAGE_LENGTHS_DIFFER);
    same("read-only, replace_page", gfp_replace_page(KEY, u + 2, u + 1, 0, AB, 0, 7, CD, 0, 7), GFP_FINAL_BYTE);
    same("read-only, feed", gfp_feed(KEY, u + 2, u + 1, AB, 2, 0), GFP_FINAL_BYTE);
    same("read-only, feed_table", gfp_feed_table(KEY, u + 2, u + 1, words, GFP_TABLE_WORDS, AB, 2, 6), GFP_FINAL_BYTE);
    same("read-only, feed_house", gfp_feed_house(HOUSE, u + 2, u + 1, AB, 0, 7), GFP_FINAL_BYTE);
    same("read-only, write_sheet", gfp_write_sheet(KEY, 16, AB, 2, 9, b, 40), GFP_FINAL_BYTE);
    same("read-only, read_sheet", gfp_read_sheet(AB, 2, v, v + 1, u, u + 1, u + 2, u + 3, u + 4), GFP_SHEET_MALFORMED);
    same("read-only, read_pages", gfp_read_pages(AB, 2, u, 2), GFP_SHEET_MALFORMED);
    same("read-only, check_file", gfp_check_file(AB, 2, AB, 2, 8, v, v + 1), GFP_SHEET_MALFORMED);
    same("read-only, changed_range", gfp_changed_range(AB, 2, AB, 2, 8, v, u, u + 1), GFP_SHEET_MALFORMED);
    same("write_sheet", gfp_write_sheet(KEY, 16, AB, 0, 8, written, GFP_SHEET_BYTES), GFP_OK);
    same("read-only, check_file", gfp_check_file(written, GFP_SHEET_BYTES, AB, 2, 0, v, v + 1), GFP_FINAL_BYTE);
    same("read-only, changed_range", gfp_changed_range(written, GFP_SHEET_BYTES, AB, 2, 6, v, u, u + 1),
         GFP_FINAL_BYTE);
    same("read-only, sheet_length", gfp_sheet_length(2, 15, u), GFP_PAGE_SIZE);
    same("read-only, sheet_length", gfp_sheet_length(LONGEST_BYTES + 1, 16, u), GFP_TOO_LONG);
    same("read-only, draw", gfp_draw(12, 2, u), GFP_DEGREE_NOT_LISTED);
    same("read-only, draw", gfp_draw(11, 1, u), GFP_ELEMENT_OUT_OF_RANGE);
    munmap(u, 65536);
}

/* ---- the stack: each function runs on a stack of its own that was filled with a pattern */

#define STACK ((size_t)1 << 20)
#define FILE_BYTES 70000

static uint8_t file[FILE_BYTES], sheet[GFP_SHEET_BYTES + 8 * FILE_BYTES / 16];
static uint64_t page_marks[FILE_BYTES / 16];
static uint32_t found[64];
#define KEYS 5
static const struct key STACK_KEYS[KEYS] = {{KEY}, {HOUSE}, {31, 9}, {63, 3}, {KEY_64}};

/* keys of degree 8, 61, 31, 63 and 64; short and long parts; every function with all of them */
static uint64_t f, n, w[5];
static uint32_t c[2], used_now;
static size_t sheet_now, page_now; /* the bytes of the sheet and of a page */
static uint8_t lent[sizeof sheet];

static void run_test_key(struct key x, size_t m) {
    (void)m, gfp_test_key(x.degree, x.word ^ 2), gfp_test_key(x.degree, x.word);
}
static void run_stock_key(struct key x, size_t m) { (void)m, gfp_stock_key(x.degree); }
static void run_begin(struct key x, size_t m) { (void)m, gfp_begin(x.degree, x.word, &f, &n); }
static void run_begin_plain(struct key x, size_t m) { (void)m, gfp_begin_plain(x.degree, x.word, &f, &n); }
static void run_feed(struct key x, size_t m) { f = 1, n = 0, gfp_feed(x.degree, x.word, &f, &n, file, m, used_now); }
static void run_make_table(struct key x, size_t m) {
    (void)m, gfp_make_table(x.degree, x.word, words, GFP_TABLE_WORDS);
}
static void run_test_table(struct key x, size_t m) {
    (void)m, gfp_test_table(x.degree, x.word, words, GFP_TABLE_WORDS);
}
static void run_feed_table(struct key x, size_t m) {
    f = 1, n = 0, gfp_feed_table(x.degree, x.word, &f, &n, words, GFP_TABLE_WORDS, file, m, used_now);
}
static void run_feed_house(struct key x, size_t m) {
    f = 1, n = 0, gfp_feed_house(x.degree, x.word, &f, &n, file, m, used_now);
}
static void run_turn(struct key x, size_t m) {
    f = 1, n = m, gfp_turn(x.degree, x.word, &f, &n);
    f = 1, n = LONGEST - m, gfp_turn(x.degree, x.word, &f, &n);
}
static void run_join_behind(struct key x, size_t m) { f = 1, n = 0, gfp_join_behind(x.degree, x.word, &f, &n, 1, m); }
static void run_join_in_front(struct key x, size_t m) {
    f = 1, n = 0, gfp_join_in_front(x.degree, x.word, &f, &n, 1, m);
}
static void run_join_plain_behind(struct key x, size_t m) {
    f = 1, n = 0, gfp_join_plain_behind(x.degree, x.word, &f, &n, 1, m);
}
static void run_join_plain_in_front(struct key x, size_t m) {
    f = 1, n = 0, gfp_join_plain_in_front(x.degree, x.word, &f, &n, 1, m);
}
static void run_replace_page(struct key x, size_t m) {
    f = 1, n = 8 * FILE_BYTES;
    gfp_replace_page(x.degree, x.word, &f, &n, 0, file, m, used_now, file, m, used_now);
}
static void run_search(struct key x, size_t m) {
    gfp_search(x.degree, x.word, file, m, file, m / 100 + 1, found, 64, c, c + 1);
}
static void run_write_sheet(struct key x, size_t m) {
    gfp_write_sheet(x.degree, x.word, page_now - m % 16, file, m, used_now, lent, sizeof lent);
}
static void run_read_sheet(struct key x, size_t m) {
    (void)x, (void)m, gfp_read_sheet(sheet, sheet_now, c, c + 1, w, w + 1, w + 2, w + 3, w + 4);
}
static void run_read_pages(struct key x, size_t m) {
    (void)x, (void)m, gfp_read_pages(sheet, sheet_now, page_marks, FILE_BYTES / 16);
}
static void run_check_file(struct key x, size_t m) {
    (void)x, gfp_check_file(sheet, sheet_now, file, m, used_now, c, c + 1);
}
static void run_changed_range(struct key x, size_t m) {
    (void)x, gfp_changed_range(sheet, sheet_now, file, m, used_now, c, w, w + 1);
}
static void run_sheet_length(struct key x, size_t m) { (void)x, gfp_sheet_length(m, 16, w); }
static void run_draw(struct key x, size_t m) { gfp_draw(61, x.word << 32 ^ m, w), gfp_draw(11, 3, w); }

static const struct {
    const char *name;
    void (*run)(struct key x, size_t m);
} RUNS[] = {
    {"gfp_test_key", run_test_key},
    {"gfp_stock_key", run_stock_key},
    {"gfp_begin", run_begin},
    {"gfp_begin_plain", run_begin_plain},
    {"gfp_feed", run_feed},
    {"gfp_make_table", run_make_table},
    {"gfp_test_table", run_test_table},
    {"gfp_feed_table", run_feed_table},
    {"gfp_feed_house", run_feed_house},
    {"gfp_turn", run_turn},
    {"gfp_join_behind", run_join_behind},
    {"gfp_join_in_front", run_join_in_front},
    {"gfp_join_plain_behind", run_join_plain_behind},
    {"gfp_join_plain_in_front", run_join_plain_in_front},
    {"gfp_replace_page", run_replace_page},
    {"gfp_search", run_search},
    {"gfp_write_sheet", run_write_sheet},
    {"gfp_read_sheet", run_read_sheet},
    {"gfp_read_pages", run_read_pages},
    {"gfp_check_file", run_check_file},
    {"gfp_changed_range", run_changed_range},
    {"gfp_sheet_length", run_sheet_length},
    {"gfp_draw", run_draw},
};

static size_t now_running;
static struct key now_key;
static size_t now_m;
static uint8_t *top;

/* the address of a local is the top of what the call takes */
static void *on_own_stack(void *unused) {
    uint8_t here;
    top = &here;
    RUNS[now_running].run(now_key, now_m);
    return unused;
}

static size_t taken(uint8_t *stack) {
    pthread_t thread;
    pthread_attr_t attributes;
    size_t i = 0;
    memset(stack, 0xa5, STACK);
    pthread_attr_init(&attributes);
    if (pthread_attr_setstack(&attributes, stack, STACK) != 0
        || pthread_create(&thread, &attributes, on_own_stack, NULL) != 0) {
        fprintf(stderr, "no thread\n");
        exit(2);
    }
    pthread_join(thread, NULL);
    pthread_attr_destroy(&attributes);
    while (stack[i] == 0xa5)
        i++;
    return (size_t)(top - (stack + i));
}

/* Turns the sheet into one of version 3: its key field has 8 bytes and is a number. */
static void to_version_3(struct key x) {
    uint64_t number = UINT64_C(1) << x.degree | x.word;
    int i;
    memmove(sheet + 13, sheet + 14, sizeof sheet - 14);
    sheet[4] = 3, sheet_now -= 1;
    for (i = 12; i >= 5; i--, number >>= 8)
        sheet[i] = (uint8_t)number;
}

/* Turns the sheet of m bytes into one of version 2: its length field has 4 bytes and is in bytes. */
static void to_version_2(size_t m) {
    uint8_t *field = sheet + 13;
    memmove(sheet + 17, sheet + 21, sizeof sheet - 21);
    sheet[4] = 2, sheet_now -= 4;
    field[0] = (uint8_t)(m >> 24), field[1] = (uint8_t)(m >> 16), field[2] = (uint8_t)(m >> 8), field[3] = (uint8_t)m;
}

/* Turns a sheet of version 2 with pages of 32 bytes into one of version 1: zero bytes are fed behind a short last
 * page. */
static void to_version_1(struct key x, size_t m) {
    static const uint8_t zeros[32] = {0};
    uint8_t *field = sheet + 19 + 8 * (m / 32);
    uint64_t fingerprint = 0, bits = 0;
    int i;
    sheet[4] = 1;
    if (m % 32 == 0)
        return;
    for (i = 0; i < 8; i++)
        fingerprint = fingerprint << 8 | field[i];
    gfp_feed(x.degree, x.word, &fingerprint, &bits, zeros, 32 - m % 32, 8);
    for (i = 7; i >= 0; i--, fingerprint >>= 8)
        field[i] = (uint8_t)fingerprint;
}

/* the sheet that the functions are measured with, of a version */
static void make_sheet(struct key x, size_t m, int number) {
    uint32_t outcome = NONE32, page;
    gfp_write_sheet(x.degree, x.word, page_now, file, m, used_now, sheet, sizeof sheet);
    sheet_now = GFP_SHEET_BYTES + 8 * ((m + page_now - 1) / page_now);
    if (number < 4)
        to_version_3(x);
    if (number < 3)
        to_version_2(m);
    if (number < 2)
        to_version_1(x, m);
    if (gfp_check_file(sheet, sheet_now, file, m, used_now, &outcome, &page) != GFP_OK || outcome != GFP_SAME) {
        fprintf(stderr, "no sheet of version %d\n", number);
        exit(2);
    }
}

/* a version of the sheet, the used bits of the final byte, and the bytes of a page: under the house key long ones are
 * folded */
#define CASES 8
static const struct {
    int number;
    uint32_t used;
    size_t page;
} SHEETS[CASES] = {{1, 8, 32}, {2, 8, 32}, {3, 8, 32}, {3, 3, 32}, {4, 8, 32}, {4, 3, 32}, {4, 8, 4096}, {4, 3, 600}};

/* the most that a function takes under a key and with a part of m bytes; under a key of degree 64 in version 4 alone */
static size_t most_taken(uint8_t *stack, size_t running, struct key x, size_t m) {
    size_t i, bytes, most = 0;
    const uint8_t last = m == 0 ? 0 : file[m - 1];
    gfp_make_table(x.degree, x.word, words, GFP_TABLE_WORDS);
    for (i = x.degree == 64 ? 4 : 0; i < CASES; i++) {
        used_now = m == 0 ? 8 : SHEETS[i].used, page_now = SHEETS[i].page;
        if (m != 0)
            file[m - 1] = used_now == 3 ? last & 0xe0 : last;
        make_sheet(x, m, SHEETS[i].number);
        now_running = running, now_key = x, now_m = m;
        bytes = taken(stack);
        if (most < bytes)
            most = bytes;
    }
    if (m != 0)
        file[m - 1] = last;
    return most;
}

static void measure(void) {
    static const size_t SIZES[5] = {0, 9, 1000, 4999, FILE_BYTES};
    uint8_t *stack = (uint8_t *)area(STACK);
    size_t i, j, k;
    for (i = 0; i < FILE_BYTES; i++)
        file[i] = (uint8_t)(i * i >> 7);
    for (i = 0; i < sizeof RUNS / sizeof RUNS[0]; i++) {
        size_t most = 0;
        for (j = 0; j < KEYS; j++)
            for (k = 0; k < 5; k++) {
                const size_t bytes = most_taken(stack, i, STACK_KEYS[j], SIZES[k]);
                if (most < bytes)
                    most = bytes;
            }
        printf("%s %lu\n", RUNS[i].name, (unsigned long)most);
    }
}

int main(int argc, char **argv) {
    too_long = (const uint8_t *)area(TOO_LONG);
    if (argc > 1 && strcmp(argv[1], "stack") == 0) {
        measure();
        return 0;
    }
    keys();
    marks_and_tables();
    feeding();
    degree_64();
    unfinished_parts();
    beginning_plain_marks();
    feeding_plain_marks();
    turning();
    turned_between_parts();
    joining();
    joining_plain_marks();
    refused_plain_joins();
    page_change();
    unfinished_pages();
    searching();
    writing_sheets();
    reading_sheets();
    checking_files();
    sheets_of_version(1, 0xac);
    sheets_of_version(2, 0x9d);
    sheets_of_version(3, 0x9d);
    sheet_lengths();
    ranges(8);
    ranges(1);
    drawing();
    empty_parts_and_tables();
    empty_texts();
    empty_sheets();
    read_only();
    printf("%u right, %u wrong\n", right, wrong);
    return wrong != 0;
}
