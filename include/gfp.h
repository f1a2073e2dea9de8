/* Rabin fingerprints of logger files, proved.
 *
 * Every function but gfp_stock_key returns 0 (GFP_OK), or the number of the refusal: the comment on each number below
 * says what is wrong and what to mend. The lowest number that applies is given; gfp_read_sheet says its own order.
 * On a refusal nothing is written: every place and buffer lent to the call keeps what it held, and may be memory that
 * cannot be written to.
 *
 * A file with its mark gives its key away, and so does a page sheet or a table alone, and so do the mark and the plain
 * mark of one file: share/doc/gfp/SECURITY.md, which is installed with this header, says who may hold what.
 *
 * No function keeps memory, allocates, or reads or writes anything but what it is lent and its stack. Two calls may run
 * at the same time where neither writes to what the other is lent. The libraries call memcpy and memset, and nothing
 * else. Each comment below says how many bytes of stack the function takes at most, what it calls included; that is
 * measured, on x86-64.
 *
 * Places and buffers that are lent must be aligned. A buffer of length 0 may be NULL: it is neither read nor written.
 * Every other buffer, and every place, must not be NULL. What a call only reads (const) may overlap, as a pattern
 * inside its text or two pages. What a call writes to must not overlap anything else that is lent to the same call.
 *
 * A key is a polynomial over the field of two elements, of degree 8 to 64. It is two arguments in every declaration
 * that takes one: its degree, and the word of its coefficients below t^degree, bit i being that of t^i. No bit of the
 * word stands at t^degree or above. A key that is written as one number in hexadecimal splits so: the degree is the
 * place of the number's highest one bit, counted from 0, and the word is the number without that bit. 11b is degree 8
 * and word 0x1b; 1000000000000001b, whose 17 digits fit into no uint64_t, is degree 64 and has its last 16 digits as
 * the word, 0x1b.
 *
 * A mark is a fingerprint and a length in bits. Under a key of degree k fingerprints are below 2^k; at degree 64 every
 * uint64_t is one, so that GFP_MARK_NOT_REDUCED, and GFP_SHEET_MALFORMED for a fingerprint that is too large, cannot
 * apply there. Lengths are at most 34359738360 bits, which are 4294967295 bytes. There are two kinds of marks: "Plain
 * marks" below says what they are, and which functions take which.
 *
 * A part of a file, a page and a file for a sheet come as bytes and `used`: how many bits of the final byte belong to
 * it, 1 to 8, at that byte's high end. The low bits that are not used must be 0. For whole bytes, and where there are
 * no bytes, used is 8. The next part that is fed goes on at the next bit, also inside a byte. Places, page sizes and
 * the search are in bytes.
 */
#ifndef GFP_H
#define GFP_H

#include <stddef.h>
#include <stdint.h>

#ifdef __cplusplus
extern "C" {
#endif

/* The version of this interface. It counts the breaks: a program that was right with one number may be wrong with a
 * higher one, and stays right while the number stays. 2: gfp_feed_house takes the key. 3: gfp_write_sheet writes sheets
 * of version 2, which a library of a lower number refuses, and in which a last page's fingerprint is that of the bytes
 * it has. 4: the lengths of marks, and the length that gfp_read_sheet gives, are in bits; behind the length of each
 * part, page and file for a sheet stands `used`, which is 8 for whole bytes; gfp_read_sheet gives the version first;
 * gfp_write_sheet writes sheets of version 3, which are 4 bytes longer and which a library of a lower number refuses.
 * Two functions keep their declaration and change their meaning: gfp_join_behind and gfp_join_in_front take both
 * lengths in bits. A compiler does not see it: look at each of these calls, and multiply lengths in bytes by 8, also
 * those of marks kept from before. 5: a key is two arguments, degree and word, wherever it was one, and gfp_read_sheet
 * writes both; GFP_HOUSE_DEGREE and GFP_HOUSE_WORD stand for GFP_HOUSE_KEY, GFP_KEY_RANGE for GFP_KEY_BELOW_256;
 * gfp_write_sheet writes sheets of version 4, which are one byte longer and which a library of a lower number refuses.
 * gfp_stock_key and gfp_draw, to which the degree is passed, give the word, without the bit at t^degree that they gave
 * before. A compiler does not see it: look at each of these calls. Keys kept as one number from before are split as
 * said above. A new function is no break; the minor number of the pkg-config version counts these additions: 5.1 added
 * the four functions for plain marks. */
#define GFP_INTERFACE 5

/* What a function returns: not refused, or one of 15 refusals. 15 to 18 are not given. */
#define GFP_OK 0
/* The degree is not 8 to 64, or a bit of the word stands at t^degree or above. To mend: pass a key of degree 8 to 64,
 * and its word without the bit at t^degree. */
#define GFP_KEY_RANGE 1
/* The key is a product of two polynomials of lower degree: no promise says how few files it confuses. To mend: check
 * that it was copied whole; draw another, or take a stock key. */
#define GFP_KEY_REDUCIBLE 2
/* No key of this degree is drawn. To mend: pass 11, 13, 17, 19, 23, 29, 31, 37, 41, 43, 47, 53, 59 or 61. */
#define GFP_DEGREE_NOT_LISTED 3
/* The element is 0, 1, or not below 2^degree. To mend: take another random number with as many bits as the degree. */
#define GFP_ELEMENT_OUT_OF_RANGE 4
/* The table does not have GFP_TABLE_WORDS words. To mend: lend so many, and pass that number. */
#define GFP_TABLE_SIZE 5
/* A word of the table is not this key's. To mend: make the table again under this key; if it recurs, the memory is
 * damaged or shared. In gfp_feed_house: pass the house key, or feed by this key's own table. */
#define GFP_TABLE_WORD 6
/* A length handed in, or the resulting one, passes 34359738360 bits, which are 4294967295 bytes. To mend: split the
 * file; check that the length is the right field, and that bits were not multiplied by 8 once more. */
#define GFP_TOO_LONG 7
/* A mark's fingerprint is not below 2^degree. To mend: check that the mark was taken under this key, and copied
 * whole. */
#define GFP_MARK_NOT_REDUCED 8
/* The old and the new page do not have the same number of bits. To mend: pass both with one length and one used. */
#define GFP_PAGE_LENGTHS_DIFFER 9
/* The page ends past the file's end: 8 * place and the page's bits are more than the mark's bits. To mend: check the
 * place, which is in bytes, the page's used, and the mark's length, which is in bits. */
#define GFP_PAGE_PAST_END 10
/* The pattern has no bytes. To mend: search for at least one. */
#define GFP_EMPTY_PATTERN 11
/* The page size is not 16 to 4096 bytes. To mend: choose one in that range. */
#define GFP_PAGE_SIZE 12
/* The lent bytes are fewer than the sheet's. To mend: lend as many as gfp_sheet_length gives. */
#define GFP_BUFFER_SHORT 13
/* The bytes are no page sheet of a version that this library reads: cut, damaged, of another kind, of a later version.
 * To mend: fetch the sheet again; read a later version with a later library. */
#define GFP_SHEET_MALFORMED 14
/* The final byte of a part, page or file: used is not 1 to 8, or is not 8 and there are no bytes, or a low bit that is
 * not used is 1. To mend: pass 8 for whole bytes and for none; else the number of bits, counted from the high end, and
 * the 8 - used low bits 0. */
#define GFP_FINAL_BYTE 19

/* The words of a table buffer. */
#define GFP_TABLE_WORDS 1024

/* The house key, which is that of the constant table: the smallest irreducible polynomial of degree 61,
 * 2000000000000027 in hexadecimal. */
#define GFP_HOUSE_DEGREE 61
#define GFP_HOUSE_WORD UINT64_C(0x27)

/* Plain marks.
 *
 * A file's bits are a polynomial, the high bit of the first byte its highest coefficient. The fingerprint in a mark is
 * the residue of that polynomial with a leading 1, modulo the key: t^n is added to it, n being the file's length in
 * bits. In a plain mark it is the residue of the polynomial as it is, with no leading 1. Archives that were made by
 * equations (3) and (4) of Broder's paper "Some applications of Rabin's fingerprinting method" hold these. A file's
 * mark and its plain mark have the same length. Under degree 8, word 0x1b the byte 0x41 has the mark 0x5a, 8 bits, and
 * the plain mark 0x41, 8 bits.
 *
 *   begin                 a mark: gfp_begin
 *                         a plain mark: gfp_begin_plain
 *   turn                  a mark into a plain mark, and a plain mark into a mark: gfp_turn
 *   feed                  both kinds: gfp_feed, gfp_feed_table, gfp_feed_house
 *   change a page         both kinds: gfp_replace_page
 *   make, test a table    one table serves both kinds: gfp_make_table, gfp_test_table
 *   join                  two marks: gfp_join_behind, gfp_join_in_front
 *                         two plain marks: gfp_join_plain_behind, gfp_join_plain_in_front
 *
 * Feeding and page change leave the kind that they are lent. The functions that join do not take both kinds: each kind
 * has its own, and those for plain marks go by equation (10) of that paper as it stands. The fingerprints in page
 * sheets have the leading 1: there are no sheets of plain fingerprints.
 *
 * Nothing in a mark tells its kind: keep the kind beside the mark, or turn each plain mark when it is taken in. The
 * functions that join do not refuse a mark of the wrong kind: they write what their rule makes of the numbers, and do
 * not promise that it is the mark, or the plain mark, of the joined file. To join a mark and a plain mark, or to compare
 * a plain mark with a fingerprint of a sheet, turn one of the two first.
 *
 * Turning goes by the length: an archive's length in bytes is to be multiplied by 8. A wrong length is not refused, and
 * gives a wrong mark. A plain fingerprint without its length is no plain mark, and cannot be turned. Whether an
 * archive's fingerprints are plain fingerprints shows on one file: feed it to what gfp_begin_plain begins, and compare.
 *
 * Of the accepted keys of degree k at most n / k give two different files of at most n bits one fingerprint. For plain
 * fingerprints that is promised only where the files are equally long: zero bits in front of a file do not change its
 * plain fingerprint, and the empty file and one zero byte both have 0, under every key. So compare the lengths too.
 */

/* ---- Bench: link libgfp_bench.a */

/* Whether a key is accepted: its degree is 8 to 64, its word has no bit at t^degree or above, and it is irreducible.
 * Refusals: 1, 2. Stack: 1,536 bytes. */
uint32_t gfp_test_key(uint32_t degree, uint64_t word);

/* The word of the stock key of a degree 8 to 64, which is the smallest accepted key of that degree. 0 for every other
 * degree; no accepted key has the word 0. Refusals: none. Stack: 1,024 bytes. */
uint64_t gfp_stock_key(uint32_t degree);

/* The mark of the empty file: fingerprint 1, no bits. Refusals: 1, 2. Stack: 1,536 bytes. */
uint32_t gfp_begin(uint32_t degree, uint64_t word, uint64_t *fingerprint, uint64_t *bits);

/* The plain mark of the empty file: fingerprint 0, no bits. Refusals: 1, 2. Stack: 1,536 bytes. */
uint32_t gfp_begin_plain(uint32_t degree, uint64_t word, uint64_t *fingerprint, uint64_t *bits);

/* Feeds the next part of a file to a mark of either kind, with no table: fast under the house key, one to seven bytes
 * at a time under the other stock keys from degree 16 on, bit by bit under most other keys. The part's bits go behind
 * those that were fed, from the next bit on.
 * Refusals: 1, 2, 7, 8, 19. Stack: 7,680 bytes. */
uint32_t gfp_feed(uint32_t degree, uint64_t word, uint64_t *fingerprint, uint64_t *bits, const uint8_t *part,
                  size_t part_length, uint32_t used);

/* Fills a lent buffer of 1,024 words with the key's table. Refusals: 1, 2, 5. Stack: 1,536 bytes. */
uint32_t gfp_make_table(uint32_t degree, uint64_t word, uint64_t *words, size_t words_length);

/* Whether the words are the key's table. Refusals: 1, 2, 5, 6. Stack: 1,536 bytes. */
uint32_t gfp_test_table(uint32_t degree, uint64_t word, const uint64_t *words, size_t words_length);

/* Feeds the next part by a table: the same mark as gfp_feed, under a drawn key many times faster. All words are tested
 * first. Refusals: 1, 2, 5, 6, 7, 8, 19. Stack: 8,192 bytes. */
uint32_t gfp_feed_table(uint32_t degree, uint64_t word, uint64_t *fingerprint, uint64_t *bits, const uint64_t *words,
                        size_t words_length, const uint8_t *part, size_t part_length, uint32_t used);

/* Feeds the next part by the table of the house key, which the library holds: the same as gfp_feed_table with its
 * words. Under that key (GFP_HOUSE_DEGREE, GFP_HOUSE_WORD) no word is tested, since they are proved right, and none is
 * read: that is the fastest way to feed. Under another key they are tested like a lent table.
 * Refusals: 1, 2, 6, 7, 8, 19. Stack: 15,872 bytes. */
uint32_t gfp_feed_house(uint32_t degree, uint64_t word, uint64_t *fingerprint, uint64_t *bits, const uint8_t *part,
                        size_t part_length, uint32_t used);

/* Turns a file's mark into its plain mark, and its plain mark into its mark, by the same call: the residue of t^n is
 * added to the fingerprint by exclusive or, n being the mark's bits, and the length stays. No bit of the file is read.
 * A mark may be turned between two parts of a file: feeding goes on as if the file had begun under the other rule. A
 * mark that no file has is not refused: the same is added to its fingerprint. A refusal 7 says that the length is not
 * the file's in bits, 8 that the fingerprint was taken under another key or not copied whole.
 * Refusals: 1, 2, 7, 8. Stack: 1,536 bytes. */
uint32_t gfp_turn(uint32_t degree, uint64_t word, uint64_t *fingerprint, uint64_t *bits);

/* ---- Site: link libgfp_site.a and libgfp_bench.a */

/* Joining in any grouping. Marks of one kind that stand in a row may be joined in any grouping, days into weeks and
 * weeks into seasons, each two neighbours by either of the two functions for their kind. Where each mark is acceptable
 * by itself under one accepted key, its length at most 34,359,738,360 bits and its fingerprint below 2^degree, every
 * grouping gives the same mark or is refused with the same number: 7 where the lengths together pass that limit, and
 * else it is not refused. A joining that is refused ends the grouping; what the two places hold may then be another
 * mark in another grouping. The order of the files matters: neighbours are joined as they stand. The mark that
 * gfp_begin gives, joined with such a mark in front or behind, is not refused and changes nothing, nor does that of
 * gfp_begin_plain among plain marks. */

/* Joins marks: the file of the mark (other_fingerprint, other_bits) goes behind the file of the mark in the two
 * places. Both lengths are in bits; up to GFP_INTERFACE 3 they were in bytes. Neither may be a plain mark.
 * Refusals: 1, 2, 7, 8. Stack: 1,536 bytes. */
uint32_t gfp_join_behind(uint32_t degree, uint64_t word, uint64_t *fingerprint, uint64_t *bits,
                         uint64_t other_fingerprint, uint64_t other_bits);

/* Joins marks: the file of the mark (other_fingerprint, other_bits) goes in front. Both lengths are in bits; up to
 * GFP_INTERFACE 3 they were in bytes. Neither may be a plain mark.
 * Refusals: 1, 2, 7, 8. Stack: 1,536 bytes. */
uint32_t gfp_join_in_front(uint32_t degree, uint64_t word, uint64_t *fingerprint, uint64_t *bits,
                           uint64_t other_fingerprint, uint64_t other_bits);

/* Joins plain marks: the file of the plain mark (other_fingerprint, other_bits) goes behind the file of the plain mark
 * in the two places. Both lengths are in bits. Both must be plain marks.
 * Refusals: 1, 2, 7, 8. Stack: 1,536 bytes. */
uint32_t gfp_join_plain_behind(uint32_t degree, uint64_t word, uint64_t *fingerprint, uint64_t *bits,
                               uint64_t other_fingerprint, uint64_t other_bits);

/* Joins plain marks: the file of the plain mark (other_fingerprint, other_bits) goes in front. Both lengths are in
 * bits. Both must be plain marks.
 * Refusals: 1, 2, 7, 8. Stack: 1,536 bytes. */
uint32_t gfp_join_plain_in_front(uint32_t degree, uint64_t word, uint64_t *fingerprint, uint64_t *bits,
                                 uint64_t other_fingerprint, uint64_t other_bits);

/* Changes a page in a file's mark of either kind: the new bits stand where the old ones stood, from the byte at the
 * given place on. The mark is right where the old bits are what stood there. Both pages have the same number of bits; a
 * page with used below 8 may stand anywhere in the file, and the bits behind it stay.
 * Refusals: 1, 2, 7, 8, 9, 10, 19. Stack: 1,536 bytes. */
uint32_t gfp_replace_page(uint32_t degree, uint64_t word, uint64_t *fingerprint, uint64_t *bits, uint64_t place,
                          const uint8_t *old_page, size_t old_page_length, uint32_t old_used, const uint8_t *new_page,
                          size_t new_page_length, uint32_t new_used);

/* All places of the pattern in the text, byte offsets from 0, overlaps included, rising: the first ones into the lent
 * places, as far as they reach; further ones keep their value. The number of places goes to *count, however many were
 * lent, and the number of windows with the pattern's fingerprint and other bytes to *alarms. A window that matches is
 * compared byte by byte: where many do, the time grows with the product of both lengths. Bound the pattern's length, or
 * the text's, where the text comes from an untrusted source.
 * Refusals: 1, 2, 7, 11. Stack: 6,656 bytes. */
uint32_t gfp_search(uint32_t degree, uint64_t word, const uint8_t *text, size_t text_length, const uint8_t *pattern,
                    size_t pattern_length, uint32_t *places, size_t places_length, uint32_t *count, uint32_t *alarms);

/* The bytes of a sheet without pages, as gfp_write_sheet writes it; each page adds 8. In versions 1 and 2 it is 27, in
 * version 3 it is 31. */
#define GFP_SHEET_BYTES 32

/* The version of the sheets that gfp_write_sheet writes, whatever the key's degree; sheets of versions 1 to 3 are read
 * and checked too. The versions differ in three things. The key field has 9 bytes in version 4, the degree (1) and the
 * word (8); in versions 1 to 3 it has 8, the key as one number, so that these sheets have keys of degree 8 to 63. The
 * length field has 8 bytes and is in bits in versions 3 and 4, and has 4 bytes and is in bytes in versions 1 and 2. The
 * fingerprint of a last page that is shorter than the page size is in versions 2 to 4 that of the bits it has, and in
 * version 1 that of the page filled up with zero bytes to the page size. */
#define GFP_SHEET_VERSION 4

/* The bytes of the sheet of a file of the given length in bytes, an unfinished byte counted as one, with pages of the
 * given size, to *sheet_length: 32 + 8 * pages. Refusals: 7, 12. Stack: 512 bytes. */
uint32_t gfp_sheet_length(uint64_t file_length, uint64_t page_size, uint64_t *sheet_length);

/* Writes the page sheet of a file into the lent bytes; further bytes keep their value. The page size is 16 to 4,096
 * bytes, and the sheet takes 32 + 8 * pages bytes, pages being the file's length in bytes, an unfinished byte counted
 * as one, over the page size, rounded up: the letters GFP, the version GFP_SHEET_VERSION (2 bytes), the key's degree
 * (1) and word (8), the file's length in bits (8), the page size in bytes (2), the fingerprint of each page (8 each,
 * the last page as long as it is, without filling) and the file's (8), high byte first.
 * Refusals: 1, 2, 7, 12, 13, 19. Stack: 27,648 bytes. */
uint32_t gfp_write_sheet(uint32_t degree, uint64_t word, uint64_t page_size, const uint8_t *file, size_t file_length,
                         uint32_t used, uint8_t *sheet, size_t sheet_length);

/* Reads a page sheet of version 1, 2, 3 or 4: its version, the key's degree and word whatever the version, the file's
 * length in bits whatever the version, the page size in bytes, the number of pages and the file's fingerprint. The key
 * field of versions 1 to 3 is judged as a number: below 256 gives 1. The joining of number 14: in versions 2 to 4 the
 * page marks joined, each with its own length, must give the file's fingerprint; in version 1 the page marks joined,
 * each as long as the page size, must give that of the file with zero bytes behind it, as many as its last page is
 * filled up with. Without pages the file's fingerprint must be 1 in all.
 * Refusals, in this order: 14 (size under 27, letters, version, shorter than the version's sheet without pages, a
 * length past the limit), 1, 2, 12, 14 (total, fingerprints, joining).
 * Stack: 17,408 bytes. */
uint32_t gfp_read_sheet(const uint8_t *sheet, size_t sheet_length, uint32_t *version, uint32_t *degree, uint64_t *word,
                        uint64_t *bits, uint64_t *page_size, uint64_t *pages, uint64_t *fingerprint);

/* The page fingerprints of a page sheet into the lent places: the first ones, as far as they reach; further ones keep
 * their value. A sheet has as many as gfp_read_sheet writes to *pages. They are given as the sheet has them: the last
 * one is that of the page filled up in version 1, and of the page as long as it is in versions 2 to 4.
 * Refusals, as of gfp_read_sheet: 14, 1, 2, 12, 14. Stack: 17,408 bytes. */
uint32_t gfp_read_pages(const uint8_t *sheet, size_t sheet_length, uint64_t *fingerprints, size_t fingerprints_length);

#define GFP_SAME 0
#define GFP_PAGE 1
#define GFP_OTHER_LENGTH 2

/* Checks a file against a page sheet: *outcome is GFP_SAME, GFP_PAGE with the first page whose fingerprint differs,
 * counted from 0, in *page, or GFP_OTHER_LENGTH. *page is 0 where the outcome is not GFP_PAGE. Lengths are compared in
 * bits: against a sheet of version 1 or 2 a file with used below 8 has another length. Against a sheet of version 1 the
 * file's last page is filled up with zero bytes to the page size, against one of version 2, 3 or 4 it is not.
 * Refusals, those of gfp_read_sheet first: 14, 1, 2, 12, 14, 7, 19. Stack: 27,648 bytes. */
uint32_t gfp_check_file(const uint8_t *sheet, size_t sheet_length, const uint8_t *file, size_t file_length,
                        uint32_t used, uint32_t *outcome, uint32_t *page);

/* Checks a file as gfp_check_file does, and names the bytes of the page: where *outcome is GFP_PAGE, they stand from
 * *from on, and end before *to, which is the file's end where the last page is not full. Both are in bytes; an
 * unfinished byte at the file's end counts as one. *from and *to are 0 where the outcome is not GFP_PAGE.
 * Refusals, those of gfp_read_sheet first: 14, 1, 2, 12, 14, 7, 19. Stack: 27,648 bytes. */
uint32_t gfp_changed_range(const uint8_t *sheet, size_t sheet_length, const uint8_t *file, size_t file_length,
                           uint32_t used, uint32_t *outcome, uint64_t *from, uint64_t *to);

/* ---- Keyholder: link libgfp_keyholder.a, libgfp_site.a and libgfp_bench.a */

/* Draws a key by Rabin's method: the degree is one of 11, 13, 17, 19, 23, 29, 31, 37, 41, 43, 47, 53, 59, 61, and the
 * element a random number from 2 to 2^degree - 1. The key drawn has that degree and the word that is written to *word.
 * A uniform element draws a uniform key: each accepted key of the degree is drawn by as many elements as the degree.
 * Take the element from the system's random source (getrandom), as many bits as the degree, and try again on
 * GFP_ELEMENT_OUT_OF_RANGE. Keep it as secret as the key: it gives the key.
 * Refusals: 3, 4. Stack: 1,536 bytes. */
uint32_t gfp_draw(uint32_t degree, uint64_t element, uint64_t *word);

#ifdef __cplusplus
}
#endif

#endif
