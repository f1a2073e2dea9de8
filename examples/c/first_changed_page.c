/* Finds the first changed page of a file by its page sheet, and names its bytes. The exit status is 0 only where it is
 * found and the line was written. Site level. */
#include "gfp.h"
#include <inttypes.h>
#include <stdio.h>
#include <string.h>

/* Whether a call was refused, with a line that says which. */
static int refused(const char *call, uint32_t number) {
    if (number != GFP_OK)
        fprintf(stderr, "first_changed_page: %s refused %" PRIu32 "\n", call, number);
    return number != GFP_OK;
}

int main(void) {
    static uint8_t file[200], sheet[GFP_SHEET_BYTES + 8 * 7];
    const uint32_t degree = 40;
    const uint64_t word = gfp_stock_key(degree), page_size = 32;
    uint64_t bytes, from, to;
    uint32_t outcome, page;
    memset(file, 'x', sizeof file);
    if (refused("gfp_sheet_length", gfp_sheet_length(sizeof file, page_size, &bytes)) || bytes != sizeof sheet)
        return 1;
    if (refused("gfp_write_sheet",
                gfp_write_sheet(degree, word, page_size, file, sizeof file, 8, sheet, sizeof sheet)))
        return 1;
    file[70] ^= 1;
    if (refused("gfp_check_file", gfp_check_file(sheet, sizeof sheet, file, sizeof file, 8, &outcome, &page)))
        return 1;
    if (refused("gfp_changed_range",
                gfp_changed_range(sheet, sizeof sheet, file, sizeof file, 8, &outcome, &from, &to)))
        return 1;
    if (outcome == GFP_PAGE)
        printf("page %" PRIu32 " changed: bytes %" PRIu64 " to %" PRIu64 "\n", page, from, to - 1);
    else
        printf("no page changed\n");
    /* what was printed is written only once standard output is closed without an error */
    if (ferror(stdout) || fclose(stdout) != 0) {
        fprintf(stderr, "first_changed_page: standard output cannot be written\n");
        return 1;
    }
    return outcome != GFP_PAGE;
}
