/* Says what the header and the archive have, for tools/words to compare: the words of every number, and of each size its value and what
 * the archive answers there and one step off. */
#include <inttypes.h>
#include <stdio.h>
#include <string.h>
#include "isnemgul.h"

static void word(uint32_t number) {
    printf("%" PRIu32 " %s\n", number, isn_refusal_text(number));
}

static void size(const char *name, int value, uint32_t there, uint32_t off) {
    printf("%s %d %" PRIu32 " %" PRIu32 "\n", name, value, there, off);
}

/* What a volume report answers of a mesh with one node, at (x, 0, 0). */
static uint32_t reported(double x) {
    const double place[3] = {x, 0, 0};
    uint64_t node[3];
    uint8_t file[37];
    uint32_t length, counts[2];
    int64_t total;
    memcpy(node, place, sizeof node);
    isn_hxm_write(node, 3, NULL, 0, file, sizeof file, &length);
    return isn_volume_report(file, sizeof file, NULL, 0, &total, counts);
}

/* Lists of zeros do. A missing output is refused too, but only by a list that is within its limit. */
int main(void) {
    static const double floats[24 + 2 * ISN_MAX_POINTS + 2];
    static const isn_proposal proposals[ISN_MAX_PROPOSALS + 1];
    static const uint32_t zeros[8 * ISN_MAX_CELLS + 8];
    static const uint64_t words[3 * ISN_MAX_NODES];
    static uint32_t cells[8 * ISN_MAX_CELLS];
    static uint8_t file[ISN_LONGEST_FILE];
    uint32_t out[ISN_REFINED_NUMBERS], n;
    int32_t place[3];
    double volume;
    for (n = 0; n < 256; n++)
        word(n);
    word(UINT32_MAX);
    for (n = 0; n < 8 * ISN_MAX_CELLS; n++)
        cells[n] = n;
    size("ISN_MAX_NODES", ISN_MAX_NODES, isn_refine(ISN_MAX_NODES, NULL, 0, NULL, 0, &n), isn_refine(ISN_MAX_NODES + 1, NULL, 0, NULL, 0, &n));
    size("ISN_MAX_CELLS", ISN_MAX_CELLS, isn_refine(1, zeros, 8 * ISN_MAX_CELLS, NULL, 0, &n),
         isn_refine(1, zeros, 8 * ISN_MAX_CELLS + 8, NULL, 0, &n));
    size("ISN_MAX_PROPOSALS", ISN_MAX_PROPOSALS, isn_hex_check_proposals(floats, proposals, ISN_MAX_PROPOSALS, NULL, 0, &n),
         isn_hex_check_proposals(floats, proposals, ISN_MAX_PROPOSALS + 1, NULL, 0, &n));
    size("ISN_MAX_DEPTH", ISN_MAX_DEPTH, isn_descendant(zeros, ISN_MAX_DEPTH, 0, place), isn_descendant(zeros, ISN_MAX_DEPTH + 1, 0, place));
    size("ISN_MAX_POINTS", ISN_MAX_POINTS, isn_hex_volume(floats, floats + 24, 2 * ISN_MAX_POINTS, &volume),
         isn_hex_volume(floats, floats + 24, 2 * ISN_MAX_POINTS + 2, &volume));
    size("ISN_REFINED_NUMBERS", ISN_REFINED_NUMBERS, isn_refine(8, cells, 8, out, ISN_REFINED_NUMBERS, &n),
         isn_refine(8, cells, 8, out, ISN_REFINED_NUMBERS - 1, &n));
    size("ISN_LONGEST_FILE", ISN_LONGEST_FILE, isn_hxm_write(words, 3 * ISN_MAX_NODES, cells, 8 * ISN_MAX_CELLS, file, ISN_LONGEST_FILE, &n),
         isn_hxm_write(words, 3 * ISN_MAX_NODES, cells, 8 * ISN_MAX_CELLS, file, ISN_LONGEST_FILE - 1, &n));
    size("ISN_GRID_LIMIT", ISN_GRID_LIMIT, reported(ISN_GRID_LIMIT), reported(ISN_GRID_LIMIT + 1));
    return 0;
}
