/* Where does the thermocouple sit? A probe is buried in a cast block that is meshed by one hexahedron and one prism.
 * Then a second hexahedron stands beside the block. Of this mesh the exact volumes are reported, and what it weighs; it is refined, and the node
 * numbers of the sixteen children are printed; one whose second cell is glued on with a twist is refused. A bent cube is refined too, its children
 * get their places, and they hold what it holds. Last the mesh is written as a file, the file is read, and what was read is compared with what was
 * written. */
#include <inttypes.h>
#include <stdio.h>
#include <string.h>
#include "isnemgul.h"

/* The mesh: two cells, and the places of its 12 nodes, on a grid of 1 cm. The block is the first cell. */
static const uint32_t cells[16] = {0, 1, 2, 3, 4, 5, 6, 7, 1, 8, 9, 2, 5, 11, 10, 6};
static const double places[36] = {
    0, 0, 0, 4, 0, 0, 5, 3, 0, 0, 3, 1, /* 0 to 3 */
    0, 0, 6, 4, 1, 6, 5, 4, 7, 0, 3, 6, /* 4 to 7 */
    9, 0, 0, 9, 3, 0, 9, 4, 7, 8, 1, 6, /* 8 to 11 */
};

/* The corners with the probe's place subtracted. */
static void around(const double *mesh, size_t corners, const double probe[3], double out[]) {
    for (size_t k = 0; k < corners; k++)
        for (size_t i = 0; i < 3; i++)
            out[3 * k + i] = mesh[3 * k + i] - probe[i];
}

/* A refusal by its number and its words; 1 and 2 of a locator have a name too. */
static void say_refused(uint32_t answer) {
    const char *name = answer == ISN_REFUSED_FLAT ? "flat, " : answer == ISN_REFUSED_OUTSIDE ? "outside, " : "";
    printf("%srefused %u: %s\n", name, (unsigned)answer, isn_refusal_text(answer));
}

static void say(const char *cell, const double probe[3], uint32_t answer, const double at[3]) {
    printf("%s, probe at (%g, %g, %g): ", cell, probe[0], probe[1], probe[2]);
    if (answer == ISN_OK)
        printf("inside at (%.17g, %.17g, %.17g)\n", at[0], at[1], at[2]);
    else
        say_refused(answer);
}

static void say_checked(const char *place, uint32_t answer) {
    printf("block, %s: ", place);
    if (answer == ISN_OK)
        printf("accepted\n");
    else
        say_refused(answer);
}

static void locate(void) {
    static const double rib[18] = {4, 0, 0, 7, 0, 0, 5, 3, 0, 4, 1, 6, 7, 1, 6, 5, 4, 7};
    static const double probes[2][3] = {{1.5, 1.25, 2}, {5, 1.5, 3}};
    double corners[24], at[3];
    for (size_t n = 0; n < 2; n++) {
        around(places, 8, probes[n], corners);
        say("block", probes[n], isn_hex_parametric_coord_for_origin(corners, at), at);
        around(rib, 6, probes[n], corners);
        say("rib", probes[n], isn_prism_parametric_coord_for_origin(corners, at), at);
    }
    double found[3];
    around(places, 8, probes[0], corners);
    uint32_t answer = isn_hex_locate_checked(corners, 1e-9, found);
    say_checked("probe checked to 1e-9", answer);
    if (answer != ISN_OK)
        return;
    found[0] += 1e-6;
    say_checked("a place 1e-6 beside it", isn_hex_check(corners, found, 1e-9));
}

/* The mesh as a file. The lists own the counts: it holds as many nodes and cells as they do. */
static uint8_t file[ISN_LONGEST_FILE];
static uint64_t nodes[36];

static uint32_t write_file(uint32_t *length) {
    memcpy(nodes, places, sizeof nodes);
    return isn_hxm_write(nodes, 36, cells, 16, file, sizeof file, length);
}

/* The lines that `hexvol` prints for this file, and the weight. Answers whether there was a report. */
static int report(void) {
    int64_t volumes[2], total;
    uint32_t length, counts[2];
    uint32_t answer = write_file(&length);
    if (answer == ISN_OK)
        answer = isn_volume_report(file, length, volumes, 2, &total, counts);
    if (answer != ISN_OK) {
        say_refused(answer);
        return 0;
    }
    for (uint32_t k = 0; k < counts[0]; k++)
        printf("%" PRIu32 " %" PRId64 "\n", k, volumes[k]);
    printf("total %" PRId64 "\n", total);
    if (counts[1] < counts[0])
        printf("first %" PRIu32 "\n", counts[1]);
    else
        printf("first none\n");
    printf("The total is %g cm^3; of iron, at 7.2 g a cm^3, that is %g kg.\n", (double)total / 216, (double)total / 216 * 7.2 / 1000);
    return 1;
}

/* Two cells of the same nodes: a face of the second has the nodes 1, 2, 6, 5 too, and they run 5, 1, 6, 2. */
static const uint32_t twisted[16] = {0, 1, 2, 3, 4, 5, 6, 7, 1, 8, 9, 5, 6, 11, 10, 2};

/* The table that `hexkids` prints for a mesh file with these two cells; a refusal is said in words. */
static uint32_t refine(const uint32_t mesh[16]) {
    uint32_t children[2 * ISN_REFINED_NUMBERS], next;
    uint32_t answer = isn_refine(12, mesh, 16, children, 2 * ISN_REFINED_NUMBERS, &next);
    if (answer != ISN_OK) {
        say_refused(answer);
        return answer;
    }
    printf("cells 16 nodes %u\n", (unsigned)next);
    for (size_t i = 0; i < 2 * ISN_REFINED_NUMBERS; i++)
        printf("%u%c", (unsigned)children[i], i % 8 == 7 ? '\n' : ' ');
    return ISN_OK;
}

/* The cube from 0 to 2 on each axis with corner 6 drawn out to (3, 3, 3). */
static const double bent[24] = {0, 0, 0, 2, 0, 0, 2, 2, 0, 0, 2, 0, 0, 0, 2, 2, 0, 2, 3, 3, 3, 0, 2, 2};

/* A corner's sides, one bit an axis, set on the upper side; and of sides the corner. */
static size_t sides(size_t corner) {
    return corner ^ (corner >> 1 & 1);
}

/* Eight times the place half way between corners i and k of a cell, a whole number on a grid: the sum over the corners with each side from i or k. */
static void half_way(const double corners[24], size_t i, size_t k, double out[3]) {
    out[0] = out[1] = out[2] = 0;
    for (size_t from_k = 0; from_k < 8; from_k++) {
        const double *corner = corners + 3 * sides((sides(i) & ~from_k) | (sides(k) & from_k));
        for (size_t axis = 0; axis < 3; axis++)
            out[axis] += corner[axis];
    }
}

/* total = 216 times what at most eight cells with at most 27 nodes hold, by the file of them. */
static uint32_t total_of(const double *at, size_t at_len, const uint32_t *numbers, size_t numbers_len, int64_t *total) {
    uint64_t words[81];
    int64_t volumes[8];
    uint32_t length, counts[2];
    memcpy(words, at, at_len * sizeof *at);
    uint32_t answer = isn_hxm_write(words, at_len, numbers, numbers_len, file, sizeof file, &length);
    return answer == ISN_OK ? isn_volume_report(file, length, volumes, 8, total, counts) : answer;
}

/* Answers whether the children of the bent cube hold what it holds: on a grid eight times as fine that is 8 * 8 * 8 times as much. */
static int refine_bent(void) {
    uint32_t children[ISN_REFINED_NUMBERS], next;
    double at[81];
    int64_t whole, together;
    uint32_t answer = isn_refine(8, cells, 8, children, ISN_REFINED_NUMBERS, &next);
    if (answer == ISN_OK) {
        for (size_t i = 0; i < 8; i++)
            for (size_t k = 0; k < 8; k++)
                half_way(bent, i, k, at + 3 * children[8 * i + k]);
        answer = total_of(bent, 24, cells, 8, &whole);
    }
    if (answer == ISN_OK)
        answer = total_of(at, 3 * next, children, ISN_REFINED_NUMBERS, &together);
    if (answer != ISN_OK) {
        say_refused(answer);
        return 0;
    }
    printf("the bent cube holds %" PRId64 "\n", whole);
    printf("its eight children hold %" PRId64 ", %s\n", together, together == 512 * whole ? "512 times as much" : "NOT 512 times as much");
    return together == 512 * whole;
}

/* Answers whether the file gives both lists back, bit for bit. */
static int write_and_read(void) {
    uint64_t read_nodes[36];
    uint32_t read_cells[16], length, counts[2];
    uint32_t answer = write_file(&length);
    if (answer == ISN_OK) {
        printf("written: %u bytes\n", (unsigned)length);
        answer = isn_hxm_read(file, length, read_nodes, 36, read_cells, 16, counts);
    }
    if (answer != ISN_OK) {
        say_refused(answer);
        return 0;
    }
    int same = counts[0] == 12 && memcmp(read_nodes, nodes, sizeof nodes) == 0 && counts[1] == 2 && memcmp(read_cells, cells, sizeof cells) == 0;
    printf("read back: %u nodes and %u cells, %s\n", (unsigned)counts[0], (unsigned)counts[1],
           same ? "both lists are the same" : "NOT the lists that were written");
    return same;
}

int main(void) {
    locate();
    printf("\nThe block and a cell beside it, on a grid of 1 cm: 216 times each volume, a whole number, and the first cell that is not above zero.\n");
    int reported = report();
    printf("\nTwo cells that share the face 1 2 6 5, refined: its middle is node 26 in both.\n");
    refine(cells);
    printf("\nThe second cell glued on with a twist: the face 1 2 6 5 of the first is 5 1 6 2 in the second.\n");
    if (refine(twisted) == ISN_REFUSED_TWISTED)
        printf("Both rings have the sides 1 5 and 2 6, and the other two differ. Look for two nodes exchanged: here 2 and 6 in the second cell.\n");
    printf("\nA cube with a corner drawn out, refined: 216 times the volumes. The children are on a grid eight times as fine, where middles are whole.\n");
    int kept = refine_bent();
    printf("\nThe first two cells and the places of their 12 nodes, as a mesh file.\n");
    return write_and_read() && reported && kept ? 0 : 1;
}
