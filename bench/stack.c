/* How deep each entry goes: the stack below the caller is painted, the entry is called, and the deepest byte that lost its paint is looked for.
 * The number of bytes includes the call itself: it is 24 for an entry that needs none. Each entry is called once before, so that the linker's
 * work at a first call does not count.
 *
 * Inputs are those that go deepest: full lists and paths, nothing refused. On x86-64 only.
 */
#include <stdio.h>
#include <string.h>
#include "isnemgul.h"

enum { PAINTED = 1 << 20, PAINT = 0xa5 };

/* Nothing is called between the painting and the looking but the entry, so that no other frame wears the paint off. */
__attribute__((noinline)) static size_t depth(void (*call)(void)) {
    volatile unsigned char *here;
    size_t i;
    __asm__ volatile("mov %%rsp, %0" : "=r"(here));
    for (i = 1; i <= PAINTED; i++)
        here[-(ptrdiff_t)i] = PAINT;
    call();
    for (i = PAINTED; i > 0 && here[-(ptrdiff_t)i] == PAINT; i--)
        ;
    return i;
}

static const double cube[24] = {-2, -2, -2, 2, -2, -2, 2, 2, -2, -2, 2, -2, -2, -2, 2, 2, -2, 2, 2, 2, 2, -2, 2, 2};
static const double wedge[18] = {-1, -1, -1, 2, -1, -1, -1, 2, -1, -1, -1, 1, 2, -1, 1, -1, 2, 1};
static const double place[3] = {0.25, 0.5, 0.125}, matrix[9] = {2, 1, 0, 0, 3, 1, 1, 0, 4};
static const uint32_t nodes[12] = {0, 1, 2, 3, 4, 5, 6, 7, 8, 9, 10, 11}, path[20] = {6, 1, 2, 3, 4, 5, 6, 7, 0, 1, 2, 3, 4, 5, 6, 7, 0, 1, 2, 3};
static double points[48], floats[36], more[24], one;
static uint32_t cells[1024], numbers[8192], number;
static int32_t whole[3];
static isn_proposal proposals[256];
static uint8_t file[ISN_LONGEST_FILE];
static uint64_t words[3072];
static int64_t volumes[128], total;

static volatile uint32_t answer;

#define ENTRIES(X)                                                                                              \
    X(isn_mat3_transpose, (matrix, floats))                                                                     \
    X(isn_mat3_mult_vec, (matrix, place, floats))                                                               \
    X(isn_mat3_determinant, (matrix, &one))                                                                     \
    X(isn_mat3_try_inverse, (matrix, floats))                                                                   \
    X(isn_hex_shapefunc, (place, floats))                                                                       \
    X(isn_hex_dndr, (place, floats))                                                                            \
    X(isn_hex_dxdr, (cube, place, floats))                                                                      \
    X(isn_hex_grad_shapefunc_from_dndr, (cube, cube, floats, &one))                                             \
    X(isn_hex_dndx, (cube, place, floats, more, &one))                                                          \
    X(isn_hex_grad_shapefunc, (cube, points, 32, 1, 2, 3, floats, &one))                                        \
    X(isn_hex_volume, (cube, points, 32, &one))                                                                 \
    X(isn_hex_parametric_coord_for_origin, (cube, floats))                                                      \
    X(isn_hex_iso_position_on_edge, (place, 1, 0, 1, -1, 1, floats))                                            \
    X(isn_hex_iso_edges, (place, 1, matrix, &number, floats))                                                   \
    X(isn_hex_iso_mask, (17, &number))                                                                          \
    X(isn_hex_subdivide, (nodes, nodes, nodes, 26, numbers))                                                    \
    X(isn_hex_check, (cube, place, 9))                                                                          \
    X(isn_hex_locate_checked, (cube, 9, floats))                                                                \
    X(isn_hex_check_proposals, (cube, proposals, 256, numbers, 256, &number))                                   \
    X(isn_prism_shapefunc, (place, floats))                                                                     \
    X(isn_prism_dndr, (place, floats))                                                                          \
    X(isn_prism_dxdr, (wedge, place, floats))                                                                   \
    X(isn_prism_volume, (wedge, points, 32, points, 48, &one))                                                  \
    X(isn_prism_parametric_coord_for_origin, (wedge, floats))                                                   \
    X(isn_prism_subdivide, (nodes, nodes, nodes, numbers))                                                      \
    X(isn_refine, (1024, cells, 1024, numbers, 8192, &number))                                                  \
    X(isn_descendant, (path, 20, 7, whole))                                                                     \
    X(isn_hxm_read, (file, sizeof file, words, 3072, cells, 1024, numbers))                                     \
    X(isn_hxm_write, (words, 3072, cells, 1024, file, sizeof file, &number))                                    \
    X(isn_volume_report, (file, sizeof file, volumes, 128, &total, numbers))

#define CALLER(name, arguments)          \
    static void call_##name(void) {      \
        answer = name arguments;         \
    }
ENTRIES(CALLER)

/* 128 cells that share nothing, and the file of such a mesh. */
static void make_mesh(void) {
    static const uint8_t head[13] = {'H', 'X', 'M', 1, 0, 0, 4, 0, 0, 128, 0, 0, 0};
    memcpy(file, head, 13);
    for (size_t i = 0; i < 1024; i++) {
        cells[i] = (uint32_t)i;
        file[13 + 24576 + 4 * i] = (uint8_t)(i % 256);
        file[13 + 24576 + 4 * i + 1] = (uint8_t)(i / 256);
    }
}

int main(int count, char **arguments) {
    make_mesh();
    if (count == 2 && strcmp(arguments[1], "--file") == 0) {
        fwrite(file, 1, sizeof file, stdout);
        return 0;
    }
    for (size_t i = 0; i < 48; i++)
        points[i] = 0.1 + 0.01 * (double)i;
    for (size_t i = 0; i < 256; i++)
        proposals[i].tolerance = 1;
    printf("| entry | stack, bytes |\n|---|---:|\n");
#define SHOW(name, arguments)                                                   \
    {                                                                           \
        size_t deep = (call_##name(), depth(call_##name));                      \
        printf("| " #name " | %lu |%s\n", (unsigned long)deep, answer == 0 ? "" : " refused"); \
    }
    ENTRIES(SHOW)
    return 0;
}
