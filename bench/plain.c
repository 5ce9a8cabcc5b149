/* The refinement as one would write it in C: the same naive search over the edges and faces of earlier cells. */
#include <stddef.h>
#include <stdint.h>

static const int EDGES[12][2] = {{0, 1}, {1, 2}, {2, 3}, {3, 0}, {4, 5}, {5, 6}, {6, 7}, {7, 4}, {0, 4}, {1, 5}, {2, 6}, {3, 7}};
static const int FACES[6][4] = {{0, 3, 2, 1}, {0, 1, 5, 4}, {1, 2, 6, 5}, {2, 3, 7, 6}, {3, 0, 4, 7}, {4, 5, 6, 7}};
/* Child i, corner k names this place: corners 0 to 7, edges from 8, faces from 20, the centre 26. */
static const int CHILDREN[8][8] = {
    {0, 8, 20, 11, 16, 21, 26, 24},  {8, 1, 9, 20, 21, 17, 22, 26},   {20, 9, 2, 10, 26, 22, 18, 23},  {11, 20, 10, 3, 24, 26, 23, 19},
    {16, 21, 26, 24, 4, 12, 25, 15}, {21, 17, 22, 26, 12, 5, 13, 25}, {26, 22, 18, 23, 25, 13, 6, 14}, {24, 26, 23, 19, 15, 25, 14, 7},
};

static uint32_t fault(uint32_t n, const uint32_t *cell) {
    for (int j = 0; j < 8; j++)
        if (cell[j] >= n)
            return 9;
    for (int j = 0; j < 8; j++)
        for (int i = 0; i < j; i++)
            if (cell[i] == cell[j])
                return 10;
    return 0;
}

static int same_edge(const uint32_t *p, const int *a, const uint32_t *q, const int *b) {
    return (p[a[0]] == q[b[0]] && p[a[1]] == q[b[1]]) || (p[a[0]] == q[b[1]] && p[a[1]] == q[b[0]]);
}

static int has(const uint32_t *q, const int *b, uint32_t node) {
    return q[b[0]] == node || q[b[1]] == node || q[b[2]] == node || q[b[3]] == node;
}

/* A cell's nodes differ, so that it is enough to look one way. */
static int same_face(const uint32_t *p, const int *a, const uint32_t *q, const int *b) {
    return has(q, b, p[a[0]]) && has(q, b, p[a[1]]) && has(q, b, p[a[2]]) && has(q, b, p[a[3]]);
}

/* Of two faces with the same nodes: the rings agree where the same node stands opposite the first. */
static int same_ring(const uint32_t *p, const int *a, const uint32_t *q, const int *b) {
    int j = 0;
    while (q[b[j]] != p[a[0]])
        j++;
    return q[b[(j + 2) % 4]] == p[a[2]];
}

uint32_t plain_refine(uint32_t n, const uint32_t *cells, size_t cells_len, uint32_t *out, size_t out_len, uint32_t next[1]) {
    uint32_t numbers[128][27];
    size_t count = cells_len / 8;
    if (n > 1024 || cells_len > 1024)
        return 7;
    if (cells_len % 8 != 0 || out_len < 8 * cells_len)
        return 8;
    for (size_t c = 0; c < count; c++) {
        uint32_t number = fault(n, cells + 8 * c);
        if (number != 0)
            return number;
    }
    for (size_t c = 0; c < count; c++) {
        const uint32_t *cell = cells + 8 * c;
        uint32_t *mine = numbers[c];
        for (int k = 0; k < 8; k++)
            mine[k] = cell[k];
        for (int e = 0; e < 12; e++) {
            for (size_t d = 0; d < c; d++)
                for (int f = 0; f < 12; f++)
                    if (same_edge(cell, EDGES[e], cells + 8 * d, EDGES[f])) {
                        mine[8 + e] = numbers[d][8 + f];
                        goto next_edge;
                    }
            mine[8 + e] = n++;
        next_edge:;
        }
        for (int e = 0; e < 6; e++) {
            for (size_t d = 0; d < c; d++)
                for (int f = 0; f < 6; f++)
                    if (same_face(cell, FACES[e], cells + 8 * d, FACES[f])) {
                        if (!same_ring(cell, FACES[e], cells + 8 * d, FACES[f]))
                            return 14;
                        mine[20 + e] = numbers[d][20 + f];
                        goto next_face;
                    }
            mine[20 + e] = n++;
        next_face:;
        }
        mine[26] = n++;
    }
    for (size_t c = 0; c < count; c++)
        for (int i = 0; i < 64; i++)
            out[64 * c + i] = numbers[c][CHILDREN[i / 8][i % 8]];
    next[0] = n;
    return 0;
}
