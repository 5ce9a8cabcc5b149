/* Isnemgul: hexahedra and prisms, proved. Link with -lisnemgul (`make install`), or with the archive libisnemgul.a itself.
 *
 * Every function returns 0 where it answered and otherwise a refusal's number, and then no lent memory has changed.
 * isn_refusal_text has the number in words.
 *
 * - An array parameter is a pointer to that many elements. A list is a pointer and a length in elements; a list of length 0 may
 *   have a null pointer. Every other pointer is valid and aligned for its type. The buffers of one call do not overlap.
 * - Corners are flat, node by node, x y z. Hexahedron: xyz Xyz XYz xYz xyZ XyZ XYZ xYZ, a capital for the upper side of that axis.
 *   Prism: the lower triangle, then the upper one in the same order. The probe is the origin: subtract its place from the corners.
 * - Every float is answered, NaN and infinities too. The caller's rounding mode is to nearest, and subnormals are not flushed to
 *   zero: do not link start-up code that changes this, as -ffast-math does.
 */
#ifndef ISNEMGUL_H
#define ISNEMGUL_H

#include <stddef.h>
#include <stdint.h>

#define ISN_VERSION "0.4.0"

/* Limits. Nothing allocates, so each is fixed; beyond one the answer is ISN_REFUSED_LIMIT. */
#define ISN_MAX_NODES 1024    /* nodes in a mesh */
#define ISN_MAX_CELLS 128     /* cells in a mesh */
#define ISN_MAX_PROPOSALS 256 /* proposals in a list */
#define ISN_MAX_DEPTH 20      /* octants in a path */
#define ISN_MAX_POINTS 16     /* quadrature points in a list */

/* How many numbers isn_refine writes for each cell: eight children of eight nodes. */
#define ISN_REFINED_NUMBERS 64

/* The length of the longest mesh file, so that isn_hxm_write has room for every mesh: 13 bytes, 24 for each of 1,024 nodes and 32 for
 * each of 128 cells. */
#define ISN_LONGEST_FILE 28685

/* The largest size of a coordinate that isn_volume_report takes; beyond it the answer is ISN_REFUSED_OFF_GRID. */
#define ISN_GRID_LIMIT 1024

#ifdef __cplusplus
extern "C" {
#endif

/* What a function returns. */
enum isn_answer {
    ISN_OK = 0,
    ISN_REFUSED_FLAT = 1,
    ISN_REFUSED_OUTSIDE = 2,
    ISN_REFUSED_CORNER = 3,
    ISN_REFUSED_TOLERANCE = 4,
    ISN_REFUSED_COORDINATE = 5,
    ISN_REFUSED_TOO_FAR = 6,
    ISN_REFUSED_LIMIT = 7,
    ISN_REFUSED_LENGTH = 8,
    ISN_REFUSED_RANGE = 9,
    ISN_REFUSED_TWICE = 10,
    ISN_REFUSED_MARK = 11,
    ISN_REFUSED_VERSION = 12,
    ISN_REFUSED_FILE_LENGTH = 13,
    ISN_REFUSED_TWISTED = 14,
    ISN_REFUSED_OFF_GRID = 15
};

/* A returned number in words, never null. docs/REFUSALS.md adds how to mend the input; `make words` holds it and the Rust crate to
 * these words. */
static inline const char *isn_refusal_text(uint32_t number) {
    switch (number) {
    case ISN_OK:
        return "answered";
    case ISN_REFUSED_FLAT:
        return "a determinant is plus or minus zero: the cell is flat where Newton stepped, or the matrix has no inverse";
    case ISN_REFUSED_OUTSIDE:
        return "after 20 Newton steps the place is not inside the cell; a NaN is not inside";
    case ISN_REFUSED_CORNER:
        return "a corner coordinate is NaN, infinite, or not zero and of a size below 2^-100 or above 2^100";
    case ISN_REFUSED_TOLERANCE:
        return "the tolerance is NaN, infinite or below zero; minus zero is good";
    case ISN_REFUSED_COORDINATE:
        return "a coordinate of the proposed place is not in [-1,1], or is NaN";
    case ISN_REFUSED_TOO_FAR:
        return "the image of the place is further from the probe than the tolerance on some axis";
    case ISN_REFUSED_LIMIT:
        return "over a limit: 1,024 nodes, 128 cells, 256 proposals, a path of 20 octants; or not 1 to 16 quadrature points in a list";
    case ISN_REFUSED_LENGTH:
        return "a list is not whole (3 words a node, 8 numbers a cell, 2 floats a line point, 3 a triangle point), or an output is too short";
    case ISN_REFUSED_RANGE:
        return "a number is out of range: a node not below the node count, an octant or corner above 7, "
               "a quadrature point not in its list, a sign index above 255";
    case ISN_REFUSED_TWICE:
        return "a node stands twice in one cell";
    case ISN_REFUSED_MARK:
        return "the file does not begin with HXM";
    case ISN_REFUSED_VERSION:
        return "the file's version is not 1";
    case ISN_REFUSED_FILE_LENGTH:
        return "the file's length is wrong: under 13 bytes, or not 13 + 24 a node + 32 a cell";
    case ISN_REFUSED_TWISTED:
        return "a face is twisted: two faces of the mesh have the same four nodes in different rings";
    case ISN_REFUSED_OFF_GRID:
        return "a node coordinate is not a whole number of size at most 1,024; unused nodes count too";
    default:
        return "no refusal of this version has this number";
    }
}

/* Matrices of nine floats, column by column. */

/* out = the transpose of m. Answers 0. */
uint32_t isn_mat3_transpose(const double m[9], double out[9]);

/* out = a times b. Answers 0. */
uint32_t isn_mat3_mult_vec(const double a[9], const double b[3], double out[3]);

/* out = the determinant of m. Answers 0. */
uint32_t isn_mat3_determinant(const double m[9], double out[1]);

/* out = the inverse of m. Refusal 1: the determinant is plus or minus zero. A NaN or infinite determinant is not refused. */
uint32_t isn_mat3_try_inverse(const double m[9], double out[9]);

/* Hexahedron. A place pco is three coordinates in [-1,1]. */

/* out = the eight shape values at pco. Answers 0. */
uint32_t isn_hex_shapefunc(const double pco[3], double out[8]);

/* out = their slopes, corner by corner, three each. Answers 0. */
uint32_t isn_hex_dndr(const double pco[3], double out[24]);

/* out = the Jacobian of the image at pco, row by row: row i is axis i, column j the coordinate. Answers 0. */
uint32_t isn_hex_dxdr(const double corners[24], const double pco[3], double out[9]);

/* dndx = the shape values' gradients from the slopes, corner by corner; detjac = the Jacobian's determinant. Answers 0:
 * a zero determinant gives what division by zero gives. */
uint32_t isn_hex_grad_shapefunc_from_dndr(const double corners[24], const double dndr[24], double dndx[24], double detjac[1]);

/* shape, dndx and detjac at pco. Answers 0. */
uint32_t isn_hex_dndx(const double corners[24], const double pco[3], double shape[8], double dndx[24], double detjac[1]);

/* The gradients at the place of points i1, i2 and i3 of a list (place, weight: 2 floats a point), and detwei = detjac times their
 * three weights. Refusals: 8 the list is not whole; 7 it has not 1 to 16 points; 9 a point number is out of range. */
uint32_t isn_hex_grad_shapefunc(const double corners[24], const double *points, size_t points_len, uint32_t i1, uint32_t i2,
                                uint32_t i3, double dndx[24], double detwei[1]);

/* out = the volume by the points of the list (place, weight), rounded; isn_volume_report has exact ones. Refusals: 8 the list is not
 * whole; 7 it has not 1 to 16 points. */
uint32_t isn_hex_volume(const double corners[24], const double *points, size_t points_len, double out[1]);

/* at = the place whose image is the origin, by twenty Newton steps. Refusals: 1 a determinant is zero; 2 the origin is outside. */
uint32_t isn_hex_parametric_coord_for_origin(const double corners[24], double at[3]);

/* out = where an iso surface cuts the line between nodes i0 and i1 of a cube, with val0 and val1 there. Refusal 9: a node number
 * above 7. */
uint32_t isn_hex_iso_position_on_edge(const double center[3], double half_width, uint32_t i0, uint32_t i1, double val0, double val1,
                                      double out[3]);

/* index = the sign index of eight values (bit k: value k is below zero); positions = where each of the twelve edges is cut, three
 * floats each, plus infinities for an edge that is not. Answers 0. */
uint32_t isn_hex_iso_edges(const double center[3], double half_width, const double values[8], uint32_t index[1],
                           double positions[36]);

/* mask = the cut edges of a sign index (bit k: edge k is cut). Refusal 9: the index is above 255. */
uint32_t isn_hex_iso_mask(uint32_t index, uint32_t mask[1]);

/* out = the node numbers of the eight children, eight each, from the numbers of the corners, edge middles, face middles and the
 * centre. Answers 0. */
uint32_t isn_hex_subdivide(const uint32_t corner[8], const uint32_t edge[12], const uint32_t quad[6], uint32_t center,
                           uint32_t out[64]);

/* Is the image of the place at, the sum of shape value times corner, within the tolerance of the probe on every axis? Answers 0 where it is.
 * Refusals: 3 a corner coordinate is NaN, infinite, or not zero and of a size below 2^-100 or above 2^100; 4 the tolerance is NaN, infinite or
 * below zero; 5 a coordinate of the place is not in [-1,1]; 6 too far on some axis. With M the largest corner size on an axis and
 * e = 14 M / 2^53: accepted, the exact image is at most tolerance + e from the probe; an exact image at most tolerance - e is accepted. */
uint32_t isn_hex_check(const double corners[24], const double at[3], double tolerance);

/* at = the place that the locator finds, if its image is within the tolerance of the probe. Refusals: 3 and 4 as in isn_hex_check, then 1 or 2
 * as in the locator, then 6 too far. What isn_hex_check says of a place that it accepts holds of at. */
uint32_t isn_hex_locate_checked(const double corners[24], double tolerance, double at[3]);

/* A place in the cell: three coordinates. */
typedef struct isn_point {
    double x, y, z;
} isn_point;

/* A proposed place, and how far its image may be from the probe on each axis. */
typedef struct isn_proposal {
    isn_point at;
    double tolerance;
} isn_proposal;

/* Judges each proposal of a list as isn_hex_check does: out[i] = 0 or the refusal's number of proposal i, and accepted = how many of these are 0.
 * The rest of out keeps what it held. Refusals: 7 over 256 proposals; 8 out is shorter than the list. */
uint32_t isn_hex_check_proposals(const double corners[24], const isn_proposal *list, size_t list_len, uint32_t *out, size_t out_len,
                                 uint32_t accepted[1]);

/* Mesh. A mesh is a count of nodes and a list of cells, eight node numbers each. Buffers of one call do not overlap. */

/* Cuts every cell in eight: out = 64 numbers a cell, eight a child, behind one another in the order of the cells; the rest of out stays as it
 * was. Edge middles, face middles and centres are numbered from n up in the order in which they are first met; an edge or a face that cells share
 * has one number. Two faces are one where their rings, the four nodes as they run round the face, agree up to where they start and which way they
 * turn. next = the next free number. Refusals: 7 n is above 1,024, or the list holds more than 1,024 numbers; 8 the list is not whole cells, or out
 * is shorter than 64 a cell; then cell by cell 9 a node number is not below n, 10 a node stands twice in one cell; and where every cell has passed,
 * 14 two faces of the mesh have the same four nodes in different rings. */
uint32_t isn_refine(uint32_t n, const uint32_t *cells, size_t cells_len, uint32_t *out, size_t out_len, uint32_t next[1]);

/* out = the place of a corner of the descendant that a path of octants leads to, in units of 2^-path_len, where the first cell is [-1,1] on each
 * axis. Refusals: 7 more than 20 octants; 9 an octant or the corner is above 7. */
uint32_t isn_descendant(const uint32_t *path, size_t path_len, uint32_t corner, int32_t out[3]);

/* Reads a mesh file, HXM version 1: nodes = the bit patterns of three doubles a node, cells = eight numbers a cell, counts = how many nodes and
 * cells; the rest of both lists stays as it was. Refusals: 13 under 13 bytes; 11 the mark is not HXM; 12 the version is not 1; 7 more than 1,024
 * nodes or 128 cells; 13 the length is not what the counts say; then cell by cell 9 and 10 as in isn_refine; 8 a lent list is too short. */
uint32_t isn_hxm_read(const uint8_t *bytes, size_t bytes_len, uint64_t *nodes, size_t nodes_len, uint32_t *cells, size_t cells_len,
                      uint32_t counts[2]);

/* Writes a mesh file, HXM version 1: out = the file of the nodes, the bit patterns of three doubles each, and of the cells, eight numbers each;
 * length = its length in bytes; the rest of out stays as it was. The lists own the counts, and nobody states one: there are n = nodes_len / 3 nodes
 * and c = cells_len / 8 cells, and the file has 13 + 24 n + 32 c bytes. From it isn_hxm_read gives both lists back, each float by its bits.
 * Refusals: 7 the node list holds more than 3,072 words, or the cell list more than 1,024 numbers; 8 the node list is not whole nodes, or the cell
 * list not whole cells; then cell by cell 9 a node number is not below n, 10 a node stands twice in one cell; 8 out is shorter than the file. */
uint32_t isn_hxm_write(const uint64_t *nodes, size_t nodes_len, const uint32_t *cells, size_t cells_len, uint8_t *out, size_t out_len,
                       uint32_t length[1]);

/* Reports the exact volumes of a mesh file, HXM version 1, with every node on the grid: volumes = for each cell 216 times its signed volume, which is
 * the integral over the unit cube of the Jacobian's determinant of the trilinear map through the cell's corners, and 216 times it is a whole number;
 * total = their sum; counts = the number of cells, and the first cell, from 0, whose volume is not above zero, or the number of cells where there is
 * none; the rest of volumes stays as it was. Minus zero counts as 0, and faces are not looked at. Refusals: those of isn_hxm_read but its 8, in its
 * order; 15 a coordinate of some node, used or not, is not a whole number of size at most 1,024; 8 volumes holds fewer numbers than there are cells. */
uint32_t isn_volume_report(const uint8_t *bytes, size_t bytes_len, int64_t *volumes, size_t volumes_len, int64_t total[1], uint32_t counts[2]);

/* Prism. A place is r >= 0, s >= 0, r + s <= 1 in the triangle, t in [0,1] upward. */

/* out = the six shape values at pco. Answers 0. */
uint32_t isn_prism_shapefunc(const double pco[3], double out[6]);

/* out = their slopes, corner by corner, three each. Answers 0. */
uint32_t isn_prism_dndr(const double pco[3], double out[18]);

/* out = the Jacobian of the image at pco, row by row. Answers 0. */
uint32_t isn_prism_dxdr(const double corners[18], const double pco[3], double out[9]);

/* out = the volume by line points (place, weight: 2 floats each) and triangle points (r, s, weight: 3 floats each). Refusals: 8 the
 * line list, then the triangle list, is not whole; 7 the line list, then the triangle list, has not 1 to 16 points. */
uint32_t isn_prism_volume(const double corners[18], const double *line, size_t line_len, const double *triangle,
                          size_t triangle_len, double out[1]);

/* at = the place whose image is the origin, by twenty Newton steps. Refusals: 1 a determinant is zero; 2 the origin is outside. */
uint32_t isn_prism_parametric_coord_for_origin(const double corners[18], double at[3]);

/* out = the node numbers of the eight children, six each, from the numbers of the corners, edge middles and the middles of the
 * three quadrilateral faces (0,3,4,1), (1,4,5,2), (2,5,3,0). Answers 0. */
uint32_t isn_prism_subdivide(const uint32_t corner[6], const uint32_t edge[9], const uint32_t quad[3], uint32_t out[48]);

#ifdef __cplusplus
}
#endif

#endif
