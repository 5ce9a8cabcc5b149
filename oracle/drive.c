/* Compares the archive with another program, whose cases and answers come on standard input: the original Rust's for the carried
 * functions (cases/src/bin/stream.rs), the second program's for the additions (second/second.py).
 *
 * Each case is one call of a C function with every buffer between guards. What all memory has to be afterwards is built beside it:
 * inputs as they were, outputs as the answer has them or untouched, marks everywhere else. Then both are compared, byte by byte,
 * with all NaNs as one value. A case with an empty list is called twice, the second time with null pointers.
 *
 * What the archive writes as a file it reads again, and what it reads it writes again: a circle that does not close is a difference.
 *
 * Exit status: 0, 1 when there is a difference, 2 when the stream is broken.
 */
#include <stdarg.h>
#include <stdio.h>
#include <stdlib.h>
#include <string.h>

#include "isnemgul.h"

static void broken(const char *why) {
    fprintf(stderr, "drive: the stream is broken: %s\n", why);
    exit(2);
}

static void *bytes_of(size_t size) {
    void *p = malloc(size ? size : 1);
    if (!p)
        broken("out of memory");
    return p;
}

/* ---- one record of the stream ---- */

static unsigned char *record;
static size_t record_room;
static const unsigned char *at, *end;

static const unsigned char *take(size_t size) {
    const unsigned char *p = at;
    if ((size_t)(end - at) < size)
        broken("a record is too short");
    at += size;
    return p;
}

static uint64_t little(const unsigned char *p, size_t width) {
    uint64_t v = 0;
    while (width-- > 0)
        v = v << 8 | p[width];
    return v;
}

static uint32_t take32(void) {
    return (uint32_t)little(take(4), 4);
}

static void take_words32(void *to, size_t count) {
    const unsigned char *p = take(4 * count);
    for (size_t i = 0; i < count; i++) {
        uint32_t v = (uint32_t)little(p + 4 * i, 4);
        memcpy((unsigned char *)to + 4 * i, &v, 4);
    }
}

/* Bit patterns and floats alike. */
static void take_words64(void *to, size_t count) {
    const unsigned char *p = take(8 * count);
    for (size_t i = 0; i < count; i++) {
        uint64_t v = little(p + 8 * i, 8);
        memcpy((unsigned char *)to + 8 * i, &v, 8);
    }
}

static double take_float(void) {
    double v;
    take_words64(&v, 1);
    return v;
}

/* A number of 32 bits in a word of 64. */
static uint32_t take_number(void) {
    uint64_t word = little(take(8), 8);
    if (word > UINT32_MAX)
        broken("a number has more than 32 bits");
    return (uint32_t)word;
}

static void take_numbers(void *to, size_t count) {
    for (size_t i = 0; i < count; i++) {
        uint32_t v = take_number();
        memcpy((unsigned char *)to + 4 * i, &v, 4);
    }
}

static int read_all(unsigned char *to, size_t size) {
    return fread(to, 1, size, stdin) == size;
}

/* ---- buffers ---- */

enum { GUARD = 64, BUFFERS = 8, MARKS = 1 << 16 };

struct buffer {
    const char *name;
    size_t width, count;        /* of its elements */
    size_t start, whole, room;  /* guards and elements; what is allocated */
    unsigned char *is, *has_to; /* the memory, and what it has to be after the call */
    int result;                 /* a carried function's output */
};

static struct buffer buffers[BUFFERS];
static size_t used;
static unsigned char marks[MARKS];
static unsigned long calls; /* moves the buffers about within their alignment */

static void make_marks(void) {
    uint32_t x = 2463534242u;
    for (size_t i = 0; i < MARKS; i++) {
        x ^= x << 13, x ^= x >> 17, x ^= x << 5;
        marks[i] = (unsigned char)(x >> 24);
    }
}

/* A buffer of marks, aligned for its elements. */
static void *lend(const char *name, size_t width, size_t count) {
    struct buffer *b = &buffers[used++];
    b->name = name, b->width = width, b->count = count, b->result = 0;
    b->start = GUARD + width * (calls % (16 / width));
    b->whole = b->start + width * count + GUARD;
    if (b->room < b->whole) {
        free(b->is), free(b->has_to);
        b->room = 2 * b->whole;
        b->is = bytes_of(b->room), b->has_to = bytes_of(b->room);
    }
    for (size_t i = 0; i < b->whole; i += MARKS)
        memcpy(b->is + i, marks, b->whole - i < MARKS ? b->whole - i : MARKS);
    return b->is + b->start;
}

/* The memory has to stay as it is now, except where an output is put. */
static void settle(void) {
    for (size_t i = 0; i < used; i++)
        memcpy(buffers[i].has_to, buffers[i].is, buffers[i].whole);
}

static void *has_to(size_t buffer) {
    return buffers[buffer].has_to + buffers[buffer].start;
}

/* ---- the counts of a function ---- */

enum { FUNCTIONS = 30, NUMBERS = 16, SHOWN = 3 };
enum { MUST_ACCEPT = 1, MUST_REFUSE = 2, EITHER = 3 };

static struct function {
    const char *name;
    unsigned long cases, differences, contradictions, refused[NUMBERS], demands[4];
    unsigned long closed, open; /* circles */
} functions[FUNCTIONS + 1] = {
    {.name = "the end"},
    {.name = "isn_mat3_transpose"},
    {.name = "isn_mat3_mult_vec"},
    {.name = "isn_mat3_determinant"},
    {.name = "isn_mat3_try_inverse"},
    {.name = "isn_hex_shapefunc"},
    {.name = "isn_hex_dndr"},
    {.name = "isn_hex_dxdr"},
    {.name = "isn_hex_grad_shapefunc_from_dndr"},
    {.name = "isn_hex_dndx"},
    {.name = "isn_hex_grad_shapefunc"},
    {.name = "isn_hex_volume"},
    {.name = "isn_hex_parametric_coord_for_origin"},
    {.name = "isn_hex_iso_position_on_edge"},
    {.name = "isn_hex_iso_edges"},
    {.name = "isn_hex_iso_mask"},
    {.name = "isn_hex_subdivide"},
    {.name = "isn_prism_shapefunc"},
    {.name = "isn_prism_dndr"},
    {.name = "isn_prism_dxdr"},
    {.name = "isn_prism_volume"},
    {.name = "isn_prism_parametric_coord_for_origin"},
    {.name = "isn_prism_subdivide"},
    {.name = "isn_hex_check"},
    {.name = "isn_hex_locate_checked"},
    {.name = "isn_hex_check_proposals"},
    {.name = "isn_refine"},
    {.name = "isn_descendant"},
    {.name = "isn_hxm_read"},
    {.name = "isn_hxm_write"},
    {.name = "isn_volume_report"},
};

static void say(const struct function *f, const char *form, ...) {
    va_list rest;
    if (f->differences >= SHOWN)
        return;
    va_start(rest, form);
    printf("%s case %lu: ", f->name, f->cases);
    vprintf(form, rest);
    printf("\n");
    va_end(rest);
}

/* What stands at an element, or the bytes of a guard. */
static void say_memory(const struct function *f, const struct buffer *b) {
    size_t i = 0;
    while (b->is[i] == b->has_to[i])
        i++;
    if (i < b->start) {
        say(f, "%s: the guard before it is written, %lu bytes before", b->name, (unsigned long)(b->start - i));
    } else if (i >= b->start + b->width * b->count) {
        say(f, "%s: the guard behind it is written, byte %lu", b->name, (unsigned long)(i - b->start - b->width * b->count));
    } else {
        size_t element = (i - b->start) / b->width;
        uint64_t is = little(b->is + b->start + element * b->width, b->width);
        uint64_t want = little(b->has_to + b->start + element * b->width, b->width);
        say(f, "%s[%lu]: %llx, has to be %llx", b->name, (unsigned long)element, (unsigned long long)is, (unsigned long long)want);
    }
}

/* Compares a call; 1 for a difference. */
static int compare(const struct function *f, uint32_t answered, uint32_t number) {
    int differs = 0;
    if (answered != number) {
        say(f, "answers %lu, has to answer %lu", (unsigned long)answered, (unsigned long)number);
        differs = 1;
    }
    for (size_t i = 0; i < used; i++) {
        if (memcmp(buffers[i].is, buffers[i].has_to, buffers[i].whole) != 0) {
            say_memory(f, &buffers[i]);
            differs = 1;
        }
    }
    return differs;
}

/* ---- the calls: each reads its record and calls; `null` gives empty lists as null pointers ---- */

static int has_empty_list;

static void *list(void *p, size_t count, int null) {
    if (count == 0)
        has_empty_list = 1;
    return null && count == 0 ? NULL : p;
}

/* ---- the carried functions: inputs and outputs in the order of the C arguments, each a word of 64 bits ---- */

static double *floats(const char *name, size_t count) {
    double *p = lend(name, 8, count);
    take_words64(p, count);
    return p;
}

static uint32_t *numbers(const char *name, size_t count) {
    uint32_t *p = lend(name, 4, count);
    take_numbers(p, count);
    return p;
}

static void *result(const char *name, size_t width, size_t count) {
    void *p = lend(name, width, count);
    buffers[used - 1].result = 1;
    return p;
}

static uint32_t call_hex_grad_shapefunc(int null) {
    double *corners = floats("corners", 24);
    size_t length = take_number();
    double *points = floats("points", length);
    uint32_t i1 = take_number(), i2 = take_number(), i3 = take_number();
    double *dndx = result("dndx", 8, 24), *detwei = result("detwei", 8, 1);
    settle();
    return isn_hex_grad_shapefunc(corners, list(points, length, null), length, i1, i2, i3, dndx, detwei);
}

static uint32_t call_hex_volume(int null) {
    double *corners = floats("corners", 24);
    size_t length = take_number();
    double *points = floats("points", length);
    double *out = result("out", 8, 1);
    settle();
    return isn_hex_volume(corners, list(points, length, null), length, out);
}

static uint32_t call_prism_volume(int null) {
    double *corners = floats("corners", 18), *line, *triangle;
    size_t line_length, triangle_length;
    double *out;
    line_length = take_number(), line = floats("line", line_length);
    triangle_length = take_number(), triangle = floats("triangle", triangle_length);
    out = result("out", 8, 1);
    settle();
    return isn_prism_volume(corners, list(line, line_length, null), line_length, list(triangle, triangle_length, null),
                            triangle_length, out);
}

static uint32_t call_hex_iso_position_on_edge(void) {
    double *center = floats("center", 3);
    double half_width = take_float(), val0, val1, *out;
    uint32_t i0 = take_number(), i1 = take_number();
    val0 = take_float(), val1 = take_float();
    out = result("out", 8, 3);
    settle();
    return isn_hex_iso_position_on_edge(center, half_width, i0, i1, val0, val1, out);
}

static uint32_t call_hex_iso_edges(void) {
    double *center = floats("center", 3), *values;
    double half_width = take_float(), *positions;
    uint32_t *index;
    values = floats("values", 8);
    index = result("index", 4, 1), positions = result("positions", 8, 36);
    settle();
    return isn_hex_iso_edges(center, half_width, values, index, positions);
}

static uint32_t call_hex_iso_mask(void) {
    uint32_t index = take_number(), *mask = result("mask", 4, 1);
    settle();
    return isn_hex_iso_mask(index, mask);
}

static uint32_t call_hex_subdivide(void) {
    uint32_t *corner = numbers("corner", 8), *edge = numbers("edge", 12), *quad = numbers("quad", 6);
    uint32_t center = take_number(), *out = result("out", 4, 64);
    settle();
    return isn_hex_subdivide(corner, edge, quad, center, out);
}

static uint32_t call_prism_subdivide(void) {
    uint32_t *corner = numbers("corner", 6), *edge = numbers("edge", 9), *quad = numbers("quad", 3);
    uint32_t *out = result("out", 4, 48);
    settle();
    return isn_prism_subdivide(corner, edge, quad, out);
}

/* The names of a function's arguments do not matter where all are arrays of floats: inputs a and b, outputs x, y and z. */
static uint32_t call_carried(int function, int null) {
    double *a, *b, *x, *y, *z;
    switch (function) {
    case 1:
        a = floats("m", 9), x = result("out", 8, 9);
        return settle(), isn_mat3_transpose(a, x);
    case 2:
        a = floats("a", 9), b = floats("b", 3), x = result("out", 8, 3);
        return settle(), isn_mat3_mult_vec(a, b, x);
    case 3:
        a = floats("m", 9), x = result("out", 8, 1);
        return settle(), isn_mat3_determinant(a, x);
    case 4:
        a = floats("m", 9), x = result("out", 8, 9);
        return settle(), isn_mat3_try_inverse(a, x);
    case 5:
        a = floats("pco", 3), x = result("out", 8, 8);
        return settle(), isn_hex_shapefunc(a, x);
    case 6:
        a = floats("pco", 3), x = result("out", 8, 24);
        return settle(), isn_hex_dndr(a, x);
    case 7:
        a = floats("corners", 24), b = floats("pco", 3), x = result("out", 8, 9);
        return settle(), isn_hex_dxdr(a, b, x);
    case 8:
        a = floats("corners", 24), b = floats("dndr", 24), x = result("dndx", 8, 24), y = result("detjac", 8, 1);
        return settle(), isn_hex_grad_shapefunc_from_dndr(a, b, x, y);
    case 9:
        a = floats("corners", 24), b = floats("pco", 3);
        x = result("shape", 8, 8), y = result("dndx", 8, 24), z = result("detjac", 8, 1);
        return settle(), isn_hex_dndx(a, b, x, y, z);
    case 10:
        return call_hex_grad_shapefunc(null);
    case 11:
        return call_hex_volume(null);
    case 12:
        a = floats("corners", 24), x = result("at", 8, 3);
        return settle(), isn_hex_parametric_coord_for_origin(a, x);
    case 13:
        return call_hex_iso_position_on_edge();
    case 14:
        return call_hex_iso_edges();
    case 15:
        return call_hex_iso_mask();
    case 16:
        return call_hex_subdivide();
    case 17:
        a = floats("pco", 3), x = result("out", 8, 6);
        return settle(), isn_prism_shapefunc(a, x);
    case 18:
        a = floats("pco", 3), x = result("out", 8, 18);
        return settle(), isn_prism_dndr(a, x);
    case 19:
        a = floats("corners", 18), b = floats("pco", 3), x = result("out", 8, 9);
        return settle(), isn_prism_dxdr(a, b, x);
    case 20:
        return call_prism_volume(null);
    case 21:
        a = floats("corners", 18), x = result("at", 8, 3);
        return settle(), isn_prism_parametric_coord_for_origin(a, x);
    default:
        return call_prism_subdivide();
    }
}

static int is_nan(uint64_t word) {
    return word << 1 > 0xffe0000000000000u;
}

/* What the outputs have to be: the record's words, and any NaN for a NaN. */
static void expect_results(void) {
    for (size_t i = 0; i < used; i++) {
        const struct buffer *b = &buffers[i];
        if (b->result && b->width == 4)
            take_numbers(has_to(i), b->count);
        for (size_t k = 0; b->result && b->width == 8 && k < b->count; k++) {
            uint64_t is, want = little(take(8), 8);
            memcpy(&is, b->is + b->start + 8 * k, 8);
            if (is_nan(is) && is_nan(want))
                want = is;
            memcpy(b->has_to + b->start + 8 * k, &want, 8);
        }
    }
}

/* ---- the additions ---- */

static int call_check(const struct function *f, uint32_t number, uint32_t *answered) {
    double *corners = lend("corners", 8, 24), *place = lend("at", 8, 3), tolerance;
    take_words64(corners, 24);
    take_words64(place, 3);
    tolerance = take_float();
    settle();
    *answered = isn_hex_check(corners, place, tolerance);
    return compare(f, *answered, number);
}

static int call_locate_checked(const struct function *f, uint32_t number, uint32_t *answered) {
    double *corners = lend("corners", 8, 24), *place = lend("at", 8, 3), tolerance;
    take_words64(corners, 24);
    tolerance = take_float();
    settle();
    *answered = isn_hex_locate_checked(corners, tolerance, place);
    if (number == 0)
        take_words64(has_to(1), 3);
    return compare(f, *answered, number);
}

static int call_check_proposals(const struct function *f, uint32_t number, uint32_t *answered, int null) {
    double *corners = lend("corners", 8, 24);
    isn_proposal *proposals;
    uint32_t *out, *accepted;
    size_t count, room;
    take_words64(corners, 24);
    count = take32(), room = take32();
    proposals = lend("list", 8, 4 * count);
    out = lend("out", 4, room);
    accepted = lend("accepted", 4, 1);
    take_words64(proposals, 4 * count);
    settle();
    *answered = isn_hex_check_proposals(corners, list(proposals, count, null), count, list(out, room, null), room, accepted);
    if (number == 0) {
        take_words32(has_to(3), 1);
        take_words32(has_to(2), count);
    }
    return compare(f, *answered, number);
}

static int call_refine(const struct function *f, uint32_t number, uint32_t *answered, int null) {
    uint32_t n = take32(), *cells, *out, *next;
    size_t count = take32(), room = take32();
    cells = lend("cells", 4, count);
    out = lend("out", 4, room);
    next = lend("next", 4, 1);
    take_words32(cells, count);
    settle();
    *answered = isn_refine(n, list(cells, count, null), count, list(out, room, null), room, next);
    if (number == 0) {
        take_words32(has_to(2), 1);
        take_words32(has_to(1), 8 * count);
    }
    return compare(f, *answered, number);
}

static int call_descendant(const struct function *f, uint32_t number, uint32_t *answered, int null) {
    size_t depth = take32();
    uint32_t corner = take32(), *path = lend("path", 4, depth);
    int32_t *out = lend("out", 4, 3);
    take_words32(path, depth);
    settle();
    *answered = isn_descendant(list(path, depth, null), depth, corner, out);
    if (number == 0)
        take_words32(has_to(1), 3);
    return compare(f, *answered, number);
}

/* Whether the circles of a case have closed, with pointers and with null ones. */
enum { CLOSED = 1, OPEN = 2 };
static int circles;

static int circle(int differs) {
    circles |= differs ? OPEN : CLOSED;
    return differs;
}

/* What the archive has read it writes again, from lists of just that length, as the same bytes. The reader's buffers are 0 to 3. */
static int write_again(const struct function *f, const uint8_t *bytes, size_t size, const uint64_t *nodes, const uint32_t *cells,
                       const uint32_t *counts, int null) {
    size_t words = 3 * (size_t)counts[0], count = 8 * (size_t)counts[1];
    uint64_t *nodes_again;
    uint32_t *cells_again, *length, want = (uint32_t)size, answered;
    uint8_t *out;
    if (words > buffers[1].count || count > buffers[2].count) {
        say(f, "counts %lu nodes and %lu cells, more than its lists hold", (unsigned long)counts[0], (unsigned long)counts[1]);
        return circle(1);
    }
    nodes_again = lend("nodes to write again", 8, words);
    cells_again = lend("cells to write again", 4, count);
    out = lend("bytes written again", 1, size);
    length = lend("length written again", 4, 1);
    memcpy(nodes_again, nodes, 8 * words);
    memcpy(cells_again, cells, 4 * count);
    settle();
    answered = isn_hxm_write(list(nodes_again, words, null), words, list(cells_again, count, null), count,
                             list(out, size, null), size, length);
    if (answered != 0) {
        say(f, "isn_hxm_write answers %lu to what is read", (unsigned long)answered);
        return circle(1);
    }
    memcpy(has_to(6), bytes, size);
    memcpy(has_to(7), &want, sizeof want);
    return circle(compare(f, 0, 0));
}

static int call_hxm_read(const struct function *f, uint32_t number, uint32_t *answered, int null) {
    size_t length = take32(), node_room = take32(), cell_room = take32();
    uint8_t *bytes = lend("bytes", 1, length);
    uint64_t *nodes = lend("nodes", 8, node_room);
    uint32_t *cells = lend("cells", 4, cell_room), *counts = lend("counts", 4, 2);
    int differs;
    if (length != 0)
        memcpy(bytes, take(length), length);
    settle();
    *answered = isn_hxm_read(list(bytes, length, null), length, list(nodes, node_room, null), node_room,
                             list(cells, cell_room, null), cell_room, counts);
    if (number == 0) {
        uint32_t had[2];
        take_words32(had, 2);
        memcpy(has_to(3), had, sizeof had);
        if (3 * (size_t)had[0] > node_room || 8 * (size_t)had[1] > cell_room)
            broken("an answer that does not fit");
        take_words64(has_to(1), 3 * (size_t)had[0]);
        take_words32(has_to(2), 8 * (size_t)had[1]);
    }
    differs = compare(f, *answered, number);
    if (*answered == 0)
        differs |= write_again(f, bytes, length, nodes, cells, counts, null);
    return differs;
}

/* What the archive has written it reads again, into lists of just that length, as the same lists. The writer's buffers are 0 to 3. */
static int read_again(const struct function *f, const uint64_t *nodes, size_t words, const uint32_t *cells, size_t count,
                      const uint8_t *out, size_t length, int null) {
    uint8_t *bytes;
    uint64_t *nodes_again;
    uint32_t *cells_again, *counts, want[2] = {(uint32_t)(words / 3), (uint32_t)(count / 8)}, answered;
    if (length > buffers[2].count) {
        say(f, "tells the length %lu, more than its buffer holds", (unsigned long)length);
        return circle(1);
    }
    bytes = lend("bytes to read again", 1, length);
    nodes_again = lend("nodes read again", 8, words);
    cells_again = lend("cells read again", 4, count);
    counts = lend("counts read again", 4, 2);
    memcpy(bytes, out, length);
    settle();
    answered = isn_hxm_read(list(bytes, length, null), length, list(nodes_again, words, null), words,
                            list(cells_again, count, null), count, counts);
    if (answered != 0) {
        say(f, "isn_hxm_read answers %lu to what is written", (unsigned long)answered);
        return circle(1);
    }
    memcpy(has_to(5), nodes, 8 * words);
    memcpy(has_to(6), cells, 4 * count);
    memcpy(has_to(7), want, sizeof want);
    return circle(compare(f, 0, 0));
}

static int call_hxm_write(const struct function *f, uint32_t number, uint32_t *answered, int null) {
    size_t words = take32(), count = take32(), room = take32();
    uint64_t *nodes = lend("nodes", 8, words);
    uint32_t *cells = lend("cells", 4, count), *length;
    uint8_t *out = lend("out", 1, room);
    int differs;
    length = lend("length", 4, 1);
    take_words64(nodes, words);
    take_words32(cells, count);
    settle();
    *answered = isn_hxm_write(list(nodes, words, null), words, list(cells, count, null), count, list(out, room, null), room, length);
    if (number == 0) {
        uint32_t had = take32();
        if (had > room)
            broken("an answer that does not fit");
        memcpy(has_to(3), &had, sizeof had);
        memcpy(has_to(2), take(had), had);
    }
    differs = compare(f, *answered, number);
    if (*answered == 0)
        differs |= read_again(f, nodes, words, cells, count, out, *length, null);
    return differs;
}

static int call_volume_report(const struct function *f, uint32_t number, uint32_t *answered, int null) {
    size_t length = take32(), room = take32();
    uint8_t *bytes = lend("bytes", 1, length);
    int64_t *volumes = lend("volumes", 8, room), *total = lend("total", 8, 1);
    uint32_t *counts = lend("counts", 4, 2);
    if (length != 0)
        memcpy(bytes, take(length), length);
    settle();
    *answered = isn_volume_report(list(bytes, length, null), length, list(volumes, room, null), room, total, counts);
    if (number == 0) {
        uint32_t had[2];
        take_words64(has_to(2), 1);
        take_words32(had, 2);
        memcpy(has_to(3), had, sizeof had);
        if (had[0] > room)
            broken("an answer that does not fit");
        take_words64(has_to(1), had[0]);
    }
    return compare(f, *answered, number);
}

static int call(int function, uint32_t number, uint32_t *answered, int null) {
    const struct function *f = &functions[function];
    used = 0;
    calls++;
    switch (function) {
    case 23:
        return call_check(f, number, answered);
    case 24:
        return call_locate_checked(f, number, answered);
    case 25:
        return call_check_proposals(f, number, answered, null);
    case 26:
        return call_refine(f, number, answered, null);
    case 27:
        return call_descendant(f, number, answered, null);
    case 28:
        return call_hxm_read(f, number, answered, null);
    case 29:
        return call_hxm_write(f, number, answered, null);
    case 30:
        return call_volume_report(f, number, answered, null);
    default:
        *answered = call_carried(function, null);
        if (number == 0)
            expect_results();
        return compare(f, *answered, number);
    }
}

/* One case: number is the expected answer, demand what demand 3 says of it. */
static void run(int function, uint32_t number, int demand, size_t length) {
    struct function *f = &functions[function];
    uint32_t answered = 0;
    int differs;
    at = record, end = record + length;
    has_empty_list = 0;
    circles = 0;
    differs = call(function, number, &answered, 0);
    if (at != end)
        broken("a record is too long");
    if (has_empty_list) {
        at = record;
        differs |= call(function, number, &answered, 1);
    }
    f->closed += circles == CLOSED;
    f->open += circles >= OPEN;
    f->demands[demand]++;
    if ((demand == MUST_ACCEPT && answered == 6) || (demand == MUST_REFUSE && answered == 0)) {
        say(f, "answers %lu against demand 3", (unsigned long)answered);
        f->contradictions++;
        differs = 1;
    }
    f->refused[number]++;
    f->differences += (unsigned long)differs;
    f->cases++;
}

static unsigned long report(void) {
    unsigned long cases = 0, differences = 0;
    for (int i = 1; i <= FUNCTIONS; i++) {
        const struct function *f = &functions[i];
        if (f->cases == 0)
            continue;
        printf("%-38s %8lu cases, answered %lu, refused", f->name, f->cases, f->refused[0]);
        for (int number = 1; number < NUMBERS; number++)
            if (f->refused[number] != 0)
                printf(" %d: %lu", number, f->refused[number]);
        printf(", %lu differences\n", f->differences);
        if (f->demands[MUST_ACCEPT] + f->demands[MUST_REFUSE] + f->demands[EITHER] != 0)
            printf("%-38s demand 3: must accept %lu, must refuse %lu, either %lu, %lu contradictions\n", "", f->demands[MUST_ACCEPT],
                   f->demands[MUST_REFUSE], f->demands[EITHER], f->contradictions);
        if (f->closed + f->open != 0)
            printf("%-38s circles: %lu closed, %lu open\n", "", f->closed, f->open);
        cases += f->cases, differences += f->differences;
    }
    printf("total %lu cases, %lu differences\n", cases, differences);
    return differences;
}

int main(void) {
    unsigned char head[8];
    uint64_t records = 0;
    make_marks();
    if (!read_all(head, 8) || memcmp(head, "ISN2ND1\n", 8) != 0)
        broken("it does not begin as one");
    for (;;) {
        size_t length;
        if (!read_all(head, 8))
            broken("it ends early");
        length = (size_t)little(head + 4, 4);
        if (record_room < length) {
            free(record);
            record_room = 2 * length;
            record = bytes_of(record_room);
        }
        if (!read_all(record, length))
            broken("it ends early");
        if (head[0] == 0)
            break;
        if (head[0] > FUNCTIONS || head[1] >= NUMBERS || head[2] > EITHER)
            broken("an unknown record");
        run(head[0], head[1], head[2], length);
        records++;
    }
    if (little(record, 8) != records || getchar() != EOF)
        broken("the number of records is another");
    if (records == 0)
        broken("there is no case in it");
    return report() != 0;
}
