"""What each addition answers, from documents 01 and 02: the reference that the archive is compared with.

A function gives (number, outputs): 0 and what a success writes, or the refusal's number and None.
Python's floats are binary64 and each operation below is one IEEE operation, in the order of hex.rs
and mat3_col_major.rs.
"""

import struct
from functools import cached_property, lru_cache

INFINITY = float("inf")
LARGEST_FINITE = float.fromhex("0x1.fffffffffffffp+1023")
SMALLEST_CORNER = 2.0**-100
LARGEST_CORNER = 2.0**100

HEX_SIGN = [(-1, -1, -1), (1, -1, -1), (1, 1, -1), (-1, 1, -1), (-1, -1, 1), (1, -1, 1), (1, 1, 1), (-1, 1, 1)]
EDGE2NODE = [(0, 1), (1, 2), (2, 3), (3, 0), (4, 5), (5, 6), (6, 7), (7, 4), (0, 4), (1, 5), (2, 6), (3, 7)]
IDX2NODE = [0, 3, 2, 1, 0, 1, 5, 4, 1, 2, 6, 5, 2, 3, 7, 6, 3, 0, 4, 7, 4, 5, 6, 7]
FACE2NODE = [tuple(IDX2NODE[4 * f : 4 * f + 4]) for f in range(6)]

MOST_NODES, MOST_CELLS, MOST_PROPOSALS, DEEPEST = 1024, 128, 256, 20
MOST_COORDINATES, MOST_CELL_NUMBERS = 3072, 1024  # document 02, 1/12
MOST_GRID = 1024  # document 02, 3/12

# Demand 3 on a case that passes 3, 4 and 5.
NO_DEMAND, MUST_ACCEPT, MUST_REFUSE, EITHER = 0, 1, 2, 3


# ---- the float functions of the source ----


def div(a, b):
    """a / b, where Python would raise for a zero divisor."""
    if b == 0.0:
        if a == 0.0 or a != a:
            return float("nan")
        negative = struct.pack(">d", a)[0] >> 7 ^ struct.pack(">d", b)[0] >> 7
        return -INFINITY if negative else INFINITY
    return a / b


def shapefunc(r0, r1, r2):
    a0, a1, a2 = 1.0 - r0, 1.0 - r1, 1.0 - r2
    b0, b1, b2 = 1.0 + r0, 1.0 + r1, 1.0 + r2
    return (
        0.125 * a0 * a1 * a2,
        0.125 * b0 * a1 * a2,
        0.125 * b0 * b1 * a2,
        0.125 * a0 * b1 * a2,
        0.125 * a0 * a1 * b2,
        0.125 * b0 * a1 * b2,
        0.125 * b0 * b1 * b2,
        0.125 * a0 * b1 * b2,
    )


def dndr(r0, r1, r2):
    """The slopes along r0, along r1 and along r2, eight each."""
    a0, a1, a2 = 1.0 - r0, 1.0 - r1, 1.0 - r2
    b0, b1, b2 = 1.0 + r0, 1.0 + r1, 1.0 + r2
    n, p = -0.125, 0.125
    return (
        (n * a1 * a2, p * a1 * a2, p * b1 * a2, n * b1 * a2, n * a1 * b2, p * a1 * b2, p * b1 * b2, n * b1 * b2),
        (n * a0 * a2, n * b0 * a2, p * b0 * a2, p * a0 * a2, n * a0 * b2, n * b0 * b2, p * b0 * b2, p * a0 * b2),
        (n * a0 * a1, n * b0 * a1, n * b0 * b1, n * a0 * b1, p * a0 * a1, p * b0 * a1, p * b0 * b1, p * a0 * b1),
    )


def image_on(n, p):
    """Eight products, added in node order."""
    return (
        n[0] * p[0] + n[1] * p[1] + n[2] * p[2] + n[3] * p[3]
        + n[4] * p[4] + n[5] * p[5] + n[6] * p[6] + n[7] * p[7]
    )


def slope_on(p, d):
    """One entry of dxdr: from plus zero, eight products are added."""
    return (
        0.0 + p[0] * d[0] + p[1] * d[1] + p[2] * d[2] + p[3] * d[3]
        + p[4] * d[4] + p[5] * d[5] + p[6] * d[6] + p[7] * d[7]
    )


def transpose(m):
    return (m[0], m[3], m[6], m[1], m[4], m[7], m[2], m[5], m[8])


def mult_vec(a, b):
    return (
        a[0] * b[0] + a[3] * b[1] + a[6] * b[2],
        a[1] * b[0] + a[4] * b[1] + a[7] * b[2],
        a[2] * b[0] + a[5] * b[1] + a[8] * b[2],
    )


def try_inverse(b):
    b0, b1, b2, b3, b4, b5, b6, b7, b8 = b
    det = b0 * b4 * b8 + b3 * b7 * b2 + b6 * b1 * b5 - b0 * b7 * b5 - b6 * b4 * b2 - b3 * b1 * b8
    if det == 0.0:
        return None
    inv = div(1.0, det)
    return (
        inv * (b4 * b8 - b5 * b7),
        inv * (b2 * b7 - b1 * b8),
        inv * (b1 * b5 - b2 * b4),
        inv * (b5 * b6 - b3 * b8),
        inv * (b0 * b8 - b2 * b6),
        inv * (b2 * b3 - b0 * b5),
        inv * (b3 * b7 - b4 * b6),
        inv * (b1 * b6 - b0 * b7),
        inv * (b0 * b4 - b1 * b3),
    )


def newton(x, y, z):
    """(0, place), or (1, None) for a zero determinant, or (2, None) when the last place is not inside."""
    r0 = r1 = r2 = 0.0
    for _ in range(20):
        n = shapefunc(r0, r1, r2)
        position = (image_on(n, x), image_on(n, y), image_on(n, z))
        d0, d1, d2 = dndr(r0, r1, r2)
        rows = (
            slope_on(x, d0), slope_on(x, d1), slope_on(x, d2),
            slope_on(y, d0), slope_on(y, d1), slope_on(y, d2),
            slope_on(z, d0), slope_on(z, d1), slope_on(z, d2),
        )
        inverse = try_inverse(transpose(rows))
        if inverse is None:
            return 1, None
        s0, s1, s2 = mult_vec(inverse, position)
        r0, r1, r2 = r0 - s0, r1 - s1, r2 - s2
    if inside(r0, r1, r2):
        return 0, (r0, r1, r2)
    return 2, None


# ---- the distance check ----


def inside(r0, r1, r2):
    return -1.0 <= r0 <= 1.0 and -1.0 <= r1 <= 1.0 and -1.0 <= r2 <= 1.0


def good_corner(c):
    return c == 0.0 or SMALLEST_CORNER <= abs(c) <= LARGEST_CORNER


def good_tolerance(t):
    return 0.0 <= t <= LARGEST_FINITE


class Cell:
    """Eight corners: 24 floats, corner by corner, x y z. What depends on them alone is worked out once."""

    def __init__(self, corners):
        self.corners = tuple(corners)
        self.axes = (self.corners[0::3], self.corners[1::3], self.corners[2::3])

    @cached_property
    def good(self):
        return all(good_corner(c) for c in self.corners)

    @cached_property
    def located(self):
        return newton(*self.axes)

    @cached_property
    def whole(self):
        """On each axis: the corners as whole numbers, and the power of two that they are scaled by."""
        return tuple(scaled(p) for p in self.axes)


def scaled(floats):
    """Whole numbers and s: each float is its whole number / 2^s, exactly."""
    ratios = [f.as_integer_ratio() for f in floats]
    s = max(d.bit_length() for _, d in ratios) - 1
    return [n << (s - d.bit_length() + 1) for n, d in ratios], s


class Place:
    """A place in a cell: the rounded image, and the exact one with the bound of demand 3."""

    def __init__(self, cell, at):
        self.cell = cell
        self.at = tuple(at)

    @cached_property
    def image(self):
        n = shapefunc(*self.at)
        return tuple(image_on(n, p) for p in self.cell.axes)

    @cached_property
    def exact(self):
        """On each axis (x, e, s): the exact image is x / 2^s and the bound 14 M / 2^53 is e / 2^s."""
        (r0, r1, r2), s = scaled(self.at)
        one = 1 << s
        factors = [(one - r, one + r) for r in (r0, r1, r2)]
        weights = [factors[0][i > 0] * factors[1][j > 0] * factors[2][k > 0] for i, j, k in HEX_SIGN]
        found = []
        for corners, c in self.cell.whole:
            x = sum(w * p for w, p in zip(weights, corners))
            largest = max(abs(p) for p in corners)
            # x / 2^(3 s + 3 + c) and 14 largest / 2^(c + 53), both over 2^(3 s + 53 + c)
            found.append((x << 50, 14 * largest << 3 * s, 3 * s + 53 + c))
        return tuple(found)

    def accepts(self, tolerance):
        return all(v <= tolerance and -v <= tolerance for v in self.image)

    def demand(self, tolerance):
        """What demand 3 says of this tolerance, in whole numbers."""
        t, d = tolerance.as_integer_ratio()
        shift = d.bit_length() - 1
        accept = True
        for x, e, s in self.exact:
            up = max(shift - s, 0)
            size, bound, limit = abs(x) << up, e << up, t << (s + up - shift)
            if size > limit + bound:
                return MUST_REFUSE
            if size > limit - bound:
                accept = False
        return MUST_ACCEPT if accept else EITHER


def check(place, tolerance):
    """The number, and what demand 3 says."""
    if not place.cell.good:
        return 3, NO_DEMAND
    if not good_tolerance(tolerance):
        return 4, NO_DEMAND
    if not inside(*place.at):
        return 5, NO_DEMAND
    return judged(place, tolerance)


def judged(place, tolerance):
    """0 or 6 by the rounded image; demand 3 is a theorem about it, and is looked at here each time."""
    accepted, demand = place.accepts(tolerance), place.demand(tolerance)
    if demand == (MUST_REFUSE if accepted else MUST_ACCEPT):
        raise AssertionError(f"demand 3 fails: {place.cell.corners} {place.at} {tolerance}")
    return (0 if accepted else 6), demand


def locate_checked(cell, tolerance):
    """(number, coordinates), and what demand 3 says of the place that Newton found."""
    if not cell.good:
        return (3, None), NO_DEMAND
    if not good_tolerance(tolerance):
        return (4, None), NO_DEMAND
    number, at = cell.located
    if number != 0:
        return (number, None), NO_DEMAND
    number, demand = judged(Place(cell, at), tolerance)
    return (number, at if number == 0 else None), demand


def check_proposals(cell, records, room):
    """Records are (x, y, z, tolerance). Outputs: how many are accepted, and a number for each record."""
    if len(records) > MOST_PROPOSALS:
        return 7, None
    if room < len(records):
        return 8, None
    numbers = []
    for x, y, z, tolerance in records:
        if not cell.good:
            numbers.append(3)
        elif not good_tolerance(tolerance):
            numbers.append(4)
        elif not inside(x, y, z):
            numbers.append(5)
        else:
            numbers.append(0 if Place(cell, (x, y, z)).accepts(tolerance) else 6)
    return 0, (numbers.count(0), numbers)


# ---- the mesh ----


# The 27 of a cell, corners, edges, faces and the centre: the corners in the middle of which each stands.
MIDDLES = [(k,) for k in range(8)] + EDGE2NODE + FACE2NODE + [tuple(range(8))]


def slots():
    """For child i and corner k, at 8 i + k: which of the 27 it names.

    The geometric rule: the one that stands at (sign i + sign k) / 2, here doubled twice over.
    """
    stands = {}
    for slot, nodes in enumerate(MIDDLES):
        middle = tuple(8 // len(nodes) * sum(HEX_SIGN[k][axis] for k in nodes) for axis in range(3))
        stands[middle] = slot
    return [
        stands[tuple(4 * (HEX_SIGN[i][axis] + HEX_SIGN[k][axis]) for axis in range(3))]
        for i in range(8)
        for k in range(8)
    ]


SLOTS = slots()


def refused_cell(n, cell):
    """0, 9 or 10."""
    if max(cell) >= n:
        return 9
    if len(set(cell)) < 8:
        return 10
    return 0


def by_nodes(ring):
    """Document 01: two faces are one when they have the same four nodes."""
    return frozenset(ring)


def by_sides(ring):
    """Document 02, 2/12: two faces are one when they have the same four sides, each of them two nodes whichever way round."""
    return frozenset(frozenset((ring[i - 1], ring[i])) for i in range(4))


def rings_of(cell):
    return [[cell[k] for k in face] for face in FACE2NODE]


def twisted(cells):
    """Whether two faces of the mesh have the same four nodes and not the same sides."""
    sides = {}
    return any(sides.setdefault(by_nodes(ring), by_sides(ring)) != by_sides(ring) for cell in cells for ring in rings_of(cell))


def cells_of(numbers):
    return [tuple(numbers[i : i + 8]) for i in range(0, len(numbers), 8)]


def refused_mesh(n, numbers, room):
    """Document 01: 0, 7, 8, 9 or 10."""
    if n > MOST_NODES or len(numbers) > 8 * MOST_CELLS:
        return 7
    if len(numbers) % 8 != 0 or room < 8 * len(numbers):
        return 8
    for cell in cells_of(numbers):
        number = refused_cell(n, cell)
        if number != 0:
            return number
    return 0


def numbered(n, cells, face_key):
    """The next free number, and 64 numbers for each cell; faces with the same key are one."""
    given = {}
    free = n
    children = []
    for cell in cells:
        named = list(cell)
        keys = [frozenset([cell[a], cell[b]]) for a, b in EDGE2NODE] + [face_key(ring) for ring in rings_of(cell)]
        for key in keys:
            number = given.setdefault(key, free)
            if number == free:
                free += 1
            named.append(number)
        named.append(free)
        free += 1
        children.extend([named[slot] for slot in SLOTS])
    return free, children


def refine_01(n, numbers, room):
    """What document 01 answered: see `refine`."""
    number = refused_mesh(n, numbers, room)
    return (number, None) if number != 0 else (0, numbered(n, cells_of(numbers), by_nodes))


def refine(n, numbers, room):
    """Outputs: the next free number, and 64 numbers for each cell."""
    number = refused_mesh(n, numbers, room)
    if number != 0:
        return number, None
    cells = cells_of(numbers)
    if twisted(cells):
        return 14, None
    return 0, numbered(n, cells, by_sides)


def descendant(path, corner):
    """Outputs: the place on three axes, in units of 2^-d."""
    d = len(path)
    if d > DEEPEST:
        return 7, None
    if any(octant > 7 for octant in path) or corner > 7:
        return 9, None
    return 0, tuple(
        sum(HEX_SIGN[path[j - 1]][axis] * 2 ** (d - j) for j in range(1, d + 1)) + HEX_SIGN[corner][axis]
        for axis in range(3)
    )


def hxm_read(data, node_room, cell_room):
    """Outputs: node count, cell count, 3 patterns of 64 bits a node, 8 numbers a cell."""
    if len(data) < 13:
        return 13, None
    if data[0:3] != b"HXM":
        return 11, None
    version, nodes, cells = struct.unpack_from("<HII", data, 3)
    if version != 1:
        return 12, None
    if nodes > MOST_NODES or cells > MOST_CELLS:
        return 7, None
    if len(data) != 13 + 24 * nodes + 32 * cells:
        return 13, None
    patterns = struct.unpack_from(f"<{3 * nodes}Q", data, 13)
    numbers = struct.unpack_from(f"<{8 * cells}I", data, 13 + 24 * nodes)
    for i in range(0, len(numbers), 8):
        number = refused_cell(nodes, numbers[i : i + 8])
        if number != 0:
            return number, None
    if node_room < 3 * nodes or cell_room < 8 * cells:
        return 8, None
    return 0, (nodes, cells, patterns, numbers)


def little(value, width):
    return value.to_bytes(width, "little")


def hxm_write(coordinates, numbers, room):
    """Document 02, 1/12. Coordinates are patterns of 64 bits. Outputs: the length, and the bytes of the file."""
    if len(coordinates) > MOST_COORDINATES or len(numbers) > MOST_CELL_NUMBERS:
        return 7, None
    if len(coordinates) % 3 != 0 or len(numbers) % 8 != 0:
        return 8, None
    nodes, cells = len(coordinates) // 3, len(numbers) // 8
    for cell in range(cells):
        number = refused_cell(nodes, numbers[8 * cell : 8 * cell + 8])
        if number != 0:
            return number, None
    length = 13 + 24 * nodes + 32 * cells
    if room < length:
        return 8, None
    data = bytearray(b"HXM")
    data += little(1, 2) + little(nodes, 4) + little(cells, 4)
    for pattern in coordinates:
        data += little(pattern, 8)
    for number in numbers:
        data += little(number, 4)
    return 0, (length, bytes(data))


# ---- the volume report: document 02, 3/12 ----


def edges_along(axis):
    """The four edges along an axis, as lower and upper end: by where they stand on the other two, (0,0), (0,1), (1,0), (1,1)."""
    corner = {signs: k for k, signs in enumerate(HEX_SIGN)}
    at = lambda sign, others: corner[(*others[:axis], sign, *others[axis:])]
    return [(at(-1, (b, c)), at(1, (b, c))) for b in (-1, 1) for c in (-1, 1)]


EDGES_ALONG = [edges_along(axis) for axis in range(3)]

# Simpson's rule on [0, 1]: the values at 0, 1/2 and 1 count 1, 4 and 1 times, over 6. It is exact up to degree 3, and on each axis the Jacobian's
# determinant has degree 2. On three axes the denominators are 216.
SIMPSON = (1, 4, 1)
POINTS = [
    (SIMPSON[i] * SIMPSON[j] * SIMPSON[k], 3 * j + k, 3 * i + k, 3 * i + j)
    for i in range(3)
    for j in range(3)
    for k in range(3)
]


def slopes(values, axis):
    """Four times the slope along an axis of the map through eight values: at i / 2 and j / 2 on the other two, at 3 i + j."""
    a, b, c, d = [values[upper] - values[lower] for lower, upper in EDGES_ALONG[axis]]
    found = []
    for e, f in ((2 * a, 2 * b), (a + c, b + d), (2 * c, 2 * d)):
        found += (2 * e, e + f, 2 * f)
    return found


@lru_cache(maxsize=4096)
def volume216(corners):
    """216 times the signed volume of a cell with these corners, 24 whole numbers, corner by corner."""
    axes = corners[0::3], corners[1::3], corners[2::3]
    (xr, yr, zr), (xs, ys, zs), (xt, yt, zt) = [[slopes(values, axis) for values in axes] for axis in range(3)]
    total = 0
    for weight, r, s, t in POINTS:
        total += weight * (
            xr[r] * (ys[s] * zt[t] - yt[t] * zs[s])
            + yr[r] * (zs[s] * xt[t] - zt[t] * xs[s])
            + zr[r] * (xs[s] * yt[t] - xt[t] * ys[s])
        )
    whole, rest = divmod(total, 4**3)  # each slope is four times itself
    if rest != 0:
        raise AssertionError(f"216 times the volume is not whole: {corners}")
    return whole


def grid_numbers(patterns):
    """The whole numbers that the patterns are floats of, or None where one is none or is beyond the grid."""
    values = struct.unpack(f"<{len(patterns)}d", struct.pack(f"<{len(patterns)}Q", *patterns))
    if all(value.is_integer() and abs(value) <= MOST_GRID for value in values):
        return [int(value) for value in values]
    return None


def volume_report(data, room):
    """Outputs: the total, the number of cells, the first cell that is not above zero or else that number, and a volume for each cell."""
    number, mesh = hxm_read(data, MOST_COORDINATES, MOST_CELL_NUMBERS)
    if number != 0:
        return number, None
    _, cells, patterns, numbers = mesh
    grid = grid_numbers(patterns)
    if grid is None:
        return 15, None
    if room < cells:
        return 8, None
    volumes = [volume216(tuple(v for node in cell for v in grid[3 * node : 3 * node + 3])) for cell in cells_of(numbers)]
    first = next((k for k, volume in enumerate(volumes) if volume <= 0), cells)
    return 0, (sum(volumes), cells, first, volumes)


def volume_text(data):
    """What the program hexvol prints for a file."""
    number, report = volume_report(data, MOST_CELLS)
    if number != 0:
        return f"refused {number}\n"
    total, cells, first, volumes = report
    lines = [f"{k} {volume}" for k, volume in enumerate(volumes)]
    lines += [f"total {total}", f"first {first}" if first < cells else "first none"]
    return "".join(f"{line}\n" for line in lines)


# ---- a mesh and its children: document 02, 5/12 ----


def refined_mesh(grid, numbers):
    """The children of a mesh on a grid eight times as fine: the coordinates of all numbers, three each, and eight numbers a child.

    There all are whole: a node's are 8 times its own, an edge's middle has 4 times the sum of its ends, a face's twice that of its corners, a centre
    the sum of all eight.
    """
    number, outputs = refine(len(grid) // 3, numbers, 8 * len(numbers))
    if number != 0:
        raise AssertionError(f"a mesh with children is refused {number}: {numbers}")
    free, children = outputs
    places = {node: [8 * v for v in grid[3 * node : 3 * node + 3]] for node in range(len(grid) // 3)}
    for at, name in enumerate(children):
        nodes = [numbers[at // 64 * 8 + k] for k in MIDDLES[SLOTS[at % 64]]]
        place = [8 // len(nodes) * sum(grid[3 * node + axis] for node in nodes) for axis in range(3)]
        if places.setdefault(name, place) != place:
            raise AssertionError(f"number {name} stands at {places[name]} and at {place}: {numbers}")
    return [v for name in range(free) for v in places[name]], children


def hold_metal(parents, children):
    """Of two reports: the eight children of each cell hold 512 times what it holds, and all children 512 times the total."""
    total, _, _, volumes = parents
    sum_of_all, count, _, smaller = children
    held = [(f"cell {k}", volume, sum(smaller[8 * k : 8 * k + 8])) for k, volume in enumerate(volumes)]
    for name, volume, together in [*held, ("the mesh", total, sum_of_all)]:
        if together != 512 * volume:
            raise AssertionError(f"{name} holds {volume}, and its children {together}, not {512 * volume}")
    if count != 8 * len(volumes):
        raise AssertionError(f"{len(volumes)} cells have {count} children")
