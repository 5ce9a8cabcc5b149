"""Cases of the distance check, the checked locator and the list of proposals.

`boundary_*` are the same every time; `random_*` go on for ever and follow the generator they are given.
"""

import itertools
import struct
from math import nextafter

from answers import HEX_SIGN, INFINITY, LARGEST_FINITE, MOST_PROPOSALS, Cell, Place, good_tolerance, inside, shapefunc
from records import CHECK, CHECK_PROPOSALS, LOCATE_CHECKED


def up(x):
    return nextafter(x, INFINITY)


def down(x):
    return nextafter(x, -INFINITY)


def from_bits(b):
    return struct.unpack("<d", struct.pack("<Q", b))[0]


NANS = [from_bits(b) for b in (0x7FF8000000000000, 0xFFF8000000000000, 0x7FF0000000000001, 0xFFF4000000000000)]
LEAST = from_bits(1)  # the least positive float
LEAST_NORMAL = 2.0**-1022
LOW, HIGH = 2.0**-100, 2.0**100


def both_signs(values):
    return [s * v for v in values for s in (1.0, -1.0)]


GOOD_CORNERS = both_signs([0.0, LOW, up(LOW), 2 * LOW, 1.5, down(HIGH), HIGH, HIGH / 2])
BAD_CORNERS = NANS + both_signs(
    [down(LOW), LOW / 2, 0.75 * LOW, LEAST, down(LEAST_NORMAL), LEAST_NORMAL, up(HIGH), 2 * HIGH, LARGEST_FINITE, INFINITY]
)
GOOD_TOLERANCES = [0.0, -0.0, LEAST, down(LEAST_NORMAL), LEAST_NORMAL, LOW, 1.0, HIGH, 2.0**1000, LARGEST_FINITE]
BAD_TOLERANCES = NANS + [INFINITY, -INFINITY, -LEAST, -LEAST_NORMAL, -LOW, -1.0, -HIGH, -LARGEST_FINITE]
GOOD_COORDINATES = both_signs(
    [0.0, LEAST, LEAST_NORMAL, 2.0**-54, 2.0**-53, 2.0**-52, 1 / 3]
    + [0.5, up(0.5), 0.75, 1 - 2.0**-26, down(down(1.0)), down(1.0), 1.0]
)
BAD_COORDINATES = NANS + both_signs([up(1.0), up(up(1.0)), 1 + 2.0**-26, 1.5, 2.0, HIGH, LARGEST_FINITE, INFINITY])


def cube(half=2.0, centre=(0.0, 0.0, 0.0)):
    return [s * half + c for signs in HEX_SIGN for s, c in zip(signs, centre)]


CUBE = Cell(cube())
FAR = Cell(cube(2.0, (5.0, 0.0, 0.0)))
MIDDLE = (0.0, 0.0, 0.0)


def with_corner(i, value):
    corners = list(CUBE.corners)
    corners[i] = value
    return Cell(corners)


def one_axis(axis, corners):
    """A cell with zeros on the two other axes."""
    return Cell([corners[k] if i == axis else 0.0 for k in range(8) for i in range(3)])


# ---- tolerances ----


def near(x):
    """x and the floats around it, none below zero."""
    x = abs(x)
    return [t for t in (x, down(x), up(x), down(down(x)), up(up(x))) if t >= 0.0]


def rounded(x, s):
    """The float nearest to x / 2^s."""
    return x / (1 << s)


def image_tolerances(place):
    """Around the rounded image of each axis, with the largest, which decides, first."""
    for size in sorted((abs(v) for v in place.image), reverse=True):
        yield from near(size)


def exact_tolerances(place):
    """Around the exact image, and around it plus and minus the bound of demand 3."""
    for x, e, s in sorted(place.exact, key=lambda axis: -rounded(abs(axis[0]), axis[2])):
        for edge in (abs(x), abs(x) + e, max(abs(x) - e, 0)):
            yield from near(rounded(edge, s))


def tolerances_at(rng, place, count):
    """Tolerances for a good cell and place: most where the answer turns."""
    first = list(itertools.islice(image_tolerances(place), 5))
    edges = list(exact_tolerances(place))
    for _ in range(count):
        kind = rng.random()
        if kind < 0.35:
            yield "image", rng.choice(first)
        elif kind < 0.45:
            yield "image", rng.choice(list(image_tolerances(place)))
        elif kind < 0.70:
            yield "bound", rng.choice(edges[:15])
        elif kind < 0.80:
            yield "bound", rng.choice(edges)
        elif kind < 0.92:
            yield "image", max(abs(v) for v in place.image) * 2.0 ** rng.uniform(-3, 3)
        elif kind < 0.96:
            yield "tolerance", rng.choice(GOOD_TOLERANCES)
        else:
            yield "tolerance", rng.choice(BAD_TOLERANCES)


# ---- random cells and places ----


def sized(rng, exponent):
    return rng.choice((1.0, -1.0)) * rng.uniform(1.0, 2.0) * 2.0**exponent


def mixed(rng):
    """Any good size, each corner its own."""
    return min(max(sized(rng, rng.uniform(-100, 99)), -HIGH), HIGH)


def extreme_corners(rng):
    """Few sizes, at the limits: Newton runs far out, to infinities and NaN too."""
    kind = rng.randrange(3)
    if kind == 0:
        return [rng.choice((LOW, -LOW, HIGH, -HIGH, 0.0, -0.0, up(LOW), down(HIGH))) for _ in range(24)]
    if kind == 1:  # the largest size of all, and a little less
        return [rng.choice((1, -1)) * HIGH * (1 - rng.randrange(4) * 2.0**-53) for _ in range(24)]
    e = rng.randint(-100, 99)  # just above a power of two
    return [rng.choice((1, -1)) * 2.0**e * (1 + rng.randrange(1, 9) * 2.0**-52) for _ in range(24)]


def random_corners(rng):
    kind = rng.randrange(11)
    if kind == 0:  # a cube with noise, each axis of its own size
        sizes = [2.0 ** rng.randint(-60, 60) for _ in range(3)]
        return [m * (s + rng.uniform(-0.7, 0.7)) for signs in HEX_SIGN for s, m in zip(signs, sizes)]
    if kind == 1:
        return [mixed(rng) for _ in range(24)]
    if kind == 2:  # sizes near one another
        e = rng.randint(-99, 98)
        return [sized(rng, e) for _ in range(24)]
    if kind in (3, 4, 5):
        return extreme_corners(rng)
    if kind == 6:
        return [rng.choice((1, -1)) * 2.0 ** rng.randint(-100, 100) for _ in range(24)]
    if kind == 7:
        return [float(rng.randint(-3, 3)) for _ in range(24)]
    if kind == 8:  # one axis alone
        axis, e = rng.randrange(3), rng.randint(-99, 98)
        return [sized(rng, e) if i == axis else rng.choice((0.0, -0.0)) for _ in range(8) for i in range(3)]
    if kind == 9:  # one sign: nothing cancels
        e, s = rng.randint(-99, 98), rng.choice((1, -1))
        return [s * abs(sized(rng, e)) for _ in range(24)]
    return [rng.choice(GOOD_CORNERS) if rng.random() < 0.3 else sized(rng, rng.randint(-4, 4)) for _ in range(24)]


def cancelling(rng, corners, at):
    """The last corners moved so that the image is near zero on each axis, where sizes allow."""
    n = shapefunc(*at)
    k = max(range(8), key=lambda i: n[i])
    moved = list(corners)
    for axis in range(3):
        rest = sum(n[i] * corners[3 * i + axis] for i in range(8) if i != k)
        value = -rest / n[k]
        if value == 0.0 or LOW <= abs(value) <= HIGH:
            moved[3 * k + axis] = value
    return moved


def random_coordinate(rng):
    kind = rng.randrange(6)
    if kind < 2:
        return rng.uniform(-1.0, 1.0)
    if kind == 2:
        return rng.choice(GOOD_COORDINATES)
    if kind == 3:
        return rng.choice((1, -1)) * (1 - rng.uniform(1.0, 2.0) * 2.0 ** -rng.randint(1, 54))
    if kind == 4:
        return rng.choice((1, -1)) * rng.uniform(1.0, 2.0) * 2.0 ** -rng.randint(1, 80)
    return rng.randint(-16, 16) / 16


def random_at(rng):
    return tuple(random_coordinate(rng) for _ in range(3))


# ---- check ----


def boundary_check():
    example = lambda at, t, cell=CUBE: (CHECK, "example", (Place(cell, at), t))
    yield example((0.5, 0.0, 0.0), 1.0)  # P6
    yield example((0.5, 0.0, 0.0), 0.5)  # P7
    yield example((1 + 2.0**-52, 0.0, 0.0), 1.0)  # P8
    yield example(MIDDLE, HIGH, with_corner(0, HIGH))  # P9
    yield example(MIDDLE, HIGH, with_corner(0, LOW / 2))  # P10
    yield example(MIDDLE, HIGH, with_corner(0, -0.0))
    yield example(MIDDLE, -0.0)
    # each corner place with each value
    for i, value in itertools.product(range(24), GOOD_CORNERS + BAD_CORNERS):
        cell = with_corner(i, value)
        yield CHECK, f"corner {value}", (Place(cell, MIDDLE), HIGH)
        yield CHECK, f"corner {value}", (Place(cell, (0.25, -0.5, 0.75)), 0.0)
    # each coordinate with each value, alone and in all three
    for value in GOOD_COORDINATES + BAD_COORDINATES:
        for at in ((value, 0.0, 0.0), (0.0, value, 0.0), (0.0, 0.0, value), (value, value, value)):
            for tolerance in (0.0, abs(2.0 * value) if inside(*at) else 2.0, LARGEST_FINITE):
                yield CHECK, f"coordinate {value}", (Place(CUBE, at), tolerance)
    # each tolerance, with images of zero, of the smallest and of the largest size
    for tolerance in GOOD_TOLERANCES + BAD_TOLERANCES:
        for half in (LOW, 2.0, HIGH):
            for at in (MIDDLE, (1.0, -1.0, 1.0), (0.0, -0.5, 0.0), (LEAST, -LEAST, 0.0)):
                yield CHECK, f"tolerance {tolerance}", (Place(Cell(cube(half)), at), tolerance)
    # more than one refusal applies: the order
    corners = (CUBE, FAR, with_corner(23, NANS[0]), with_corner(0, INFINITY), with_corner(11, down(LOW)))
    tolerances = (3.0, 0.5, -0.0, NANS[0], -1.0, INFINITY)
    ats = (MIDDLE, (1.0, 1.0, -1.0), (up(1.0), 0.0, 0.0), (0.0, NANS[0], 0.0), (0.0, 0.0, -INFINITY))
    for cell, tolerance, at in itertools.product(corners, tolerances, ats):
        yield CHECK, "order", (Place(cell, at), tolerance)
    # each axis by itself, on both sides, and at every corner
    for axis, sign, half in itertools.product(range(3), (1.0, -1.0), (LOW, 1.0, 1 + 2.0**-52, HIGH)):
        cell = one_axis(axis, [sign * half] * 8)
        for tolerance in near(half):
            yield CHECK, "axis", (Place(cell, MIDDLE), tolerance)
        cell = Cell(cube(half))
        for signs in HEX_SIGN:
            for tolerance in (half, down(half)):
                yield CHECK, "axis", (Place(cell, tuple(sign * float(s) for s in signs)), tolerance)


def random_check(rng):
    while True:
        at = random_at(rng)
        corners = random_corners(rng)
        if rng.random() < 0.3:
            corners = cancelling(rng, corners, at)
        fault = rng.random()
        if fault < 0.05:
            corners[rng.randrange(24)] = rng.choice(BAD_CORNERS)
        elif fault < 0.10:
            at = list(at)
            at[rng.randrange(3)] = rng.choice(BAD_COORDINATES)
        elif fault < 0.12:
            corners = [rng.choice(GOOD_CORNERS + BAD_CORNERS) for _ in range(24)]
        place = Place(Cell(corners), at)
        if place.cell.good and inside(*at):
            for tag, tolerance in tolerances_at(rng, place, 5):
                yield CHECK, tag, (place, tolerance)
        else:
            yield CHECK, "refused", (place, rng.choice((0.0, 1.0, rng.choice(GOOD_TOLERANCES + BAD_TOLERANCES))))


# ---- the checked locator ----


def boundary_locate():
    example = lambda cell, t: (LOCATE_CHECKED, "example", (cell, t))
    outside = Cell([v for signs in HEX_SIGN for v in (5.0 + 2.0 * signs[0], float(signs[1]), float(signs[2]))])
    flat = Cell([1.0] * 24)
    for tolerance in (0.0, -0.0, 1.0):
        yield example(CUBE, tolerance)
        yield example(outside, tolerance)
        yield example(flat, tolerance)
        yield example(with_corner(4, NANS[0]), tolerance)
    for i, value in itertools.product(range(24), GOOD_CORNERS + BAD_CORNERS):
        yield LOCATE_CHECKED, f"corner {value}", (with_corner(i, value), HIGH)
    for tolerance in GOOD_TOLERANCES + BAD_TOLERANCES:
        for cell in (CUBE, outside, flat, Cell(cube(HIGH)), Cell(cube(LOW)), with_corner(3, up(HIGH))):
            yield LOCATE_CHECKED, f"tolerance {tolerance}", (cell, tolerance)
    # a determinant that is NaN at the second step is not zero: 2
    h, l = HIGH, LOW
    wild = [h, h, h, -h, -h, h, 0.0, -l, h, 0.0, -h, 0.0, -h, -h, -h, 0.0, 0.0, 0.0, h, 0.0, -h, -h, -l, h]
    for tolerance in (0.0, LARGEST_FINITE, NANS[0]):
        yield LOCATE_CHECKED, "wild", (Cell(wild), tolerance)
    # the origin on faces, edges and corners of a cube, and one step of the float outside
    for half in (1.0, 0.75, LOW * 4, HIGH / 4):
        for steps in itertools.product((-1.0, 0.0, 1.0), repeat=3):
            for factor in (1.0, up(1.0), down(1.0)):
                cell = Cell(cube(half, [-half * s * factor for s in steps]))
                yield LOCATE_CHECKED, "border", (cell, half * 2.0**-40)
                yield LOCATE_CHECKED, "border", (cell, 0.0)


def around_origin(rng):
    """A cell that holds the origin, or has it on its border, up to rounding."""
    wild = rng.choice((0.0, 0.1, 0.4, 0.8))
    corners = [[s + rng.uniform(-wild, wild) for s in signs] for signs in HEX_SIGN]
    if rng.random() < 0.5:
        turn = [[rng.uniform(-1, 1) for _ in range(3)] for _ in range(3)]
        corners = [[sum(a * c for a, c in zip(row, corner)) for row in turn] for corner in corners]
    border = rng.random() < 0.2
    at = [rng.choice((-1.0, 1.0)) if border and rng.random() < 0.5 else rng.uniform(-1, 1) for _ in range(3)]
    n = shapefunc(*at)
    same = rng.randint(-90, 90)
    size = [2.0 ** (same if rng.random() < 0.7 else rng.randint(-60, 60)) for _ in range(3)]
    centre = [sum(n[k] * corners[k][i] for k in range(8)) for i in range(3)]
    return [m * (v - c) for corner in corners for v, c, m in zip(corner, centre, size)]


def locator_corners(rng):
    kind = rng.randrange(12)
    if kind < 4:
        return "inside", around_origin(rng)
    if kind == 4:  # whole numbers, with the origin in the middle of a face or edge, at a corner, or in the centre
        corners = [float(4 * s + rng.randint(-2, 2)) for signs in HEX_SIGN for s in signs]
        n = shapefunc(*[rng.choice((-1.0, 0.0, 1.0)) for _ in range(3)])
        centre = [sum(n[k] * corners[3 * k + i] for k in range(8)) for i in range(3)]
        return "whole", [c - centre[i % 3] for i, c in enumerate(corners)]
    if kind == 5:  # small whole numbers: flat cells, and cells that are flat at a later step
        reach = rng.choice((1, 1, 2, 3))
        return "whole", [float(rng.randint(-reach, reach)) for _ in range(24)]
    if kind == 6:  # shifted away, a little or a lot
        corners = around_origin(rng)
        axis, reach = rng.randrange(3), max(abs(c) for c in corners)
        shift = reach * rng.choice((0.25, 0.5, 1.0, 3.0, 100.0)) * rng.choice((1, -1))
        return "outside", [c + shift if i % 3 == axis else c for i, c in enumerate(corners)]
    if kind == 7:  # in a plane, or folded onto itself
        corners = around_origin(rng) if rng.random() < 0.5 else [float(rng.randint(-4, 4)) for _ in range(24)]
        way = rng.randrange(4)
        a, b = rng.randint(-2, 2), rng.randint(-2, 2)
        for k in range(8):
            if way == 0:
                corners[3 * k + 2] = a * corners[3 * k] + b * corners[3 * k + 1]
            elif way == 1:
                corners[3 * k + rng.randrange(3)] = 0.0
            elif way == 2 and k >= 4:
                corners[3 * k : 3 * k + 3] = corners[3 * k - 12 : 3 * k - 9]
            elif way == 3:
                corners[3 * k + 1] = float(a)
        return "flat", corners
    if kind == 8:
        return "mixed", random_corners(rng)
    if kind == 9:
        return "extreme", extreme_corners(rng)
    if kind == 10:  # in a plane up to rounding
        size, a, b = 2.0 ** rng.randint(-60, 98), rng.uniform(-1, 1), rng.uniform(-1, 1)
        points = [(rng.uniform(-size, size), rng.uniform(-size, size)) for _ in range(8)]
        return "near flat", [v for x, y in points for v in (x, y, a * x + b * y)]
    corners = around_origin(rng)  # two corners changed over, or one pulled through
    j, k = rng.sample(range(8), 2)
    if rng.random() < 0.5:
        corners[3 * j : 3 * j + 3], corners[3 * k : 3 * k + 3] = corners[3 * k : 3 * k + 3], corners[3 * j : 3 * j + 3]
    else:
        corners[3 * j : 3 * j + 3] = [-0.9 * c for c in corners[3 * j : 3 * j + 3]]
    return "folded", corners


def random_locate(rng):
    while True:
        tag, corners = locator_corners(rng)
        fault = rng.random()
        if fault < 0.03:
            corners[rng.randrange(24)] = rng.choice(BAD_CORNERS)
        elif fault < 0.06:
            corners[rng.randrange(24)] = rng.choice(GOOD_CORNERS)
        cell = Cell(corners)
        if cell.good and cell.located[0] == 0:
            for which, tolerance in tolerances_at(rng, Place(cell, cell.located[1]), 3):
                yield LOCATE_CHECKED, f"{tag}, {which}", (cell, tolerance)
        else:
            tolerance = rng.choice((0.0, -0.0, 1.0, HIGH, LARGEST_FINITE, rng.choice(BAD_TOLERANCES)))
            yield LOCATE_CHECKED, tag if cell.good else "refused", (cell, tolerance)


# ---- the list of proposals ----


def boundary_proposals():
    zero = (0.0, 0.0, 0.0, 0.0)
    bad = with_corner(17, down(LOW))
    yield CHECK_PROPOSALS, "example", (CUBE, [(0.5, 0.0, 0.0, 1.0), (0.5, 0.0, 0.0, 0.5), (1 + 2.0**-52, 0.0, 0.0, 1.0)], 3)
    kinds = [zero, (1.0, 1.0, 1.0, 1.9), (0.0, 2.0, 0.0, 0.0), (0.0, 0.0, 0.0, -1.0), (NANS[0], 0.0, 0.0, NANS[0])]
    for cell in (CUBE, bad):
        for count in (0, 1, 2, 3, 5, 16, 93, 127, 128, 129, 254, 255, 256, 257, 258, 300, 512):
            for room in sorted({0, 1, max(count - 1, 0), count, count + 1, count + 7, 256, 257}):
                yield CHECK_PROPOSALS, "length", (cell, [kinds[i % 5] for i in range(count)], room)
    for count in (MOST_PROPOSALS, MOST_PROPOSALS + 1, MOST_PROPOSALS + 2):
        for room in (0, count - 1, count):
            yield CHECK_PROPOSALS, "over", (CUBE, [zero] * count, room)
    # every record of each outcome, first, in the middle and last
    for kind in kinds:
        for place in range(5):
            records = [zero] * 5
            records[place] = kind
            yield CHECK_PROPOSALS, "place", (CUBE, records, 5)
            yield CHECK_PROPOSALS, "place", (bad, records, 6)


def random_proposals(rng):
    while True:
        corners = random_corners(rng) if rng.random() < 0.6 else around_origin(rng)
        fault = rng.random() < 0.05
        if fault:
            corners[rng.randrange(24)] = rng.choice(BAD_CORNERS)
        cell = Cell(corners)
        draw = rng.random()
        if draw < 0.88:
            count = rng.randint(0, 24)
        elif draw < 0.98:
            count = rng.randint(25, 255)
        else:
            count = rng.randint(255, 258)
        records = [random_record(rng, cell) for _ in range(count)]
        draw = rng.random()
        room = count if draw < 0.5 else count + rng.randint(1, 20) if draw < 0.85 else max(count - rng.choice((1, 1, 5)), 0)
        yield CHECK_PROPOSALS, "refused" if fault else "mixed", (cell, records, room)


def random_record(rng, cell):
    at = random_at(rng)
    draw = rng.random()
    if draw < 0.06:
        at = list(at)
        at[rng.randrange(3)] = rng.choice(BAD_COORDINATES)
    if draw > 0.92 or not inside(*at) or not cell.good:
        return (*at, rng.choice(GOOD_TOLERANCES + BAD_TOLERANCES))
    size = max(abs(v) for v in Place(cell, at).image)
    tolerance = rng.choice((size, down(size), up(size), size * rng.uniform(0.0, 2.0)))
    return (*at, tolerance if good_tolerance(tolerance) else 0.0)
