"""Cases of the volume report.

`boundary_reports` and `boundary_pairs` are the same every time; `random_reports` and `random_pairs` go on for ever and follow the generator they are
given. A pair is a mesh and its children, one case behind the other.
"""

import itertools
import struct

from answers import HEX_SIGN, MOST_CELLS, MOST_GRID, MOST_NODES, refined_mesh, twisted
from meshes import TOP, TURNS, TWO_CELLS, WHOLE_CELL
from meshes import damaged, grid, random_faults, random_few, random_mesh, random_most, spoiled, turned, twisted_pairs, written
from records import VOLUME_REPORT

# The tags of cases that have to be answered with a certain number, which the second program looks at.
PROMISED = dict.fromkeys(("on the grid", "basis", "limits", "turned", "folded", "twisted", "first", "full", "moved", "small", "any", "ordered"), 0)
PROMISED |= {"parents": 0, "children": 0}
PROMISED |= {"off the grid": 15, "short": 8}
PROMISED |= {f"{number} comes first": number for number in (0, 7, 8, 9, 10, 11, 12, 13, 15)}


def words(coordinates):
    """The bit patterns of numbers as floats."""
    return list(struct.unpack(f"<{len(coordinates)}Q", struct.pack(f"<{len(coordinates)}d", *coordinates)))


def box(a, b, c, at=0):
    """The corners of a box with these sides, the lowest at the same number on each axis."""
    return [at + side * (sign > 0) for signs in HEX_SIGN for side, sign in zip((a, b, c), signs)]


BLOCK = [0, 0, 0, 4, 0, 0, 5, 3, 0, 0, 3, 1, 0, 0, 6, 4, 1, 6, 5, 4, 7, 0, 3, 6]  # the demo's
LARGEST = box(2048, 2048, 2048, at=-1024)
MIRROR = [0, 3, 2, 1, 4, 7, 6, 5]

SIGN = 1 << 63
EDGES_OF_THE_GRID = words((1, 2, 512, 1023, 1024, 1025))
GOOD_WORDS = words((0, 1, 2, 3, 511, 512, 513, 1022, 1023, 1024))
BAD_WORDS = (
    words((0.5, 1.5, 0.1, 1022.5, 1023.5, 1024.5, 1025, 1026, 1536, 2047, 2048, 65536))
    + words([2.0**power for power in (31, 32, 52, 53, 62, 63, 64, 128, 1023)] + [2.0**32 + 1, 2.0**52 + 1])
    + [word + step for word in EDGES_OF_THE_GRID for step in (-1, 1)]
    + [1, 0x0008000000000000, 0x000FFFFFFFFFFFFF, 0x0010000000000000, 0x7FEFFFFFFFFFFFFF]
    + [0x7FF0000000000000, 0x7FF0000000000001, 0x7FF4000000000000, 0x7FF8000000000000, 0x7FFFFFFFFFFFFFFF]
)
GOOD_WORDS += [word | SIGN for word in GOOD_WORDS]
BAD_WORDS += [word | SIGN for word in BAD_WORDS]


def spread(count):
    """Whole numbers all over the grid."""
    return [(i * 7919 + i // 3 * 104729) % (2 * MOST_GRID + 1) - MOST_GRID for i in range(count)]


def flat_list(cells):
    return [number for cell in cells for number in cell]


def report(tag, coordinates, cells, more=0):
    """A case with room for the answer, and more or less."""
    return VOLUME_REPORT, tag, (written(words(coordinates), flat_list(cells)), len(cells) + more)


def with_word(patterns, place, word):
    return patterns[:place] + [word] + patterns[place + 1 :]


# ---- at the boundaries ----


def boundary_reports():
    yield from example_reports()
    yield from words_in_places()
    yield from known_cells()
    yield from odd_cells()
    yield from first_cells()
    yield from list_lengths()
    yield from damaged_files()
    yield from what_comes_first()
    yield from full_files()


def example_reports():
    """The examples of request 3/12."""
    cube = box(2, 2, 2)
    drawn = box(1, 1, 1)
    drawn[18:21] = drawn[0:3]
    negated = [-v for v in LARGEST]
    for coordinates in (cube, box(1, 2, 3), drawn, BLOCK, box(2, 2, 0), LARGEST, negated):
        yield report("example", coordinates, [WHOLE_CELL])
    yield report("example", cube, [WHOLE_CELL, MIRROR])
    yield report("example", [], [])
    yield report("example", [0.5, 0, 0], [])
    for coordinates in (LARGEST, negated):
        yield report("example", coordinates, [WHOLE_CELL] * MOST_CELLS)
    for word in (
        0x4090000000000000,
        0x8000000000000000,
        0x4090000000000001,
        0x4090040000000000,
        0x3FE0000000000000,
        0x0000000000000001,
        0x7FF0000000000000,
        0x7FF0000000000001,
    ):
        yield VOLUME_REPORT, "example", (written(with_word(words(cube), 0, word), WHOLE_CELL), 1)
    half = [0.5] + cube[1:]
    yield report("example", half, [WHOLE_CELL, [*range(7), 8]])
    yield report("example", half, [WHOLE_CELL, [*range(7), 0]])
    yield report("example", half, [WHOLE_CELL], more=-1)
    yield report("example", cube, [WHOLE_CELL], more=-1)


def words_in_places():
    """Each word in each place of a cell's nodes, in nodes that no cell uses, before and behind them, and where there is no cell."""
    block = words(BLOCK)
    for tag, found in (("on the grid", GOOD_WORDS), ("off the grid", BAD_WORDS)):
        for word in found:
            for place in range(24):
                yield VOLUME_REPORT, tag, (written(with_word(block, place, word), WHOLE_CELL), 1)
            for place in range(3):
                unused = with_word([0, 0, 0], place, word)
                yield VOLUME_REPORT, tag, (written(unused + block, range(1, 9)), 1)
                yield VOLUME_REPORT, tag, (written(block + unused, WHOLE_CELL), 1)
                yield VOLUME_REPORT, tag, (written(unused, []), 0)
    # every whole number of the grid and some beyond; each bit of some words
    for place, number in enumerate(range(-MOST_GRID - 6, MOST_GRID + 7)):
        coordinates = list(BLOCK)
        coordinates[place % 24] = number
        yield report("on the grid" if -MOST_GRID <= number <= MOST_GRID else "off the grid", coordinates, [WHOLE_CELL])
    for word, bit in itertools.product(words((0, 1, 3, -1023, 1024)), range(64)):
        yield VOLUME_REPORT, "bit", (written(with_word(block, bit % 24, word ^ 1 << bit), WHOLE_CELL), 1)


def known_cells():
    """A one on each axis at each corner, in all triples: what is linear on each axis is known by them. The limits, with each sign at each corner."""
    for corners in itertools.product(range(8), repeat=3):
        yield report("basis", [int(corner == k) for k in range(8) for corner in corners], [WHOLE_CELL])
    for axis, signs in itertools.product(range(3), itertools.product((-MOST_GRID, MOST_GRID), repeat=8)):
        coordinates = list(LARGEST)
        coordinates[axis::3] = signs
        yield report("limits", coordinates, [WHOLE_CELL])


def odd_cells():
    """Cells turned, mirrored, flat, folded and twisted."""
    for coordinates, turn in itertools.product((BLOCK, box(1, 2, 3), spread(24)), TURNS):
        yield report("turned", coordinates, [turn])
    for coordinates in (BLOCK, LARGEST, spread(24)):
        for a, b in itertools.combinations(range(8), 2):
            yield report("folded", coordinates, [[{a: b, b: a}.get(k, k) for k in range(8)]])
        for a, b in itertools.permutations(range(8), 2):
            drawn = list(coordinates)
            drawn[3 * a : 3 * a + 3] = drawn[3 * b : 3 * b + 3]
            yield report("folded", drawn, [WHOLE_CELL])
        for axis, at in itertools.product(range(3), (-MOST_GRID, -1, 0, MOST_GRID)):
            flat = list(coordinates)
            flat[axis::3] = [at] * 8
            yield report("folded", flat, [WHOLE_CELL])
        for corner in range(8):
            yield report("folded", coordinates[3 * corner : 3 * corner + 3] * 8, [WHOLE_CELL])
            through = list(coordinates)
            through[3 * corner : 3 * corner + 3] = [-v for v in through[3 * corner : 3 * corner + 3]]
            yield report("folded", through, [WHOLE_CELL])
    for numbers in twisted_pairs():
        yield report("twisted", spread(36), [numbers[:8], numbers[8:]])


def eight_cells():
    """Twice two times two in a block: the coordinates, the cells, and the same with no cell above zero, mirrored, flat and folded."""
    coordinates = [v for z in range(3) for y in range(3) for x in range(3) for v in (2 * x - 2, 3 * y - 3, 5 * z - 5)]
    cells = grid(2, 2, 2)[1]
    mirrored = [turned(cell, MIRROR) for cell in cells]
    flat = [[9 * (k % 3) + (k + i) % 9 for i in range(8)] for k in range(8)]
    folded = [turned(cell, [0, 1, 2, 3, 6, 5, 4, 7]) for cell in cells]
    return coordinates, cells, (mirrored, flat, folded)


def first_cells():
    """Cells that are not above zero: one at every place of 8, two at all pairs of places, all from a place on, all before it; and in 128 cells."""
    coordinates, cells, kinds = eight_cells()
    picked = [{place} for place in range(8)] + [{a, b} for a, b in itertools.combinations(range(8), 2)]
    picked += [set(range(place, 8)) for place in range(9)] + [set(range(place)) for place in range(1, 8)]
    for places in picked:
        for kind, other in itertools.product(kinds, kinds):
            mixed = [(kind if place == min(places) else other)[place] if place in places else cells[place] for place in range(8)]
            yield report("first", coordinates, mixed)
    for kind, place in itertools.product(kinds, (0, 1, 2, 63, 64, 126, 127)):
        many = cells * (MOST_CELLS // 8)
        many[place] = kind[place % 8]
        yield report("first", coordinates, many)


def lengths(count):
    """Lengths of the list: one short, just right, longer, none, and as many as there can be cells."""
    return sorted({0, max(count - 1, 0), count, count + 1, count + 9, count + 64, MOST_CELLS})


def list_lengths():
    block = words(spread(3 * MOST_NODES))
    for n, count in itertools.product((0, 8, 9, 255, 256, 257, 1023, 1024, 1025), (0, 1, 2, 3, 8, 127, 128, 129)):
        cells = [turned(range(max(n - 8, 0), max(n, 8)), TURNS[k % 48]) for k in range(count)]
        data = written((block + [0] * 3)[: 3 * n], flat_list(cells))
        for room in lengths(count):
            yield VOLUME_REPORT, "length", (data, room)


def damaged_files():
    one, two = written(words(BLOCK), WHOLE_CELL), written(words(spread(36)), TWO_CELLS)
    none, node = written([], []), written(words((1, -2, 3)), [])
    for data, at in itertools.product((one, two), range(13)):
        for bit in range(8):
            yield VOLUME_REPORT, "header", (damaged(data, at, 1 << bit), 2)
    for data in (one, two, none, node):
        for at, flip in itertools.product(range(len(data)), (1, 0x80, 0xFF)):
            yield VOLUME_REPORT, "byte", (damaged(data, at, flip), 2)
        for length in range(len(data)):
            yield VOLUME_REPORT, "cut", (data[:length], length % 3)
        for more in (b"\0", b"H", data, b"\n", bytes(7), bytes(24), bytes(32), bytes(56)):
            yield VOLUME_REPORT, "after", (data + more, 2)
    for length, room in itertools.product(range(16), (0, 2)):
        for data in (bytes(16), b"HXN" + two[3:], written(words(spread(36)), TWO_CELLS, version=2), b"hxm" + two[3:]):
            yield VOLUME_REPORT, "cut", (data[:length], room)
    for mark in (b"HXm", b"MXH", b"\0\0\0", b"HX\0", b"XHM", b" HX", b"hxm"):
        yield VOLUME_REPORT, "mark", (written(words(BLOCK), WHOLE_CELL, mark=mark), 1)
    for version in (0, 2, 3, 255, 256, 257, 0xFFFF):
        yield VOLUME_REPORT, "version", (written(words(BLOCK), WHOLE_CELL, version=version), 1)
    counts = (0, 8, 1024, 1025, 65536, 0x55555555, 0xAAAAAAAB, 0x08000000, 0x80000000, TOP)
    for n, c in itertools.product(counts, counts):
        yield VOLUME_REPORT, "counts", (written(words(BLOCK), WHOLE_CELL, nodes=n, cells=c), 1)


def what_comes_first():
    """All sets of refusals that can meet. The first of them is known from how the file is made."""
    beyond, twice = [0, 1, 2, 3, 4, 5, 6, 12], [0, 1, 2, 3, 4, 5, 6, 0]
    faults = (([WHOLE_CELL] * 3, 0), ([WHOLE_CELL, WHOLE_CELL, beyond], 9), ([WHOLE_CELL, WHOLE_CELL, twice], 10))
    faults += (([WHOLE_CELL, beyond, twice], 9), ([WHOLE_CELL, twice, beyond], 10), ([WHOLE_CELL, [0, 0, 12, 3, 4, 5, 6, 7], twice], 9))
    good = words(spread(36))
    for (cells, fault), place, n, c, version, mark, more, room in itertools.product(
        faults, (None, 0, 35), (12, 1025), (3, 129), (1, 2), (b"HXM", b"HXX"), (0, 1, -1), (3, 2)
    ):
        patterns = good if place is None else with_word(good, place, BAD_WORDS[0])
        data = written(patterns, flat_list(cells), mark, version, n, c)
        data = data + b"\0" if more > 0 else data[: len(data) + more]
        met = [
            (mark != b"HXM", 11),
            (version != 1, 12),
            (n > MOST_NODES or c > MOST_CELLS, 7),
            (more != 0, 13),
            (fault != 0, fault),
            (place is not None, 15),
            (room < 3, 8),
        ]
        number = next((number for meets, number in met if meets), 0)
        yield VOLUME_REPORT, f"{number} comes first", (data, room)
    # under 13 bytes nothing else is looked at
    for length, room in itertools.product(range(13), (0, 3)):
        yield VOLUME_REPORT, "13 comes first", (written(with_word(good, 0, 1), beyond, b"HXX", 2, 1025)[:length], room)
    # each place of two cells: 9, or 10 with each other place, beside a word that is off the grid in a node used or not
    for place, (unused, word), room in itertools.product(range(16), ((0, 0), (36, 1), (38, 1)), (2, 1)):
        patterns = with_word(words(spread(39)), unused, BAD_WORDS[word])
        for number in (13, 14, TOP):
            yield VOLUME_REPORT, "9 comes first", (written(patterns, with_word(TWO_CELLS, place, number)), room)
        for other in range(8):
            number = TWO_CELLS[place - place % 8 + other]
            if number != TWO_CELLS[place]:
                yield VOLUME_REPORT, "10 comes first", (written(patterns, with_word(TWO_CELLS, place, number)), room)


def full_files():
    """The longest file, and more; a word off the grid anywhere in it; a fault in its first and last cell."""
    patterns = words(spread(3 * MOST_NODES))
    numbers = flat_list(turned(range(8 * k, 8 * k + 8), TURNS[k % 48]) for k in range(MOST_CELLS))
    data = written(patterns, numbers)
    for room in (128, 129, 192):
        yield VOLUME_REPORT, "full", (data, room)
    for room in (0, 1, 127):
        yield VOLUME_REPORT, "short", (data, room)
    for longer in (data + b"\0", data * 2, data[:-1], data[:-32]):
        yield VOLUME_REPORT, "13 comes first", (longer, 128)
    for place, word in itertools.product((0, 1, 2, 3, 1535, 3069, 3070, 3071), (BAD_WORDS[0], BAD_WORDS[6], BAD_WORDS[-1])):
        off = with_word(patterns, place, word)
        for room in (128, 127, 0):
            yield VOLUME_REPORT, "off the grid", (written(off, numbers), room)
        for at in (0, 7, 1016, 1023):
            yield VOLUME_REPORT, "9 comes first", (written(off, with_word(numbers, at, MOST_NODES)), 127)
            yield VOLUME_REPORT, "10 comes first", (written(off, with_word(numbers, at, numbers[at ^ 1])), 127)
    for turn in (0, 1, 20):  # one cell, in the last of all nodes
        cell = turned(range(MOST_NODES - 8, MOST_NODES), TURNS[turn])
        yield VOLUME_REPORT, "full", (written(patterns, cell), 1)


# ---- at random ----


def moved_block(rng, most, limit):
    """A block of cells with sides of its own on each axis, its nodes moved not at all, a little or much."""
    while True:
        shape = [rng.randint(1, rng.choice((1, 2, 3, 5, 8, 16, 32))) for _ in range(3)]
        a, b, c = shape
        if a * b * c <= most and (a + 1) * (b + 1) * (c + 1) <= MOST_NODES:
            break
    sides = [rng.randint(1, rng.choice((4, 2 * limit // count))) for count in shape]
    starts = [rng.randint(-limit, limit - side * count) for side, count in zip(sides, shape)]
    far = rng.choice((0, 1, min(sides) // 2, max(sides)))
    x, y, z = [[start + side * k for k in range(count + 1)] for start, side, count in zip(starts, sides, shape)]
    clipped = lambda v: max(-limit, min(limit, v))
    coordinates = [clipped(at + rng.randint(-far, far)) for w in z for v in y for u in x for at in (u, v, w)]
    cells = grid(a, b, c)[1]
    draw = rng.random()
    if draw < 0.6:
        turns = TURNS if draw < 0.3 else [turn for turn in TURNS if keeps_hand(turn)]
        cells = [turned(cell, rng.choice(turns)) for cell in cells]
    return coordinates, cells


def keeps_hand(turn):
    """Whether a turn of the cube leaves it as it is, and not as in a mirror."""
    (a, b, c), (d, e, f), (g, h, i) = [[HEX_SIGN[turn[k]][axis] - HEX_SIGN[turn[0]][axis] for axis in range(3)] for k in (1, 3, 4)]
    return a * (e * i - f * h) + b * (f * g - d * i) + c * (d * h - e * g) > 0


def random_solid(rng, most, limit):
    """How it is made, the coordinates of its nodes, and its cells: at most so many, and coordinates of at most this size."""
    way = rng.choice(("moved", "moved", "limits", "small", "any"))
    if way == "moved":
        return way, *moved_block(rng, most, limit)
    n, cells = rng.choice((random_few, random_mesh))(rng, most)
    if n > 40 and rng.random() < 0.9:  # few unused nodes
        names = {v: k for k, v in enumerate(sorted(set(flat_list(cells))))}
        n, cells = min(len(names) + rng.choice((0, 0, 1)), MOST_NODES), [[names[v] for v in cell] for cell in cells]
    if way == "limits":
        numbers = rng.choice(((-limit, limit), (-limit, 1 - limit, limit - 1, limit), (-limit, 0, -0.0, limit)))
    elif way == "small":
        numbers = rng.choice(((0, 1), (-1, 0, 1), (0, -0.0, 1, 2), range(-3, 4)))
    else:
        numbers = range(-limit, limit + 1)
    return way, rng.choices(numbers, k=3 * n), cells


def random_reports(rng):
    while True:
        way, coordinates, cells = random_solid(rng, random_most(rng), MOST_GRID)
        patterns, numbers = words(coordinates), flat_list(cells)
        yield VOLUME_REPORT, way, (written(patterns, numbers), len(cells) + rng.choice((0, 0, 0, 1, 5, 64)))
        if rng.random() < 0.6:
            yield another(rng, patterns, cells, numbers)


def another(rng, patterns, cells, numbers):
    """The same mesh in another order, or with a list too short, off the grid, damaged, or with faults."""
    count = len(cells)
    data = written(patterns, numbers)
    way = rng.choice(("ordered", "short", "off the grid", "byte", "cut", "cells", "faults", "faults"))
    room = count + rng.choice((0, 0, 0, 1, -1, -count))
    if way == "ordered":
        return VOLUME_REPORT, way, (written(patterns, flat_list(rng.sample(cells, count))), count)
    if way == "short":
        return VOLUME_REPORT, way, (data, rng.choice((0, count - 1, rng.randrange(count))))
    if way == "off the grid":
        return VOLUME_REPORT, way, (written(off_grid(rng, patterns), numbers), room)
    if way == "byte":
        return VOLUME_REPORT, way, (damaged(data, rng.randrange(len(data)), rng.randrange(1, 256)), room)
    if way == "cut":
        longer = data + rng.randbytes(rng.randint(1, 40))
        return VOLUME_REPORT, way, (rng.choice((longer, data[: rng.randrange(len(data))], data[:-1])), room)
    if rng.random() < 0.3:
        patterns = off_grid(rng, patterns)
    if way == "cells":
        return VOLUME_REPORT, way, (written(patterns, spoiled(rng, len(patterns) // 3, numbers)), room)
    return VOLUME_REPORT, way, (random_faults(rng, len(patterns) // 3, patterns, numbers)[0], room)


def off_grid(rng, patterns):
    """One to three words that are no numbers of the grid: known ones, a bit or any bits of the last 40 wrong."""
    patterns = list(patterns)
    for place in rng.sample(range(len(patterns)), rng.choice((1, 1, 2, 3))):
        patterns[place] = rng.choice((rng.choice(BAD_WORDS), patterns[place] ^ 1 << rng.randrange(40), patterns[place] ^ rng.randrange(1, 1 << 40)))
    return patterns


# ---- a mesh and its children: document 02, 5/12 ----

# The children have eight times as many cells, and coordinates eight times as large.
MOST_PARENTS, COARSE = MOST_CELLS // 8, MOST_GRID // 8

# The nodes of the request's two cells, bent every way.
TWO_BENT = [-5, -4, -4, 0, -3, 5, -1, -1, 4, -2, 4, -5, 4, 5, -3, 1, 5, 1, 3, 0, 3, 2, 3, -1, -5, -5, 0, 2, 0, 1, 1, 3, -3, 3, -3, -2]


def coarse(count):
    """Whole numbers all over a grid with an eighth of the sides."""
    return [v % (2 * COARSE + 1) - COARSE for v in spread(count)]


def pair(coordinates, cells):
    fine, children = refined_mesh(coordinates, flat_list(cells))
    yield report("parents", coordinates, cells)
    yield VOLUME_REPORT, "children", (written(words(fine), children), 8 * len(cells))


def boundary_pairs():
    for coordinates, cells in pairable():
        yield from pair(coordinates, cells)


def pairable():
    """The examples of request 5/12; a one on each axis at each corner, in all triples; odd cells; all turns; no cells, and as many as there can be."""
    cube = box(2, 2, 2)
    bent = cube[:18] + [3, 3, 3] + cube[21:]
    folded = cube[18:21] + cube[3:18] + cube[:3] + cube[21:]
    for coordinates in (cube, bent, folded, box(2, 2, 0)):
        yield coordinates, [WHOLE_CELL]
    first, second = TWO_CELLS[:8], TWO_CELLS[8:]
    yield TWO_BENT, [first, second]
    for corners in itertools.product(range(8), repeat=3):
        yield [int(corner == k) for k in range(8) for corner in corners], [WHOLE_CELL]
    largest = box(2 * COARSE, 2 * COARSE, 2 * COARSE, at=-COARSE)
    for coordinates in (BLOCK, largest, [-v for v in largest], coarse(24)):
        yield from odd_pairs(coordinates)
    for turn in TURNS:
        yield TWO_BENT, [first, turned(second, turn)]
        yield TWO_BENT, [turned(second, turn), first]
        yield BLOCK, [first, turned(first, turn)]
    for n in (0, 1, 8, MOST_NODES):
        yield coarse(3 * n), []
    for shape in ((16, 1, 1), (1, 16, 1), (2, 1, 8), (4, 4, 1), (2, 2, 4)):
        n, cells = grid(*shape)
        yield coarse(3 * n), [turned(cell, TURNS[k]) for k, cell in enumerate(cells)]
    apart = [list(range(8 * k, 8 * k + 8)) for k in range(MOST_PARENTS)]
    for n in (8 * MOST_PARENTS, MOST_NODES - 19 * MOST_PARENTS):  # the second has as many numbers as a file can have nodes
        yield coarse(3 * n), apart


def odd_pairs(coordinates):
    """A cell as it is, mirrored, with two corners exchanged or drawn together, and flat."""
    for cell in (WHOLE_CELL, MIRROR):
        yield coordinates, [cell]
    for a, b in itertools.combinations(range(8), 2):
        yield coordinates, [[{a: b, b: a}.get(k, k) for k in range(8)]]
        drawn = list(coordinates)
        drawn[3 * a : 3 * a + 3] = drawn[3 * b : 3 * b + 3]
        yield drawn, [WHOLE_CELL]
    for axis, at in itertools.product(range(3), (-COARSE, 0, COARSE)):
        flat = list(coordinates)
        flat[axis::3] = [at] * 8
        yield flat, [WHOLE_CELL]


def random_pairs(rng):
    while True:
        _, coordinates, cells = random_solid(rng, rng.choice((1, 2, 4, 8, MOST_PARENTS)), COARSE)
        if len(coordinates) // 3 + 19 * len(cells) <= MOST_NODES and not twisted(cells):
            yield from pair(coordinates, cells)
