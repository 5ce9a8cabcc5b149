"""Cases of the refinement, the descendant and the mesh file.

`boundary_*` are the same every time; `random_*` go on for ever and follow the generator they are given.
"""

import itertools
import struct

from answers import DEEPEST, FACE2NODE, HEX_SIGN, MOST_CELLS, MOST_NODES
from records import DESCENDANT, HXM_READ, HXM_WRITE, REFINE

TOP = 0xFFFFFFFF  # the largest number of 32 bits
MOST_NUMBERS = 8 * MOST_CELLS
WHOLE_CELL = list(range(8))
TWO_CELLS = WHOLE_CELL + [1, 8, 9, 2, 5, 11, 10, 6]  # document 01's example, n = 12
TWISTED_CELLS = WHOLE_CELL + [1, 8, 9, 5, 6, 11, 10, 2]  # the same nodes, f4 runs 5, 1, 6, 2

# The tags of cases that have to be answered with a certain number, which the second program looks at.
PROMISED = dict.fromkeys(("turn", "untwisted", "glued", "no face", "twisted file"), 0)
PROMISED |= dict.fromkeys(("twisted", "twisted afar", "twisted often", "exchanged", "torn"), 14)
PROMISED |= {f"twisted, but {number}": number for number in (7, 8, 9, 10)}

# The orders of four nodes that are one ring, by where it starts and which way it turns; and those that are another.
ONE_RING = [tuple((start + way * i) % 4 for i in range(4)) for start in range(4) for way in (1, -1)]
OTHER_RING = [order for order in itertools.permutations(range(4)) if order not in ONE_RING]


def turns():
    """The 48 ways to lay a cube onto itself, as orders of its corners: axes changed over, then turned round."""
    corner = {signs: k for k, signs in enumerate(HEX_SIGN)}
    return [
        [corner[tuple(flip[i] * signs[axes[i]] for i in range(3))] for signs in HEX_SIGN]
        for axes in itertools.permutations(range(3))
        for flip in itertools.product((1, -1), repeat=3)
    ]


TURNS = turns()


def turned(cell, turn):
    return [cell[k] for k in turn]


# ---- meshes ----


def placed(places, nodes, rest):
    """A cell with these nodes in these places, and the rest in the others."""
    cell, others = dict(zip(places, nodes)), iter(rest)
    return [cell[k] if k in cell else next(others) for k in range(8)]


def glued(old, face, order, rest, at):
    """A cell that has the nodes of a face of `old`, in this order, as its face `at`."""
    return placed(FACE2NODE[at], [old[FACE2NODE[face][k]] for k in order], rest)


def grid(a, b, c):
    """a times b times c cells in a block: node count and cells."""
    node = lambda i, j, k: i + (a + 1) * (j + (b + 1) * k)
    cells = [
        [node(i + (x > 0), j + (y > 0), k + (z > 0)) for x, y, z in HEX_SIGN]
        for k in range(c)
        for j in range(b)
        for i in range(a)
    ]
    return (a + 1) * (b + 1) * (c + 1), cells


def random_grid(rng, most):
    while True:
        a, b, c = (rng.randint(1, rng.choice((1, 2, 3, 5, 8, 16, 32))) for _ in range(3))
        if a * b * c <= most and (a + 1) * (b + 1) * (c + 1) <= MOST_NODES:
            break
    n, cells = grid(a, b, c)
    if rng.random() < 0.7:
        cells = [turned(cell, rng.choice(TURNS)) for cell in cells]
    if rng.random() < 0.5:
        rng.shuffle(cells)
    if rng.random() < 0.5:
        n = rng.randint(n, MOST_NODES)
        names = rng.sample(range(n), n)
        cells = [[names[v] for v in cell] for cell in cells]
    return n, cells


def random_few(rng, most):
    """Any eight of few nodes: edges in both directions, faces with the same nodes in another ring."""
    n = rng.choice((8, 8, 9, 10, 12, 16, 30))
    return n, [rng.sample(range(n), 8) for _ in range(rng.randint(1, most))]


def random_chain(rng, most):
    """Each cell shares a face, an edge, a node or all its nodes with an earlier one, turned or in another ring."""
    n = rng.choice((16, 40, 200, MOST_NODES))
    cells = [rng.sample(range(n), 8)]
    for _ in range(rng.randint(0, most - 1)):
        old = rng.choice(cells)
        kept = rng.choice(([], old[:1], rng.sample(old, 2), [old[k] for k in rng.choice(FACE2NODE)], rng.sample(old, 4), old))
        kept = list(kept)
        way = rng.randrange(4)
        if way == 0:
            kept.reverse()
        elif way == 1 and kept:
            at = rng.randrange(len(kept))
            kept = kept[at:] + kept[:at]
        elif way == 2:
            rng.shuffle(kept)
        rest = [v for v in rng.sample(range(n), 16) if v not in kept][: 8 - len(kept)]
        cell = kept + rest
        cells.append(turned(cell, rng.choice(TURNS)) if rng.random() < 0.7 else cell)
    return n, cells


def random_apart(rng, most):
    """Cells that share nothing."""
    count = rng.randint(1, min(most, MOST_NODES // 8))
    n = rng.randint(8 * count, MOST_NODES)
    names = rng.sample(range(n), 8 * count)
    return n, [names[8 * i : 8 * i + 8] for i in range(count)]


def random_glued(rng, most, torn):
    """Each cell is glued to a face of an earlier one; at some it has another ring, where the mesh is to be torn."""
    count = rng.randint(2, max(most, 2))
    spoiled_at = rng.sample(range(1, count), min(rng.choice((1, 1, 1, 2, 3)), count - 1)) if torn else []
    cells = [list(range(8))]
    for i in range(1, count):
        order = rng.choice(OTHER_RING if i in spoiled_at else ONE_RING)
        cells.append(glued(rng.choice(cells), rng.randrange(6), order, range(4 * i + 4, 4 * i + 8), rng.randrange(6)))
    n = rng.choice((4 * count + 4, rng.randint(4 * count + 4, MOST_NODES)))
    names = rng.sample(range(n), n)
    rng.shuffle(cells)
    return n, [[names[v] for v in cell] for cell in cells]


def random_torn_grid(rng, most):
    """A grid in which one cell exchanges two neighbours in a ring that it shares."""
    cells = []
    while len(cells) < 2:
        n, cells = random_grid(rng, max(most, 2))
    cell = cells[rng.randrange(len(cells))]
    shared = [face for face in FACE2NODE if sum({cell[k] for k in face} <= set(other) for other in cells) > 1]
    face, at = rng.choice(shared), rng.randrange(4)
    a, b = face[at - 1], face[at]
    cell[a], cell[b] = cell[b], cell[a]
    return n, cells


def random_torn(rng, most):
    return random_torn_grid(rng, most) if rng.random() < 0.5 else random_glued(rng, most, torn=True)


def random_mesh(rng, most):
    return rng.choice((random_grid, random_few, random_chain, random_chain, random_apart))(rng, most)


def random_most(rng):
    """How many cells a mesh may have: most have few."""
    draw = rng.random()
    return rng.randint(1, 8) if draw < 0.75 else rng.randint(8, 40) if draw < 0.97 else MOST_CELLS


def spoiled(rng, n, numbers):
    """One to three faults in the cells: 9 and 10, in one cell or several."""
    numbers = list(numbers)
    for _ in range(rng.choice((1, 1, 2, 3))):
        place = rng.randrange(len(numbers))
        if rng.random() < 0.5:
            numbers[place] = rng.choice((n, n, n + 1, n + 255, 2 * n + 7, 0x7FFFFFFF, 0x80000000, TOP))
        else:
            cell = place - place % 8
            numbers[place] = numbers[cell + (place + rng.randrange(1, 8)) % 8] if cell + 8 <= len(numbers) else numbers[cell]
    return numbers


# ---- refine ----


def boundary_refine():
    yield REFINE, "example", (12, TWO_CELLS, 128)
    yield REFINE, "example", (8, WHOLE_CELL, 64)
    # node counts, with and without cells, and the first and last node numbers
    for n in (0, 1, 7, 8, 9, 1023, 1024, 1025, 1026, 65536, 0x80000000, TOP):
        for room in (0, 1, 63, 64, 65):
            yield REFINE, "count", (n, [], room)
            yield REFINE, "count", (n, WHOLE_CELL, room)
        last = [max(n - 8, 0) + i for i in range(8)]
        yield REFINE, "count", (n, last, 64)
        yield REFINE, "count", (n, [min(v + 1, TOP) for v in last], 64)
    # list lengths, whole or not, over the limit or not, with every kind of output
    full = [v for i in range(MOST_CELLS + 2) for v in turned([(i + k) % 1024 for k in range(8)], TURNS[i % 48])]
    for length in [*range(0, 26), 1015, 1016, 1017, 1023, 1024, 1025, 1031, 1032, 1033, 1040]:
        for room in sorted({0, max(8 * length - 1, 0), 8 * length, 8 * length + 1, 8 * length + 64}):
            yield REFINE, "length", (1024, full[:length], room)
    for length in (1024, 1025, 1032):
        for n, room in itertools.product((0, 1024, 1025), (0, 8 * length)):
            yield REFINE, "over", (n, [0] * length, room)
    # each place of a cell out of range, each pair of places alike, in the first and second cell
    for cell, k in itertools.product(range(2), range(8)):
        for value in (12, 13, TOP):
            numbers = list(TWO_CELLS)
            numbers[8 * cell + k] = value
            for room in (127, 128):
                yield REFINE, "range", (12, numbers, room)
        for j in range(8):
            if j != k:
                numbers = list(TWO_CELLS)
                numbers[8 * cell + k] = numbers[8 * cell + j]
                yield REFINE, "twice", (12, numbers, 128)
    # 9 before 10 in one cell, the earlier cell before the later, out of range twice
    for j, k in itertools.product(range(16), range(16)):
        if j != k:
            numbers = list(TWO_CELLS)
            numbers[j] = 12
            other = k - k % 8
            numbers[k] = numbers[other + (k + 1) % 8]
            for room in (127, 128):
                yield REFINE, "order", (12, numbers, room)
    # one edge or face shared, in each of 48 turns of the second cell
    for turn in TURNS:
        yield REFINE, "turn", (12, WHOLE_CELL + turned(TWO_CELLS[8:], turn), 128)
        yield REFINE, "turn", (14, WHOLE_CELL + turned([1, 8, 9, 0, 10, 11, 12, 13], turn), 130)
    # grids up to the limits
    for shape in ((2, 2, 2), (3, 2, 1), (4, 4, 8), (128, 1, 1), (2, 64, 1), (7, 6, 3), (5, 5, 5)):
        n, cells = grid(*shape)
        numbers = [v for cell in cells for v in cell]
        for room in (8 * len(numbers) - 1, 8 * len(numbers), 8 * len(numbers) + 3):
            yield REFINE, "grid", (n, numbers, room)
            yield REFINE, "grid", (1024, numbers, room)
    yield from boundary_rings()


# ---- twisted faces ----


def mesh(tag, n, cells, more=0):
    """A case with room for the answer, and more or less."""
    numbers = [v for cell in cells for v in cell]
    return REFINE, tag, (n, numbers, 8 * len(numbers) + more)


def boundary_rings():
    yield from example_rings()
    yield from glued_pairs()
    yield from far_pairs()
    yield from full_meshes()
    yield from several_pairs()
    yield from twists_and_faults()
    yield from same_eight_nodes()
    yield from no_common_face()


def example_rings():
    """The examples of request 2/12."""
    twisted = [TWISTED_CELLS[:8], TWISTED_CELLS[8:]]
    yield mesh("example", 12, twisted)
    yield mesh("example", 12, twisted, more=-1)
    yield mesh("example", 11, twisted)
    for third in ([0, 1, 2, 3, 4, 5, 6, 12], [0, 0, 2, 3, 4, 5, 6, 7]):
        yield mesh("example", 12, [*twisted, third])
    for second in (WHOLE_CELL, [0, 3, 2, 1, 4, 7, 6, 5], [0, 1, 3, 2, 4, 5, 6, 7]):
        yield mesh("example", 8, [WHOLE_CELL, second])
    yield mesh("example", 13, [WHOLE_CELL, [1, 2, 6, 12, 8, 9, 10, 11]])


def twisted_pairs():
    """The number lists of two cells that meet in another ring, at each face of the first."""
    for face, order in itertools.product(range(6), OTHER_RING):
        yield WHOLE_CELL + glued(WHOLE_CELL, face, order, range(8, 12), 5 - face)


def glued_pairs():
    """Two cells that meet at each face of either, in each of 24 orders, either cell first."""
    for face, at in itertools.product(range(6), range(6)):
        for order in ONE_RING + OTHER_RING:
            pair = [WHOLE_CELL, glued(WHOLE_CELL, face, order, range(8, 12), at)]
            tag = "untwisted" if order in ONE_RING else "twisted"
            yield mesh(tag, 12, pair)
            yield mesh(tag, 12, pair[::-1])


def far_pairs():
    """A twisted pair, and between its cells one to seven that share nothing."""
    for face, between in itertools.product(range(6), range(1, 8)):
        others = [list(range(12 + 8 * i, 20 + 8 * i)) for i in range(between)]
        last = glued(WHOLE_CELL, face, OTHER_RING[face + between], range(8, 12), 5 - face)
        yield mesh("twisted afar", 12 + 8 * between, [WHOLE_CELL, *others, last])


def full_meshes():
    """128 cells, apart or in a block, in which one meets an earlier one at each face of it."""
    apart = [list(range(8 * i, 8 * i + 8)) for i in range(MOST_CELLS)]
    for cells, (early, late) in itertools.product((apart, grid(4, 4, 8)[1]), ((0, 127), (126, 127), (0, 1), (63, 64))):
        for face in range(6):
            for order in (ONE_RING[face], OTHER_RING[face], OTHER_RING[-1 - face]):
                full = list(cells)
                full[late] = glued(cells[early], face, order, range(MOST_NODES - 4, MOST_NODES), 5 - face)
                if cells is apart and late != 127:  # the last nodes are the last cell's
                    full[127] = cells[late][:4] + cells[127][:4]
                yield mesh("untwisted" if order in ONE_RING else "twisted", MOST_NODES, full)
        yield mesh("twisted, but 8", MOST_NODES, full, more=-1)


def several_pairs():
    """Two and three twisted pairs: in a row, at two faces of a cell, at one face in its three rings, and apart."""
    meshes = []
    for k, one in enumerate(OTHER_RING):
        two = OTHER_RING[k - 5]
        middle = glued(WHOLE_CELL, k % 6, one, range(8, 12), 4)
        meshes.append([WHOLE_CELL, middle, glued(middle, 2, two, range(12, 16), k % 6)])
        meshes.append([WHOLE_CELL, middle, glued(WHOLE_CELL, (k + 1) % 6, two, range(12, 16), 0)])
    for face in range(6):
        rings = enumerate(((0, 1, 2, 3), (0, 2, 1, 3), (0, 1, 3, 2)))
        meshes.append([glued(WHOLE_CELL, face, order, range(8 + 4 * i, 12 + 4 * i), face) for i, order in rings])
        pair = WHOLE_CELL, glued(WHOLE_CELL, face, OTHER_RING[face], range(8, 12), 2)
        three = [[v + 12 * i for v in cell] for i in range(3) for cell in pair]
        meshes.append(three[:4])
        for start in range(6):
            yield mesh("twisted often", 36, three[start:] + three[:start])
    for cells in meshes:
        for ordered in itertools.permutations(cells):
            yield mesh("twisted often", 24, ordered)


def twists_and_faults():
    """A twisted pair with 9 and 10 before, between and behind its cells, and with every set of 7 and 8."""
    first, second = TWISTED_CELLS[:8], TWISTED_CELLS[8:]
    beyond, twice, both = [0, 1, 2, 3, 4, 5, 6, 12], [0, 0, 2, 3, 4, 5, 6, 7], [0, 0, 2, 3, 4, 5, 6, 12]
    meshes = [([first, second], "twisted")]
    for bad, number in (([beyond], 9), ([twice], 10), ([beyond, twice], 9), ([twice, beyond], 10), ([both], 9)):
        for cells in ([*bad, first, second], [first, *bad, second], [first, second, *bad]):
            meshes.append((cells, f"twisted, but {number}"))
    for (cells, tag), n, over, parted, short in itertools.product(meshes, (12, 1025), (0, 1), (0, 1), (0, 1)):
        if parted or short:
            tag = "twisted, but 8"
        if n > MOST_NODES or over:
            tag = "twisted, but 7"
        yield mesh(tag, n, [*cells, *[WHOLE_CELL] * (over * (129 - len(cells))), *[[0]] * parted], more=-short)


def same_eight_nodes():
    """A cell and its 48 turns; and the cell with two nodes exchanged, the ends of an edge or of a diagonal."""
    for turn in TURNS:
        yield mesh("untwisted", 8, [WHOLE_CELL, turn])
        yield mesh("untwisted", 8, [turn, WHOLE_CELL])
    for a, b in itertools.combinations(range(8), 2):
        steps = sum(HEX_SIGN[a][axis] != HEX_SIGN[b][axis] for axis in range(3))
        exchanged = [{a: b, b: a}.get(k, k) for k in range(8)]
        for pair in ([WHOLE_CELL, exchanged], [exchanged, WHOLE_CELL]):
            yield mesh("exchanged" if steps == 1 else "untwisted", 8, pair)


def no_common_face():
    """Three nodes of a face in a face of another cell; and all four of them, in places that are no face."""
    for face, at, left_out in itertools.product(range(6), range(6), range(4)):
        other = glued(WHOLE_CELL, face, OTHER_RING[(face + at + 4 * left_out) % 16], range(8, 12), at)
        yield mesh("no face", 13, [WHOLE_CELL, [12 if v == FACE2NODE[face][left_out] else v for v in other]])
    faces = [set(face) for face in FACE2NODE]
    for k, places in enumerate(itertools.combinations(range(8), 4)):
        if set(places) not in faces:
            yield mesh("no face", 12, [WHOLE_CELL, placed(places, FACE2NODE[k % 6], range(8, 12))])


def random_refine(rng):
    while True:
        most = random_most(rng)
        draw = rng.random()
        if draw < 0.5:
            tag, (n, cells) = "good", random_mesh(rng, most)
        elif draw < 0.63:
            tag, (n, cells) = "glued", random_glued(rng, most, torn=False)
        elif draw < 0.77:
            tag, (n, cells) = "torn", random_torn(rng, most)
        else:
            tag, (n, cells) = None, rng.choice((random_mesh, random_torn))(rng, most)
        numbers = [v for cell in cells for v in cell]
        room = 8 * len(numbers)
        if tag is not None:
            yield REFINE, tag, (n, numbers, room + rng.choice((0, 0, 1, 8, 64, 100)))
            continue
        faults = rng.choice(((0,), (0,), (0,), (1,), (2,), (3,), (4,), (0, 1), (0, 2), (1, 2), (2, 3), (0, 1, 2, 3, 4)))
        if 0 in faults:
            numbers = spoiled(rng, n, numbers)
        if 1 in faults:
            room -= rng.choice((1, 1, 1, room, 64))
        if 2 in faults:
            numbers = numbers[: len(numbers) - rng.randint(1, 7)]
        if 3 in faults:
            n = rng.choice((1025, 1026, TOP))
        if 4 in faults:
            numbers = (numbers * 130)[: rng.choice((1025, 1031, 1032, 1040))]
            numbers += [0] * (1025 - len(numbers))
            room = max(room, rng.choice((0, 8 * len(numbers))))
        yield REFINE, "fault" if len(faults) == 1 else "faults", (n, numbers, max(room, 0))


# ---- descendant ----


def boundary_descendant():
    yield DESCENDANT, "example", ([6], 0)
    yield DESCENDANT, "example", ([], 1)
    for depth in range(4):
        for path in itertools.product(range(8), repeat=depth):
            for corner in range(8):
                yield DESCENDANT, "short", (list(path), corner)
    for depth, corner in itertools.product(range(24), range(9)):
        for octant in range(9):
            yield DESCENDANT, "straight", ([octant] * depth, corner)
    for value in (8, 9, 15, 16, 255, 256, 0x7FFFFFFF, 0x80000000, TOP - 7, TOP):
        for depth in (0, 1, 2, 19, 20, 21, 22):
            yield DESCENDANT, "range", ([5] * depth, value)
            for place in range(depth):
                path = [3] * depth
                path[place] = value
                yield DESCENDANT, "range", (path, 7)
                yield DESCENDANT, "range", (path, value)


def random_descendant(rng):
    while True:
        depth = rng.choice((rng.randint(0, DEEPEST), rng.randint(0, DEEPEST), rng.randint(18, 23)))
        path = [rng.randrange(8) for _ in range(depth)]
        corner = rng.randrange(8)
        if rng.random() < 0.2 and depth:
            path[rng.randrange(depth)] = rng.choice((8, 9, 255, TOP))
        if rng.random() < 0.1:
            corner = rng.choice((8, 9, 255, TOP))
        yield DESCENDANT, "random", (path, corner)


# ---- files ----


PATTERNS = (0, 1 << 63, 0x7FF0000000000000, 0x7FF8000000000000, 0x7FF0000000000001, 0xFFF7FFFFFFFFFFFF, (1 << 64) - 1, 1)


def written(patterns, numbers, mark=b"HXM", version=1, nodes=None, cells=None):
    nodes = len(patterns) // 3 if nodes is None else nodes
    cells = len(numbers) // 8 if cells is None else cells
    return b"".join(
        (
            mark,
            struct.pack("<HII", version, nodes, cells),
            struct.pack(f"<{len(patterns)}Q", *patterns),
            struct.pack(f"<{len(numbers)}I", *numbers),
        )
    )


def rooms(data_nodes, data_cells):
    """Lengths of the two lent lists: long enough, one short, longer, none."""
    n, c = 3 * data_nodes, 8 * data_cells
    pairs = {(n, c), (n + 1, c), (n, c + 1), (n + 50, c + 9), (0, 0), (0, c), (n, 0)}
    pairs |= {(max(n - 1, 0), c), (n, max(c - 1, 0)), (max(n - 1, 0), max(c - 1, 0)), (max(n - 1, 0), c + 1)}
    return sorted(pairs)


def some_patterns(count, start=0):
    return [PATTERNS[(start + i) % 8] if i % 3 else (start + i) * 0x0123456789ABCDEF % 2**64 for i in range(count)]


def boundary_files():
    zeros = written([0] * 24, WHOLE_CELL)
    two = written(some_patterns(36), TWO_CELLS)
    block = written(some_patterns(81), [v for cell in grid(2, 2, 2)[1] for v in cell])
    good = ((zeros, 8, 1), (two, 12, 2), (written([], []), 0, 0), (written(some_patterns(3), []), 1, 0), (block, 27, 8))
    for data, n, c in good:
        for lent in rooms(n, c):
            yield HXM_READ, "lent", (data, *lent)
    for numbers in twisted_pairs():
        yield HXM_READ, "twisted file", (written(some_patterns(36), numbers), 36, 16)
    # every byte of a header with every value; every byte with some
    for at, flip in itertools.product(range(13), range(1, 256)):
        yield HXM_READ, "header", (damaged(two, at, flip), 36, 16)
    for data, n, c in good:
        for at in range(len(data)):
            for flip in (1, 0x80, 0xFF):
                yield HXM_READ, "byte", (damaged(data, at, flip), 3 * n, 8 * c)
    # cut at every length, and with bytes after; once with lists of no length
    for data, n, c in good:
        for length in range(len(data)):
            yield HXM_READ, "cut", (data[:length], 3 * n, 8 * c)
            yield HXM_READ, "cut", (data[:length], 0, 0)
        for more in (b"\0", b"H", data, b"\n", bytes(7), bytes(24), bytes(32), bytes(56)):
            yield HXM_READ, "after", (data + more, 3 * n, 8 * c)
    # cut short with a wrong mark or version
    for length in range(16):
        for data in (bytes(16), b"HXN" + two[3:], written(some_patterns(36), TWO_CELLS, version=2), b"hxm" + two[3:]):
            yield HXM_READ, "cut", (data[:length], 40, 40)
    # marks and versions
    for mark in (b"HXm", b"MXH", b"\0\0\0", b"HX\0", b"XHM", b" HX", b"hxm"):
        yield HXM_READ, "mark", (written(some_patterns(24), WHOLE_CELL, mark=mark), 24, 8)
    for version in (0, 2, 3, 255, 256, 257, 0x0101, 0xFFFF):
        yield HXM_READ, "version", (written(some_patterns(24), WHOLE_CELL, version=version), 24, 8)
    # counts around the limits, with all the bytes or without
    for n, c in itertools.product((0, 8, 1023, 1024, 1025), (0, 1, 127, 128, 129)):
        numbers = [v for i in range(c) for v in turned(range(8), TURNS[i % 48])]
        data = written(some_patterns(3 * n), numbers)
        yield HXM_READ, "limit", (data, 3 * n, 8 * c)
        for short in (data[:-1], data[:13], data + b"\0"):
            yield HXM_READ, "limit", (short, 3 * n, 8 * c)
        for lent in rooms(n, c):
            yield HXM_READ, "limit", (data, *lent)
    counts = (0, 8, 1024, 1025, 65536, 0x55555555, 0xAAAAAAAB, 0x08000000, 0x80000000, TOP)
    for n, c in itertools.product(counts, counts):
        yield HXM_READ, "counts", (written([0] * 24, WHOLE_CELL, nodes=n, cells=c), 24, 8)
    # node numbers out of range and twice
    for cell, k in itertools.product(range(2), range(8)):
        for value in (12, 13, 256, 0x0C000000, TOP):
            numbers = list(TWO_CELLS)
            numbers[8 * cell + k] = value
            for lent in ((36, 16), (35, 16), (0, 0)):
                yield HXM_READ, "range", (written(some_patterns(36), numbers), *lent)
        for j in range(8):
            if j != k:
                numbers = list(TWO_CELLS)
                numbers[8 * cell + k] = numbers[8 * cell + j]
                yield HXM_READ, "twice", (written(some_patterns(36), numbers), 36, 16)
    for j, k in itertools.product(range(16), range(16)):
        if j != k:
            numbers = list(TWO_CELLS)
            numbers[j] = 12
            other = k - k % 8
            numbers[k] = numbers[other + (k + 1) % 8]
            yield HXM_READ, "order", (written(some_patterns(36), numbers), 36, 15 + j % 2)
    # several refusals apply
    for mark, version, n, c, more, value, lent in itertools.product(
        (b"HXM", b"HXX"), (1, 2), (12, 1025), (2, 129), (b"", b"\0"), (1, 12, 7), ((36, 16), (36, 15))
    ):
        numbers = TWO_CELLS[:7] + [value] + TWO_CELLS[8:]
        data = written(some_patterns(36), numbers, mark, version, n, c) + more
        yield HXM_READ, "faults", (data, *lent)
    full = written(some_patterns(3 * MOST_NODES), [v for i in range(MOST_CELLS) for v in turned(range(i, i + 8), TURNS[i % 48])])
    for length in (*range(0, len(full), 997), *range(len(full) - 40, len(full))):
        yield HXM_READ, "cut", (full[:length], 3 * MOST_NODES, MOST_NUMBERS)
    for data in (full, full + b"\0", full * 2):
        for lent in rooms(MOST_NODES, MOST_CELLS):
            yield HXM_READ, "full", (data, *lent)


def damaged(data, at, flip):
    return data[:at] + bytes((data[at] ^ flip,)) + data[at + 1 :]


def random_patterns(rng, count):
    if rng.random() < 0.3:
        return [rng.choice(PATTERNS) for _ in range(count)]
    return list(struct.unpack(f"<{count}Q", rng.randbytes(8 * count)))


def random_lists(rng):
    """The two lists of a good mesh, most often a small one."""
    draw = rng.random()
    if draw < 0.02:
        n, cells = rng.choice((0, 1, 5, 1024)), []
    else:
        n, cells = random_mesh(rng, rng.choice((1, 1, 2, 3)) if draw < 0.6 else random_most(rng))
    numbers = [v for cell in cells for v in cell]
    if draw < 0.6 and n > 40:  # few nodes, so that every byte can be taken
        names = {v: i for i, v in enumerate(sorted(set(numbers)))}
        n, numbers = len(names), [names[v] for v in numbers]
    return random_patterns(rng, 3 * n), numbers


def random_files(rng):
    while True:
        patterns, numbers = random_lists(rng)
        n, cells = len(patterns) // 3, len(numbers) // 8
        data = written(patterns, numbers)
        room = (3 * n, 8 * cells)
        for lent in rooms(n, cells):
            yield HXM_READ, "lent", (data, *lent)
        longer = (room[0] + rng.choice((0, 1, 30)), room[1] + rng.choice((0, 1, 80)))
        if len(data) <= 700 and rng.random() < 0.2:
            places, lengths = range(len(data)), range(len(data))
        else:
            tail = range(13 + 24 * n, len(data))
            places = [*range(13), *[rng.randrange(len(data)) for _ in range(10)], *[rng.choice(tail) for _ in range(25) if tail]]
            lengths = [rng.randrange(len(data)) for _ in range(8)] + [len(data) - 1, 13 + 24 * n - 1, 13]
        for at in places:
            yield HXM_READ, "byte", (damaged(data, at, rng.randrange(1, 256)), *longer)
        for length in lengths:
            yield HXM_READ, "cut", (data[:length], *longer)
        for more in (1, rng.randint(2, 64)):
            yield HXM_READ, "after", (data + rng.randbytes(more), *longer)
        for _ in range(12 if numbers else 0):
            short = rng.choice((0, 0, 1))
            yield HXM_READ, "cells", (written(patterns, spoiled(rng, n, numbers)), room[0], room[1] - short)
        for _ in range(20):
            yield HXM_READ, "faults", random_faults(rng, n, patterns, numbers)


def random_faults(rng, n, patterns, numbers):
    """A file with none, one or several of all faults."""
    likely = rng.choice((0.05, 0.2, 0.5))
    has = lambda: rng.random() < likely
    if has() and numbers:
        numbers = spoiled(rng, n, numbers)
    mark = rng.choice((b"HXN", b"hXM", rng.randbytes(3))) if has() else b"HXM"
    version = rng.choice((0, 2, 256, 257, rng.randrange(65536))) if has() else 1
    nodes = rng.choice((n + 1, n - 1, 1025, TOP)) % 2**32 if has() else n
    cells = rng.choice((len(numbers) // 8 + 1, 129, 0, TOP)) if has() else len(numbers) // 8
    data = written(patterns, numbers, mark, version, nodes, cells)
    if has():
        data = data + rng.randbytes(rng.randint(1, 40)) if rng.random() < 0.5 else data[: -rng.randint(1, 40)]
    node_room = max(3 * n - rng.choice((1, 3, 3 * n)), 0) if has() else 3 * n + rng.choice((0, 1, 9))
    cell_room = max(len(numbers) - rng.choice((1, 8, len(numbers))), 0) if has() else len(numbers) + rng.choice((0, 1, 9))
    return data, node_room, cell_room


# ---- writing a file ----


NANS = (0x7FF4000000000000, 0x7FF7FFFFFFFFFFFF, 0x7FFFFFFFFFFFFFFF, 0xFFF0000000000001, 0xFFF4000000000000, 0xFFF8000000000000)
PLAIN = (0x0102030405060708, 0xF7E6D5C4B3A29180, 0x000FFFFFFFFFFFFF, 0x0010000000000000, 0x7FEFFFFFFFFFFFFF, 0xFFF0000000000000)
WORD_COUNTS = (*range(5), *range(3069, 3076))
NUMBER_COUNTS = (0, 1, 7, 8, 9, 16, 1016, 1023, 1024, 1025, 1032)


def needed(patterns, numbers):
    """The bytes of a file with these lists, whole or not."""
    return 13 + 8 * len(patterns) + 4 * len(numbers)


def buffers(patterns, numbers):
    """Lengths of the buffer: none, one short, just right, one more, and many more."""
    right = needed(patterns, numbers)
    return 0, right - 1, right, right + 1, right + 64


def faulty(n):
    """Two cells of twelve nodes or more with no fault, 9, 10, both in one cell, and both in two, either first."""
    beyond, twice = {3: n}, {5: 4}
    for faults in ({}, beyond, twice, beyond | twice, beyond | {13: TWO_CELLS[9]}, twice | {11: n}):
        yield [faults.get(place, number) for place, number in enumerate(TWO_CELLS)]


def boundary_writes():
    yield from example_writes()
    for numbers in twisted_pairs():
        yield HXM_WRITE, "twisted file", (some_patterns(36), numbers, 365)
    # lists of all lengths near the limits, whole or not
    spread = [(8 * i + k) % 1023 for i in range(MOST_CELLS + 1) for k in TURNS[i % 48]]
    for words, count in itertools.product(WORD_COUNTS, NUMBER_COUNTS):
        patterns, numbers = some_patterns(words), spread[:count]
        for room in buffers(patterns, numbers):
            yield HXM_WRITE, "length", (patterns, numbers, room)
    # over the limits or not, in zeros
    for words, count in itertools.product((36, 3069, 3071, 3072, 3073, 3074, 3075), (0, 7, 8, 1023, 1024, 1025, 1032)):
        for room in (0, needed(range(words), range(count))):
            yield HXM_WRITE, "over", ([0] * words, [0] * count, room)
    # every set of refusals that can meet
    for words, count in itertools.product((36, 37, 3075, 3076), (16, 17, 1032, 1033)):
        patterns = some_patterns(words)
        for two in faulty(words // 3):
            numbers = two + (TWO_CELLS * 65)[: count - 16]
            short = needed(range(words // 3 * 3), range(count // 8 * 8)) - 1
            for room in (0, short, needed(patterns, numbers), needed(patterns, numbers) + 64):
                yield HXM_WRITE, "faults", (patterns, numbers, room)
    # the lists end anywhere in a node or cell
    for words, count in itertools.product(range(36, 39), range(16, 24)):
        patterns = some_patterns(words)
        for two in faulty(12):
            numbers = two + WHOLE_CELL[: count - 16]
            for room in (0, 364, needed(patterns, numbers)):
                yield HXM_WRITE, "whole", (patterns, numbers, room)
    # each place of two cells out of range, each pair of places alike
    patterns = some_patterns(36)
    for cell, k in itertools.product(range(2), range(8)):
        for value in (12, 13, TOP):
            numbers = list(TWO_CELLS)
            numbers[8 * cell + k] = value
            for room in (364, 365):
                yield HXM_WRITE, "range", (patterns, numbers, room)
        for j in range(8):
            if j != k:
                numbers = list(TWO_CELLS)
                numbers[8 * cell + k] = numbers[8 * cell + j]
                for room in (364, 365):
                    yield HXM_WRITE, "twice", (patterns, numbers, room)
    # 9 before 10 in one cell, the earlier cell before the later
    for j, k in itertools.product(range(16), range(16)):
        if j != k:
            numbers = list(TWO_CELLS)
            numbers[j] = 12
            other = k - k % 8
            numbers[k] = numbers[other + (k + 1) % 8]
            for room in (364, 365):
                yield HXM_WRITE, "order", (patterns, numbers, room)
    # few nodes and a cell: those it names, the one behind them, the last of them eight times
    for words in (0, 1, 2, 3, 4, 20, 21, 22, 23, 24, 25, 26, 27):
        patterns, n = some_patterns(words), words // 3
        for cell in (WHOLE_CELL, WHOLE_CELL[::-1], [0] * 8, [max(n - 1, 0)] * 8, [n] * 8, [TOP] * 8, [*range(1, 9)]):
            for room in buffers(patterns, cell):
                yield HXM_WRITE, "few", (patterns, cell, room)
    # odd bits in each place of a node, alone and among others
    for pattern in PATTERNS + NANS + PLAIN:
        for place in range(3):
            patterns = [0] * 3
            patterns[place] = pattern
            yield HXM_WRITE, "bits", (patterns, [], 37 + place)
        for place in range(24):
            patterns = some_patterns(24)
            patterns[place] = pattern
            yield HXM_WRITE, "bits", (patterns, WHOLE_CELL, 237 + place % 3)
    # every length of the buffer
    for patterns, numbers in (([], []), (some_patterns(3), []), (some_patterns(24), WHOLE_CELL)):
        for room in range(needed(patterns, numbers) + 64):
            yield HXM_WRITE, "room", (patterns, numbers, room)
    # counts of one byte and of two, up to the limits
    for n, c in itertools.product((8, 255, 256, 257, 1023, 1024), (0, 1, 2, 127, 128)):
        patterns = some_patterns(3 * n)
        numbers = [v for i in range(c) for v in turned(range(n - 8, n), TURNS[i % 48])]
        for room in buffers(patterns, numbers)[1:]:
            yield HXM_WRITE, "limit", (patterns, numbers, room)
    # the longest file, and a fault in its first or last cell
    patterns = some_patterns(3 * MOST_NODES)
    full = [8 * i + k for i in range(MOST_CELLS) for k in TURNS[i % 48]]
    for room in buffers(patterns, full):
        yield HXM_WRITE, "full", (patterns, full, room)
    for place, value in itertools.product((*range(8), *range(MOST_NUMBERS - 8, MOST_NUMBERS)), (MOST_NODES, None)):
        numbers = list(full)
        numbers[place] = numbers[place ^ 1] if value is None else value
        for room in (28684, 28685):
            yield HXM_WRITE, "full", (patterns, numbers, room)


def example_writes():
    """The examples of request 1/12, each refusal in its place, and which comes first where two meet."""
    zeros = [0] * 24
    odd = [0x7FF0000000000001, 1 << 63, 0]
    twice, beyond = [*range(7), 0], [*range(7), 8]
    for patterns, numbers, room in (
        ([], [], 13),
        ([], [], 12),
        (odd, [], 37),
        (odd, [], 38),
        (zeros, WHOLE_CELL, 240),
        (zeros, WHOLE_CELL, 237),
        (zeros, WHOLE_CELL, 236),
        (some_patterns(36), TWO_CELLS, 365),
        (some_patterns(36), TWO_CELLS, 366),
        ([0] * 3075, WHOLE_CELL, 28800),  # 7, the nodes
        (zeros, WHOLE_CELL + [0] * 1024, 28800),  # 7, the cells
        ([0] * 3072, [0] * 1025, 28800),
        ([], [0] * 1032, 0),
        (zeros + [0], WHOLE_CELL, 300),  # 8, the nodes
        (zeros + [0] * 2, WHOLE_CELL, 300),
        (zeros, WHOLE_CELL + [0], 300),  # 8, the cells
        (zeros, WHOLE_CELL[:7], 300),
        (zeros, beyond, 300),  # 9
        (zeros, twice, 300),  # 10
        (some_patterns(36), TWO_CELLS, 364),  # 8, the buffer
        ([0] * 3072, [], 24588),
        ([0] * 3073, WHOLE_CELL[:7], 0),
        ([0] * 4, WHOLE_CELL + [0] * 1017, 0),
        ([0] * 4, WHOLE_CELL, 0),
        ([0] * 4, WHOLE_CELL[:7], 300),
        (zeros, beyond[1:], 300),
        ([], WHOLE_CELL, 300),
        (zeros, beyond, 0),
        (zeros, twice, 0),
        (zeros, twice + beyond, 400),
        (zeros, beyond + twice, 400),
        (zeros, [0, 0, 8, 3, 4, 5, 6, 7], 300),
    ):
        yield HXM_WRITE, "example", (patterns, numbers, room)


def random_writes(rng):
    while True:
        patterns, numbers = random_lists(rng)
        right = needed(patterns, numbers)
        for room in buffers(patterns, numbers):
            yield HXM_WRITE, "room", (patterns, numbers, room)
        few = len(patterns) <= 120  # of a long list not so many
        for _ in range((12 if few else 4) if numbers else 0):
            yield HXM_WRITE, "cells", (patterns, spoiled(rng, len(patterns) // 3, numbers), right - rng.choice((0, 0, 1)))
        for _ in range(20 if few else 6):
            yield HXM_WRITE, "faults", random_write_faults(rng, patterns, numbers)


def resized(rng, elements, length):
    """The list cut, or with any node numbers behind it."""
    return elements[: max(length, 0)] + [rng.randrange(MOST_NODES) for _ in range(length - len(elements))]


def random_write_faults(rng, patterns, numbers):
    """Two lists and a buffer with none, one or several of all faults; a node more or less, or a cell, is none by itself."""
    likely = rng.choice((0.05, 0.2, 0.5))
    has = lambda: rng.random() < likely
    if has() and numbers:
        numbers = spoiled(rng, len(patterns) // 3, numbers)
    if has():
        patterns = resized(rng, patterns, len(patterns) + rng.randint(-4, 4))
    if has():
        numbers = resized(rng, numbers, len(numbers) + rng.randint(-9, 9))
    if has() and rng.random() < 0.2:
        patterns = resized(rng, patterns, rng.choice((3070, 3072, 3073, 3074, 3075, 3080)))
    if has() and rng.random() < 0.5:
        numbers = resized(rng, numbers, rng.choice((1016, 1024, 1025, 1031, 1032, 1040)))
    right = needed(patterns, numbers)
    room = max(right - rng.choice((1, 1, 4, 8, 32, right)), 0) if has() else right + rng.choice((0, 0, 1, 9, 64))
    return patterns, numbers, room
