"""The worked examples of document 01 on the additions, with the numbers as printed there, and those of document 02's requests: looked at on every run."""

import itertools
import struct
from collections import Counter

from answers import HEX_SIGN, Cell, Place, by_nodes, by_sides, check, descendant, hxm_read, hxm_write, locate_checked, refine, refine_01
from answers import hold_metal, refined_mesh, volume216, volume_report, volume_text

CHILDREN = """
0 8 20 11 16 21 26 24
8 1 9 20 21 17 22 26
20 9 2 10 26 22 18 23
11 20 10 3 24 26 23 19
16 21 26 24 4 12 25 15
21 17 22 26 12 5 13 25
26 22 18 23 25 13 6 14
24 26 23 19 15 25 14 7
"""

# One node whose coordinates are a signalling NaN, minus zero and plus zero, and no cell.
ODD_NODE = [0x7FF0000000000001, 0x8000000000000000, 0]
ODD_FILE = """
48 58 4d 01 00 01 00 00 00 00 00 00 00
01 00 00 00 00 00 f0 7f 00 00 00 00 00 00 00 80 00 00 00 00 00 00 00 00
"""


def hold():
    hold_scope()
    hold_writing()
    hold_rings()
    hold_twisted()
    hold_volumes()
    hold_children()


def hold_scope():
    """Document 01."""
    cube = [2.0 * s for signs in HEX_SIGN for s in signs]
    checked = lambda corners, at, tolerance: check(Place(Cell(corners), at), tolerance)[0]
    with_first = lambda value: [value] + cube[1:]
    assert checked(cube, (0.5, 0.0, 0.0), 1.0) == 0  # P6
    assert checked(cube, (0.5, 0.0, 0.0), 0.5) == 6  # P7
    assert checked(cube, (1 + 2.0**-52, 0.0, 0.0), 1.0) == 5  # P8
    assert checked(with_first(2.0**100), (0.0, 0.0, 0.0), 1.0) != 3  # P9
    assert checked(with_first(2.0**-101), (0.0, 0.0, 0.0), 1.0) == 3  # P10
    assert checked(with_first(-0.0), (0.0, 0.0, 0.0), 1.0) == 0
    assert descendant([6], 0) == (0, (0, 0, 0)) and descendant([], 1) == (0, (1, -1, -1))  # P12

    located = lambda corners: locate_checked(Cell(corners), 0.0)[0]
    far = [v for x, y, z in HEX_SIGN for v in (5.0 + 2.0 * x, float(y), float(z))]
    assert located(cube) == (0, (0.0, 0.0, 0.0))
    assert located(far) == (2, None)
    assert located([1.0] * 24) == (1, None)
    assert located(with_first(float("nan"))) == (3, None)

    number, (free, children) = refine(12, [*range(8), 1, 8, 9, 2, 5, 11, 10, 6], 128)
    assert (number, free) == (0, 45)
    # the shared face (1,2,6,5): child 1, corner 6 of the first cell, child 0, corner 7 of the second
    assert children[8 * 1 + 6] == 26 and children[64 + 8 * 0 + 7] == 26
    data = b"HXM" + struct.pack("<HII24Q8I", 1, 8, 1, *[0] * 24, *range(8))
    number, (nodes, cells, _, numbers) = hxm_read(data, 24, 8)
    assert (number, nodes, cells) == (0, 8, 1)
    assert refine(nodes, numbers, 64) == (0, (27, [int(word) for word in CHILDREN.split()]))


def hold_writing():
    """Document 02, 1/12."""
    assert hxm_write([], [], 13) == (0, (13, bytes.fromhex("48 58 4d 01 00 00 00 00 00 00 00 00 00")))
    assert hxm_write([], [], 12) == (8, None)
    assert hxm_write(ODD_NODE, [], 37) == (0, (37, bytes.fromhex(ODD_FILE)))
    cell = list(range(8))
    data = b"HXM" + struct.pack("<HII24Q8I", 1, 8, 1, *[0] * 24, *cell)
    assert hxm_write([0] * 24, cell, 240) == (0, (237, data))
    assert hxm_write([0] * 24, cell, 236) == (8, None)
    number, (length, data) = hxm_write([0] * 3072, list(range(1024)), 28685)
    assert (number, length, len(data)) == (0, 28685, 28685)

    # what meets: both 7 before both 8, then the cells in their order, last the buffer
    refused = lambda coordinates, numbers, room: hxm_write([0] * coordinates, numbers, room)[0]
    twice = [*range(7), 0]
    beyond = [*range(7), 8]
    assert refused(3073, cell[:7], 0) == 7
    assert refused(4, (cell * 129)[:1025], 0) == 7
    assert refused(4, cell, 0) == 8
    assert refused(24, cell[:7], 0) == 8
    assert refused(0, cell, 0) == 9
    assert refused(24, beyond, 0) == 9
    assert refused(24, twice, 0) == 10
    assert refused(24, twice + beyond, 0) == 10
    assert refused(24, beyond + twice, 0) == 9
    assert refused(24, [0, 0, 8, 3, 4, 5, 6, 7], 300) == 9
    assert refused(24, cell, 0) == 8

    # the two circles
    nodes = [0x7FF0000000000001 + 0x0123456789ABCDEF * i & 0xFFFFFFFFFFFFFFFF for i in range(36)]
    cells = [*cell, 1, 8, 9, 2, 5, 11, 10, 6]
    number, (length, data) = hxm_write(nodes, cells, 365)
    assert (number, length) == (0, 365)
    assert hxm_read(data, 36, 16) == (0, (12, 2, tuple(nodes), tuple(cells)))
    assert hxm_write(*hxm_read(data, 36, 16)[1][2:], 365) == (0, (365, data))


def hold_rings():
    """Document 02, 2/12: when two faces are one."""
    one, other = (1, 2, 6, 5), (1, 6, 2, 5)
    assert by_sides(one) == by_sides((6, 2, 1, 5))
    assert by_sides(one) != by_sides(other) and by_nodes(one) == by_nodes(other)
    assert len(by_sides(one) & by_sides(other)) == 2  # "two of the edges differ"
    assert sorted(Counter(map(by_sides, itertools.permutations(one))).values()) == [8, 8, 8]


def hold_twisted():
    """Document 02, 2/12: what is answered to two cells that meet, and what document 01's rule answered."""

    def told(call, n, cells, room):
        """The next free number, or minus the refusal's."""
        number, outputs = call(n, sum(cells, []), room)
        return outputs[0] if number == 0 else -number

    answer = lambda n, *cells: told(refine, n, cells, 64 * len(cells))
    answer_01 = lambda n, *cells: told(refine_01, n, cells, 64 * len(cells))
    cell = list(range(8))
    twisted = [1, 8, 9, 5, 6, 11, 10, 2]  # its f4 runs 5, 1, 6, 2
    assert answer(12, cell, [1, 8, 9, 2, 5, 11, 10, 6]) == 45
    assert answer(12, cell, twisted) == -14 and answer_01(12, cell, twisted) == 47
    assert Counter(answer(12, cell, [*ring, 8, 9, 10, 11]) for ring in itertools.permutations((1, 2, 6, 5))) == {45: 8, -14: 16}
    assert answer(8, cell, cell) == 28
    assert answer(8, cell, [0, 3, 2, 1, 4, 7, 6, 5]) == 28
    exchanged = [0, 1, 3, 2, 4, 5, 6, 7]
    assert answer(8, cell, exchanged) == -14 and answer_01(8, cell, exchanged) == 34
    assert answer(13, cell, [1, 2, 6, 12, 8, 9, 10, 11]) == 49

    # each two nodes exchanged: the ends of 12 edges, and of 16 diagonals
    exchanges = [[{a: b, b: a}.get(k, k) for k in range(8)] for a, b in itertools.combinations(range(8), 2)]
    assert Counter(answer(8, cell, second) > 0 for second in exchanges) == {False: 12, True: 16}

    # what meets
    assert told(refine, 12, (cell, twisted), 127) == -8
    assert answer(12, cell, twisted, [0, 1, 2, 3, 4, 5, 6, 12]) == -9
    assert answer(12, cell, twisted, [0, 0, 2, 3, 4, 5, 6, 7]) == -10
    assert answer(11, cell, twisted) == -9

    # the reader and the writer take a twisted mesh as any other
    number, (length, data) = hxm_write([0] * 36, cell + twisted, 365)
    assert (number, length) == (0, 365)
    assert hxm_read(data, 36, 16) == (0, (12, 2, (0,) * 36, (*cell, *twisted)))


def solid(corners, *cells):
    """A file with a node for each corner, and these cells."""
    floats, numbers = sum(corners, ()), sum(cells, [])
    return b"HXM" + struct.pack(f"<HII{len(floats)}d{len(numbers)}I", 1, len(corners), len(cells), *floats, *numbers)


def box(a, b, c):
    return [(a * (x > 0), b * (y > 0), c * (z > 0)) for x, y, z in HEX_SIGN]


def hold_volumes():
    """Document 02, 3/12."""
    cell, mirror = list(range(8)), [0, 3, 2, 1, 4, 7, 6, 5]
    volumes = lambda corners, *cells: volume_report(solid(corners, *cells), len(cells))
    text = lambda corners, *cells: volume_text(solid(corners, *cells))
    cube, unit, flat = box(2, 2, 2), box(1, 1, 1), box(2, 2, 0)
    assert len(solid(cube, cell)) == 237
    assert text(cube, cell) == "0 1728\ntotal 1728\nfirst none\n"
    assert volumes(cube, cell) == (0, (1728, 1, 1, [1728]))
    assert volumes(box(1, 2, 3), cell) == (0, (1296, 1, 1, [1296]))
    assert volumes(unit[:6] + unit[:1] + unit[7:], cell) == (0, (54, 1, 1, [54]))
    block = [(0, 0, 0), (4, 0, 0), (5, 3, 0), (0, 3, 1), (0, 0, 6), (4, 1, 6), (5, 4, 7), (0, 3, 6)]
    assert volumes(block, cell) == (0, (16920, 1, 1, [16920])) and 3 * 16920 == 216 * (3 * 78 + 1)
    assert text(cube, cell, mirror) == "0 1728\n1 -1728\ntotal 0\nfirst 1\n"
    assert volumes(cube, cell, mirror) == (0, (0, 2, 1, [1728, -1728]))
    assert text(flat, cell) == "0 0\ntotal 0\nfirst 0\n"
    assert text([]) == "total 0\nfirst none\n" and volumes([]) == (0, (0, 0, 0, []))
    assert text([(0.5, 0.0, 0.0)]) == "refused 15\n"

    # the largest
    large = [(1024 * x, 1024 * y, 1024 * z) for x, y, z in HEX_SIGN]
    negated = [(-x, -y, -z) for x, y, z in large]
    assert volumes(large, cell) == (0, (1855425871872, 1, 1, [1855425871872]))
    assert volumes(large, *[cell] * 128) == (0, (237494511599616, 128, 128, [1855425871872] * 128))
    assert volumes(negated, *[cell] * 128) == (0, (-237494511599616, 128, 0, [-1855425871872] * 128))

    # words
    worded = lambda word: volume_report(hxm_write([word] + [0] * 23, cell, 237)[1][1], 1)[0]
    assert [worded(word) for word in (0x4090000000000000, 0x8000000000000000)] == [0, 0]
    bad = 0x4090000000000001, 0x4090040000000000, 0x3FE0000000000000, 1, 0x7FF0000000000000, 0x7FF0000000000001
    assert [worded(word) for word in bad] == [15] * 6

    # what meets
    half = [(0.5, 0.0, 0.0)] + cube[1:]
    assert volumes(half, cell, [*range(7), 8]) == (9, None)
    assert volumes(half, cell, [*range(7), 0]) == (10, None)
    assert volume_report(solid(half, cell), 0) == (15, None)
    assert volume_report(solid(cube, cell), 0) == (8, None)
    assert volume_report(solid(cube, cell), 9) == volumes(cube, cell)
    twisted = [1, 8, 9, 5, 6, 11, 10, 2]
    assert volumes(cube + block[:4], cell, twisted)[0] == 0


def hold_children():
    """Document 02, 5/12."""
    cell = list(range(8))

    def held(corners, *cells):
        """The reports of a mesh and of its children, and where the children's numbers stand."""
        fine, children = refined_mesh(sum(corners, ()), sum(cells, []))
        places = [tuple(fine[i : i + 3]) for i in range(0, len(fine), 3)]
        numbers = [children[i : i + 8] for i in range(0, len(children), 8)]
        (_, parents), (_, reported) = volume_report(solid(corners, *cells), 128), volume_report(solid(places, *numbers), 128)
        hold_metal(parents, reported)
        return (parents[0], reported[0], reported[3]), places, numbers

    cube = box(2, 2, 2)
    assert held(cube, cell)[0] == (1728, 884736, [110592] * 8)
    bent = [*cube[:6], (3, 3, 3), cube[7]]
    numbers, places, children = held(bent, cell)
    assert numbers == (2376, 1216512, [120960, 134784, 162432, 134784, 134784, 162432, 203904, 162432])
    stands = [(9, 9, 9), (18, 10, 10), (20, 20, 12), (10, 18, 10), (10, 10, 18), (20, 12, 20), (24, 24, 24), (12, 20, 20)]
    assert [places[number] for number in children[6]] == stands
    # in docs/VOLUMES.md: the bent cube times 0.123457, and middles that are rounded to six digits behind the point, all in millionths
    corners = tuple(123457 * v for corner in bent for v in corner)
    middles = [round(v / 8) for v in refined_mesh(corners, cell)[0]]
    rounded = [volume216(tuple(middles[3 * number + axis] for number in child for axis in range(3))) for child in children]
    assert (volume216(corners), sum(rounded)) == (4470885982866583368, 4470874460205328224)
    folded = held([cube[6], *cube[1:6], cube[0], cube[7]], cell)[0]
    assert folded == (-864, -442368, [-96768, *[-41472] * 5, -96768, -41472])
    assert held(box(2, 2, 0), cell)[0] == (0, 0, [0] * 8)
    nodes = [(-5, -4, -4), (0, -3, 5), (-1, -1, 4), (-2, 4, -5), (4, 5, -3), (1, 5, 1), (3, 0, 3), (2, 3, -1)]
    nodes += [(-5, -5, 0), (2, 0, 1), (1, 3, -3), (3, -3, -2)]
    numbers, places, _ = held(nodes, cell, [1, 8, 9, 2, 5, 11, 10, 6])
    assert numbers[:2] == (-5724, -2930688)
    assert places[26] == tuple(2 * sum(nodes[k][axis] for k in (1, 2, 6, 5)) for axis in range(3))
