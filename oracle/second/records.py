"""The two forms in which a case and its answer are written: the driver's stream and the stored sample.

A case is (function, tag, arguments); the tag says what it was made for. Arguments are those of the C
function without its outputs; an output list is given by its length.
"""

import struct

import answers

CHECK, LOCATE_CHECKED, CHECK_PROPOSALS, REFINE, DESCENDANT, HXM_READ, HXM_WRITE, VOLUME_REPORT = range(23, 31)
NAMES = {
    "check": CHECK,
    "locate_checked": LOCATE_CHECKED,
    "check_proposals": CHECK_PROPOSALS,
    "refine": REFINE,
    "descendant": DESCENDANT,
    "hxm_read": HXM_READ,
    "hxm_write": HXM_WRITE,
    "volume_report": VOLUME_REPORT,
}

STREAM_MARK = b"ISN2ND1\n"
END = 0

MOST_INPUT_WORDS, MOST_OUTPUT_WORDS = 400, 600
# A mesh is stored where the replay has room for it: its numbers up to the last that is not zero, their length, and the output's.
MOST_MESH_NUMBERS, MOST_MESH_LENGTH, MOST_MESH_ROOM = 252, 1040, 8256
# A writing is stored where the replay has room for it, and shows each byte of its file and one behind.
MOST_WRITE_WORDS, MOST_WRITE_ROOM, MOST_WRITTEN = 255, 28800, 400
# A report is stored where the replay has room for it: no file of so many words has more than 56 cells.
MOST_REPORT_WORDS, MOST_REPORT_ROOM = 255, 192
NAN_WORD = 0x7FF8000000000000


def answer(function, arguments):
    """(number, outputs, what demand 3 says)"""
    if function == CHECK:
        place, tolerance = arguments
        number, demand = answers.check(place, tolerance)
        return number, None, demand
    if function == LOCATE_CHECKED:
        (number, at), demand = answers.locate_checked(*arguments)
        return number, at, demand
    call = {
        CHECK_PROPOSALS: answers.check_proposals,
        REFINE: answers.refine,
        DESCENDANT: answers.descendant,
        HXM_READ: answers.hxm_read,
        HXM_WRITE: answers.hxm_write,
        VOLUME_REPORT: answers.volume_report,
    }[function]
    return *call(*arguments), answers.NO_DEMAND


# ---- the driver's stream ----


def floats(values):
    return struct.pack(f"<{len(values)}d", *values)


def words32(values):
    return struct.pack(f"<{len(values)}I", *[v & 0xFFFFFFFF for v in values])


def words64(values):
    return struct.pack(f"<{len(values)}Q", *values)


def signed64(values):
    return struct.pack(f"<{len(values)}q", *values)


def stream_record(function, arguments, answered):
    """Eight bytes (function, number, demand, 0, length as 32 bits), then inputs, then a success's outputs."""
    number, outputs, demand = answered
    good = number == 0
    if function == CHECK:
        place, tolerance = arguments
        parts = [floats(place.cell.corners), floats(place.at), floats([tolerance])]
    elif function == LOCATE_CHECKED:
        cell, tolerance = arguments
        parts = [floats(cell.corners), floats([tolerance])]
        if good:
            parts.append(floats(outputs))
    elif function == CHECK_PROPOSALS:
        cell, records, room = arguments
        parts = [floats(cell.corners), words32([len(records), room])]
        parts.append(floats([v for record in records for v in record]))
        if good:
            accepted, numbers = outputs
            parts += [words32([accepted]), words32(numbers)]
    elif function == REFINE:
        n, numbers, room = arguments
        parts = [words32([n, len(numbers), room]), words32(numbers)]
        if good:
            free, children = outputs
            parts += [words32([free]), words32(children)]
    elif function == DESCENDANT:
        path, corner = arguments
        parts = [words32([len(path), corner]), words32(path)]
        if good:
            parts.append(words32(outputs))
    elif function == HXM_READ:
        data, node_room, cell_room = arguments
        parts = [words32([len(data), node_room, cell_room]), data]
        if good:
            nodes, cells, patterns, numbers = outputs
            parts += [words32([nodes, cells]), words64(patterns), words32(numbers)]
    elif function == HXM_WRITE:
        patterns, numbers, room = arguments
        parts = [words32([len(patterns), len(numbers), room]), words64(patterns), words32(numbers)]
        if good:
            length, data = outputs
            parts += [words32([length]), data]
    else:
        data, room = arguments
        parts = [words32([len(data), room]), data]
        if good:
            total, cells, first, volumes = outputs
            parts += [signed64([total]), words32([cells, first]), signed64(volumes)]
    body = b"".join(parts)
    return struct.pack("<BBBBI", function, number, demand, 0, len(body)) + body


def stream_end(records):
    return struct.pack("<BBBBIQ", END, 0, 0, 0, 8, records)


# ---- the stored sample ----


def float_words(values):
    bits = struct.unpack(f"<{len(values)}Q", floats(values))
    return [NAN_WORD if v != v else b for v, b in zip(values, bits)]


def sample_words(function, arguments, answered):
    """Input words and output words, or None where the case is too long for the sample.

    Where a refused list is too long, its zero elements at the end are left out: the length word stays. Of the writer's two lists they always are,
    and a word for each says how many elements stand there.
    """
    number, outputs, _ = answered
    outs = []
    if function == CHECK:
        place, tolerance = arguments
        ins = float_words(place.cell.corners + place.at + (tolerance,))
    elif function == LOCATE_CHECKED:
        cell, tolerance = arguments
        ins = float_words(cell.corners + (tolerance,))
        outs = float_words(outputs) if number == 0 else []
    elif function == CHECK_PROPOSALS:
        cell, records, room = arguments
        elements = [float_words(record) for record in records]
        ins = with_list(float_words(cell.corners), elements, [room], number)
        outs = [outputs[0], *outputs[1]] if number == 0 else []
    elif function == REFINE:
        n, numbers, room = arguments
        ins = with_list([n], [[v] for v in numbers], [room], number)
        outs = [outputs[0], *outputs[1]] if number == 0 else []
        if len(without_zeros(numbers)) > MOST_MESH_NUMBERS or len(numbers) > MOST_MESH_LENGTH or room > MOST_MESH_ROOM:
            return None
    elif function == DESCENDANT:
        path, corner = arguments
        ins = [len(path), *path, corner]
        outs = [v & 0xFFFFFFFF for v in outputs] if number == 0 else []
    elif function == HXM_READ:
        data, node_room, cell_room = arguments
        ins = [len(data), *data, node_room, cell_room]
        outs = [outputs[0], outputs[1], *outputs[2], *outputs[3]] if number == 0 else []
    elif function == VOLUME_REPORT:
        data, room = arguments
        ins = [len(data), room, *as_words(data)]
        if number == 0:
            total, cells, first, volumes = outputs
            outs = [*as_words(signed64([total])), cells, first, *as_words(signed64(volumes))]
        if len(ins) > MOST_REPORT_WORDS or room > MOST_REPORT_ROOM:
            return None
    else:
        patterns, numbers, room = arguments
        words, listed = without_zeros(patterns), without_zeros(numbers)
        ins = [len(patterns), len(numbers), room, len(words), len(listed), *words, *listed]
        outs = [outputs[0], *outputs[1]] if number == 0 else []
        if len(ins) > MOST_WRITE_WORDS or room > MOST_WRITE_ROOM or len(outs) > 1 + MOST_WRITTEN:
            return None
    if len(ins) > MOST_INPUT_WORDS or len(outs) > MOST_OUTPUT_WORDS:
        return None
    return ins, outs


def as_words(data):
    """Bytes as words of eight, with zeros behind."""
    data += bytes(-len(data) % 8)
    return struct.unpack(f"<{len(data) // 8}Q", data)


def with_list(before, elements, after, number):
    kept = list(elements)
    if number == 7:
        width = len(kept[0]) if kept else 1
        if len(before) + 1 + width * len(kept) + len(after) > MOST_INPUT_WORDS:
            while kept and not any(kept[-1]):
                kept.pop()
    return before + [len(elements)] + [word for element in kept for word in element] + after


def without_zeros(elements):
    """The elements up to the last that is not zero."""
    count = len(elements)
    while count > 0 and elements[count - 1] == 0:
        count -= 1
    return elements[:count]


def sample_record(function, number, words):
    ins, outs = words
    return struct.pack("<BBHHH", function, number, len(ins), len(outs), 0) + words64(ins + outs)
