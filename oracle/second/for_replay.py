"""Joins the stored answers of the Rust and of the second program into what crates/replay reads, and says what it has to print.

    cargo run --release --offline --manifest-path oracle/cases/Cargo.toml --bin sample -- RUST
    python3 oracle/second/second.py --sample SECOND
    python3 oracle/second/for_replay.py RUST SECOND crates/replay/stdin crates/replay/stdout

A record there has a header of four bytes: function, input words, outcome, output words. First come the records that are compared: those of the Rust,
and the second program's of check and locate_checked. Behind four zero bytes come the meshes, paths, files, lists to write and files to report, whose
answers are printed. Of a report every number is printed as the 64 bits that it has, without a sign.
"""
import struct
import sys

CHECK, LOCATE_CHECKED, REFINE, DESCENDANT, HXM_READ, HXM_WRITE, VOLUME_REPORT = 23, 24, 26, 27, 28, 29, 30
OLD = 7
SHOWN, BYTES_SHOWN = 60, 420


def left(values, room, shown):
    """What is printed of a lent list: the values, and then what it held."""
    return (values + [OLD] * room)[:min(room, shown)]


def refine(words, answers):
    n, count, room = words[0], words[1], words[-1]
    cells = words[2:-1]
    while cells and cells[-1] == 0:
        cells.pop()
    return [n, count, room] + cells, [], answers[:1], left(answers[1:], room, 8 * count + 1)


def descendant(words, answers):
    depth, path, corner = words[0], words[1:-1], words[-1]
    places = [(x + 2**31) % 2**32 - 2**31 for x in answers]
    return [corner, depth] + path, [part for x in places for part in (int(x < 0), abs(x))], ["as stored"] * len(places), []


def hxm_read(words, answers):
    size, node_room, cell_room = words[0], words[-2], words[-1]
    content = bytes(words[1:-2])
    content += bytes(-size % 8)
    nodes = 3 * answers[0] if answers else 0
    lists = left(answers[2:2 + nodes], node_room, SHOWN) + left(answers[2 + nodes:], cell_room, SHOWN)
    return [size, node_room, cell_room] + list(struct.unpack(f"<{len(content) // 8}Q", content)), [], answers[:2], lists


def hxm_write(words, answers):
    return words, [], answers[:1], left(answers[1:], words[2], BYTES_SHOWN)


def volume_report(words, answers):
    return words, [], answers[:3], left(answers[3:], words[1], SHOWN)


TOLD = {REFINE: refine, DESCENDANT: descendant, HXM_READ: hxm_read, HXM_WRITE: hxm_write, VOLUME_REPORT: volume_report}


def record(function, outcome, inputs, outputs):
    return bytes([function, len(inputs), outcome, len(outputs)]) + struct.pack(f"<{len(inputs) + len(outputs)}Q", *inputs, *outputs)


def counted(data):
    """The number of records."""
    count, at = 0, 0
    while at < len(data):
        count, at = count + 1, at + 4 + 8 * (data[at + 1] + data[at + 3])
    return count


with open(sys.argv[1], "rb") as sample:
    compared = sample.read()
with open(sys.argv[2], "rb") as sample:
    data = sample.read()
told, lines, at = b"", [], 0
while at < len(data):
    function, outcome, inputs, outputs, _ = struct.unpack_from("<BBHHH", data, at)
    at += 8
    words = list(struct.unpack_from(f"<{inputs + outputs}Q", data, at))
    at += 8 * (inputs + outputs)
    if function in (CHECK, LOCATE_CHECKED):
        compared += record(function, outcome, words[:inputs], words[inputs:])
    elif function in TOLD:
        inwards, outwards, said, lists = TOLD[function](words[:inputs], words[inputs:])
        told += record(function, outcome, inwards, outwards)
        lines.append("".join(f" {word}" for word in ([f"refused {outcome}"] if outcome else said) + lists))
count = counted(compared)
with open(sys.argv[3], "wb") as stdin:
    stdin.write(compared + bytes(4) + told)
with open(sys.argv[4], "w", encoding="ascii") as stdout:
    stdout.write("\n".join([f"{count} records, {count} agree", *lines]) + "\n")
