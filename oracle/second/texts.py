"""Whether hexvol prints what the second program does, for some hundred files: once from a file, and once through a pipe in pieces.

    texts.py PROGRAM..     the program and, before it, what it is run by

The files are those of the report's cases: the examples, and some of each tag and number, the same every time. Exit status: 0, or 1 when there is a
difference.
"""

import fcntl
import random
import struct
import subprocess
import sys
import tempfile
import termios
import time

sys.dont_write_bytecode = True

import answers
import records
import second

SEED = "texts 1"
EACH, LOOKED_THROUGH, FEWEST = 6, 20000, 300
NUMBERS = {0, 7, 9, 10, 11, 12, 13, 15}  # it has room for every volume, and never gives 8
SHOWN = 3
MOST_SECONDS = 20


def files():
    """The examples, and some of each other kind of case; no file twice."""
    kinds, met = {}, set()
    for function, tag, (data, _) in second.cases("volume_report", LOOKED_THROUGH, SEED):
        if data not in met:
            met.add(data)
            number, _, _ = records.answer(function, (data, answers.MOST_CELLS))
            kinds.setdefault((tag, number), []).append(data)
    rng = random.Random(SEED)
    taken = []
    for (tag, _), found in kinds.items():
        taken += found if tag == "example" else rng.sample(found, min(EACH, len(found)))
    if len(taken) < FEWEST or {number for _, number in kinds} != NUMBERS:
        raise AssertionError(f"{len(taken)} files of these kinds: {sorted(kinds)}")
    return taken


def from_file(program, data):
    with tempfile.TemporaryFile() as file:
        file.write(data)
        file.seek(0)
        return subprocess.run(program, stdin=file, capture_output=True)


def through_pipe(program, data, rng):
    """The data in two to four writes, each when the one before is read, so that no read gives all."""
    cuts = sorted(rng.sample(range(1, len(data)), min(rng.randint(1, 3), len(data) - 1))) if data else []
    with subprocess.Popen(program, bufsize=0, stdin=subprocess.PIPE, stdout=subprocess.PIPE, stderr=subprocess.PIPE) as running:
        try:
            for start, end in zip([0, *cuts], [*cuts, len(data)]):
                running.stdin.write(data[start:end])
                wait_for_read(running)
        except BrokenPipeError:
            pass  # it has read all that it needs
        said = running.communicate()
    return subprocess.CompletedProcess(program, running.returncode, *said)


def wait_for_read(running):
    """Until the pipe is empty, or the program has ended."""
    late = time.monotonic() + MOST_SECONDS
    while running.poll() is None and struct.unpack("i", fcntl.ioctl(running.stdin, termios.FIONREAD, bytes(4))) != (0,):
        if time.monotonic() > late:
            raise TimeoutError(f"{running.args} does not read")
        time.sleep(0.0002)


def compare(program):
    rng = random.Random(SEED)
    taken, differences = files(), 0
    for data in taken:
        want = answers.volume_text(data).encode("ascii")
        for way, ran in (("a file", from_file(program, data)), ("a pipe", through_pipe(program, data, rng))):
            if (ran.stdout, ran.stderr, ran.returncode) != (want, b"", 0):
                differences += 1
                if differences <= SHOWN:
                    print(f"texts.py: from {way}: {data[:4000].hex()}\nsays {ran.stdout!r} {ran.stderr!r}, {ran.returncode}\nand not {want!r}")
    print(f"hexvol: {len(taken)} files, each from a file and through a pipe, {differences} differences")
    return differences


if __name__ == "__main__":
    if len(sys.argv) < 2:
        sys.exit(__doc__)
    sys.exit(compare(sys.argv[1:]) != 0)
