"""The second program: cases with the answers of documents 01 and 02, for the driver or as a stored sample.

    second.py --cases N --seed S     the driver's stream on standard output: for each function all boundary
                                     cases, then random ones until there are N
    second.py --sample PATH          the stored sample
    second.py --show NAME NUMBER     one case of the stream in words, with --cases and --seed as there
    --only NAME[,NAME..]             these functions alone
"""

import argparse
import itertools
import random
import sys
from collections import Counter

sys.dont_write_bytecode = True

import answers
import cells
import examples
import meshes
import records
import volumes

BOUNDARY = {
    "check": cells.boundary_check,
    "locate_checked": cells.boundary_locate,
    "check_proposals": cells.boundary_proposals,
    "refine": meshes.boundary_refine,
    "descendant": meshes.boundary_descendant,
    "hxm_read": meshes.boundary_files,
    "hxm_write": meshes.boundary_writes,
    "volume_report": volumes.boundary_reports,
}
RANDOM = {
    "check": cells.random_check,
    "locate_checked": cells.random_locate,
    "check_proposals": cells.random_proposals,
    "refine": meshes.random_refine,
    "descendant": meshes.random_descendant,
    "hxm_read": meshes.random_files,
    "hxm_write": meshes.random_writes,
    "volume_report": volumes.random_reports,
}
# A random pair for so many cases of the report.
PAIR_FOR = 20

SAMPLE_SEED = "sample 1"
# How many cases of a function a sample takes for each tag and number, and in all; how many are looked through.
SAMPLE = {
    "check": (6, 215, 9000),
    "locate_checked": (4, 195, 6000),
    "check_proposals": (8, 45, 2000),
    "refine": (8, 120, 8000),
    "descendant": (6, 35, 12000),
    "hxm_read": (4, 80, 20000),
    "hxm_write": (3, 80, 8000),
    "volume_report": (4, 160, 20000),
}


def cases(name, count, seed):
    """All boundary cases, then random ones until there are `count`."""
    rng = random.Random(f"{seed} {name}")
    boundary = list(BOUNDARY[name]())
    yield from boundary
    yield from itertools.islice(RANDOM[name](rng), max(count - len(boundary), 0))


def pairs(name, count, seed):
    """Behind the report's cases its pairs, a mesh and its children, which are no cases of a sample."""
    if name == "volume_report":
        yield from volumes.boundary_pairs()
        yield from itertools.islice(volumes.random_pairs(random.Random(f"{seed} pairs")), 2 * (count // PAIR_FOR))


def answered(case, held):
    """The answer. Where the tag promises a number, it has to be that one; what is held of it is counted."""
    function, tag, arguments = case
    answer = records.answer(function, arguments)
    promised = volumes.PROMISED if function == records.VOLUME_REPORT else meshes.PROMISED
    if tag in promised:
        if answer[0] != promised[tag]:
            raise AssertionError(f"a case that is {tag} answers {answer[0]}: {arguments!r:.2000}")
        held["promised"] += 1
    if function == records.REFINE:
        held[beside_document_01(arguments, answer[:2])] += 1
    return answer


def beside_document_01(arguments, answer):
    """Whether document 01's rule numbered the mesh so, or refused it so; or numbered it, and now it is twisted."""
    before = answers.refine_01(*arguments)
    if answer == before:
        return "numbered" if answer[0] == 0 else "refused"
    if answer[0] == 14 and before[0] == 0:
        return "twisted"
    raise AssertionError(f"answers {answer[0]}, and by document 01's rule {before[0]}, not the same: {arguments}")


def stream(names, count, seed, out):
    out.write(records.STREAM_MARK)
    held = Counter()
    written = 0
    for name in names:
        before = None
        for case in itertools.chain(cases(name, count, seed), pairs(name, count, seed)):
            function, tag, arguments = case
            answer = answered(case, held)
            if tag == "children":  # behind their parents
                answers.hold_metal(before[1], answer[1])
                held["pairs"] += 1
            out.write(records.stream_record(function, arguments, answer))
            before = answer
            written += 1
    out.write(records.stream_end(written))
    if "refine" in names:
        said = f"{held['numbered']} numbered and {held['refused']} refused as by document 01's rule, {held['twisted']} twisted"
        print(f"second.py: meshes to refine: {said}", file=sys.stderr)
    if "volume_report" in names:
        print(f"second.py: {held['pairs']} meshes whose children hold 512 times as much, cell by cell", file=sys.stderr)
    print(f"second.py: {held['promised']} cases as their tags promise", file=sys.stderr)


def sample(names, path):
    with open(path, "wb") as out:
        for name in names:
            for record in sample_of(name):
                out.write(record)


def sample_of(name):
    """The examples, and of each tag and number a few cases, spread over all that there are."""
    each, most, count = SAMPLE[name]
    rng = random.Random(f"{SAMPLE_SEED} {name}")
    kinds = {}
    for position, case in enumerate(cases(name, count, SAMPLE_SEED)):
        function, tag, arguments = case
        answer = answered(case, Counter())
        words = records.sample_words(function, arguments, answer)
        if words is not None:
            number = answer[0]
            kinds.setdefault((tag, number), []).append((position, records.sample_record(function, number, words)))
    taken = []
    for (tag, _), found in kinds.items():
        few = min(len(found), each)
        taken += [(0, *f) for f in found] if tag == "example" else [(1 + i, *f) for i, f in enumerate(rng.sample(found, few))]
    # one of every kind before a second of any
    taken.sort(key=lambda t: t[0])
    kept = taken[:most]
    return [record for _, _, record in sorted(kept, key=lambda t: t[1])]


def show(name, number, count, seed):
    function, tag, arguments = next(itertools.islice(cases(name, count, seed), number, None))
    print(f"{name} {number}: {tag}")
    for argument in arguments:
        if isinstance(argument, cells.Place):
            print("corners", argument.cell.corners)
            print("at", argument.at, "image", argument.image)
        elif isinstance(argument, cells.Cell):
            print("corners", argument.corners)
        else:
            print(argument)
    print("answer", records.answer(function, arguments))


def main():
    parser = argparse.ArgumentParser(description=__doc__, formatter_class=argparse.RawDescriptionHelpFormatter)
    parser.add_argument("--cases", type=int, default=20000)
    parser.add_argument("--seed", type=int, default=1)
    parser.add_argument("--only", default=",".join(BOUNDARY))
    parser.add_argument("--sample", metavar="PATH")
    parser.add_argument("--show", nargs=2, metavar=("NAME", "NUMBER"))
    options = parser.parse_args()
    names = options.only.split(",")
    if unknown := [name for name in names if name not in BOUNDARY]:
        parser.error(f"no such function: {unknown[0]}")
    examples.hold()
    if options.show:
        show(options.show[0], int(options.show[1]), options.cases, options.seed)
    elif options.sample:
        sample(names, options.sample)
    else:
        stream(names, options.cases, options.seed, sys.stdout.buffer)


if __name__ == "__main__":
    main()
