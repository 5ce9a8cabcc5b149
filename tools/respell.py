#!/usr/bin/env python3
"""Brings the repository's own names to the kit's spelling, after the kit's port.py: definitions, lemmas, fields and variables in snake case, and the room
`hex`, whose name is one of the kit's libraries, is `hexahedron`. Types, modules, functions of src/, exported names, strings, inputs and outputs stay.

usage: python3 tools/respell.py    at the top of the repository, once. It prints names that fall together, and changes nothing where there are any.
"""

import collections
import os
import re
import subprocess
import sys

OLD_ROOM, NEW_ROOM = "hex", "hexahedron"
NAME = re.compile(r"[a-z_][A-Za-z0-9_₀-₉'-]*$")
TOKEN = re.compile(r"[^\s(){}\[\],;.«»\"`]+")
# Lemmas that would have their function's name.
LEMMAS = {"held_by", "ten-steps", "is-nan", "by_units", "child-stands", "edge-nodes", "face-nodes", "child-face", "turns-right", "same_nodes", "same_test", "same_by", "turn-of-turn", "turn-back", "exact-side", "one-plus"}
# Names of a record's field and of the lemma that proves it, which may be one.
FIELDS = {"not_nan", "good_answered", "written_read", "lists_back", "one_rule", "number_back", "bytes_back", "numbers_back", "located_sound", "located_complete", "same_children"}


def snake(name):
    """`foldTo`, `fold-to` and `fold_to` are all `fold_to`; a dash before a fact, which begins with a capital, stays."""
    words = re.sub(r"(?<=[a-z0-9₀-₉'])([A-Z])", lambda m: "_" + m.group(1).lower(), name)
    return words.replace("-", "_")


def wants(name):
    return bool(NAME.match(name)) and (snake(name) != name or name in LEMMAS)


def files(ending):
    for folder, dirs, names in os.walk("crates"):
        dirs[:] = sorted(d for d in dirs if d != "out")
        for n in sorted(names):
            if n.endswith(ending):
                yield os.path.join(folder, n)


def read(path):
    with open(path, encoding="utf-8") as f:
        return f.read()


def rooms():
    return {d for d in os.listdir("crates") if os.path.isdir(os.path.join("crates", d, "src"))}


def code(line):
    """A line of antt without its comment."""
    return "" if line.lstrip().startswith("--") else line.split(" -- ")[0]


def kit_names(text, own):
    """What a file brings in from the kit, by its `use` lines."""
    names = set()
    for m in re.finditer(r"(?m)^\s*(?:pub |ghost )*use ([^\s{;]+?)(?:\.\{([^}]*)\})?( as [^\s;]+)?;?$", text):
        path, inside = m.group(1), m.group(2)
        parts = path.split(".")
        if parts[0] == "Rattle" and len(parts) > 1 and parts[1] in own:
            continue
        for item in (inside or "").split(","):
            item = item.strip()
            if item:
                names.add(item.split(" as ")[0].strip())
    return names


def declared(text):
    """The names that a file of antt declares: definitions, lemmas, fields, constructors."""
    for line in text.splitlines():
        line = code(line)
        m = re.match(r"\s*(?:abbrev |unfoldable |pub |private )*([^\s(){}\[\],;.:]+)(?: \{[^}:]*\})? :(?:\s|$)", line)
        if m:
            yield m.group(1)
        for m in re.finditer(r"[({]((?:[^\s(){}\[\],;.:]+ )+): ", line):
            yield from m.group(1).split()
        for m in re.finditer(r"λ ((?:[^\s(){}\[\],;.:]+ ?)+)\.", line):
            yield from m.group(1).split()
        for m in re.finditer(r"\blet ([^\s(){}\[\],;.:]+) ", line):
            yield m.group(1)


def bound(text):
    """The variables on the left of the clauses of a file."""
    for line in text.splitlines():
        line = code(line)
        m = re.match(r"\s*([^\s=:]+(?: [^=:]*?)?) =(?:\s|$)", line)
        if m:
            yield from TOKEN.findall(m.group(1))


def source_words():
    """Functions, parameters and variables of the sources, which keep their spelling, by crate."""
    words = collections.defaultdict(set)
    for path in files(".rt"):
        words[path.split(os.sep)[1]].update(re.findall(r"[a-z_][a-z0-9_]*", re.sub(r"//.*", "", read(path))))
    return words


def main():
    own = rooms()
    if NEW_ROOM in own:
        print("respell: done already")
        return 0
    texts = {p: read(p) for p in list(files(".antt")) + list(files(".rt"))}
    everywhere = set()
    for path, text in texts.items():
        if path.endswith(".antt"):
            everywhere.update(n for n in declared(text) if wants(n))
    words = source_words()
    all_words = set().union(*words.values())
    together, left, new = [], collections.Counter(), {}
    for path, text in texts.items():
        kit = kit_names(text, own)
        here = set(everywhere)
        walk = False
        if path.endswith(".antt"):
            here.update(n for n in bound(text) if wants(n))
            # the folder of a function's proof names what stands in its source
            walk = bool(re.search(r"/proofs/[^/]+/[^/]+\.antt$", path))
        turned = {}

        def turn(m):
            name, before = m.group(0), text[max(0, m.start() - 1) : m.start()]
            if not wants(name) or name in kit:
                turned.setdefault(name, name)
                return name
            to = snake(name)
            if name in LEMMAS and not (walk and before == ".") and not (name == "same_test" and "/rounding/" in path):
                to += "_lem"
            if to == name:
                return name
            if name in here or (walk and to in all_words):
                turned[name] = to
                return to
            left[(name, path if walk else "")] += 1
            turned.setdefault(name, name)
            return name

        out = []
        for line in text.splitlines(keepends=True):
            if path.endswith(".rt"):
                # clauses and imports alone have such names; no string or comment is touched but for names in backquotes
                if "//" in line:
                    head, tail = line.split("//", 1)
                    tail = "//" + re.sub(r"`[^`]*`", lambda m: TOKEN.sub(lambda t: snake(t.group(0)) if t.group(0) in everywhere else t.group(0), m.group(0)), tail)
                else:
                    head, tail = line, ""
                if '"' in head:
                    out.append(line)
                    continue
                offset = 0
                head = TOKEN.sub(lambda m: snake(m.group(0)) if wants(m.group(0)) and m.group(0) in everywhere and m.group(0) not in kit else m.group(0), head)
                out.append(head + tail)
                continue
            cut = len(line) if not line.lstrip().startswith("--") else 0
            m = re.search(r" -- ", line)
            if cut and m:
                cut = m.start()
            head, tail = line[:cut], line[cut:]
            # names in comments: those in backquotes or in camel case
            tail = TOKEN.sub(lambda t: snake(t.group(0)) if t.group(0) in everywhere and t.group(0) not in kit and (re.search(r"[a-z][A-Z]", t.group(0)) or "`" + t.group(0) + "`" in tail) else t.group(0), tail)
            out.append(TOKEN.sub(turn, head) + tail)
        text2 = "".join(out)
        back = collections.defaultdict(set)
        for a, b in turned.items():
            back[b].add(a)
        for b, a in back.items():
            paths = {n for n in a if re.search(r"\.proofs\.%s\.|\bc(\.\w+)*\.%s\b" % (re.escape(n), re.escape(n)), text)}
            if len(a - paths) > 1 and b not in FIELDS:
                together.append((path, sorted(a)))
        text2 = re.sub(r"\bRattle\.%s\." % OLD_ROOM, "Rattle.%s." % NEW_ROOM, text2)
        if path.endswith(".rt"):
            text2 = re.sub(r"(?m)^((?!\s*//)[^\"\n]*?)(?<![\w.])%s::" % OLD_ROOM, r"\1%s::" % NEW_ROOM, text2)
            text2 = re.sub(r"(?m)^((?!\s*//)[^\"\n]*?)(?<![\w.])%s::" % OLD_ROOM, r"\1%s::" % NEW_ROOM, text2)
        new[path] = text2
    for path, names in together:
        print("fall together:", path, names)
    if "--dry" in sys.argv:
        return 0
    for path, text in new.items():
        if text != texts[path]:
            with open(path, "w", encoding="utf-8") as f:
                f.write(text)
    with open("crates.txt", encoding="utf-8") as f:
        lines = f.read()
    with open("crates.txt", "w", encoding="utf-8") as f:
        f.write(re.sub(r"(?m)(?<![\w])%s(?![\w])" % OLD_ROOM, NEW_ROOM, lines))
    subprocess.run(["git", "mv", "crates/" + OLD_ROOM, "crates/" + NEW_ROOM], check=True)
    return 0


if __name__ == "__main__":
    raise SystemExit(main())
