#!/usr/bin/env python3
"""Brings must-fail edits to the kit's spelling: each text that no longer stands in its file is turned token by token, as the file's own lines were turned.

usage: python3 tools/respell_edits.py OLD    at the top; OLD is a folder with the repository as it landed in the older spelling
"""
import collections
import difflib
import os
import re
import sys

OLD = sys.argv[1]
ROOMS = {"hex": "hexahedron"}


def read(p):
    with open(p, encoding="utf-8") as f:
        return f.read()


def pairs():
    for room in sorted(os.listdir(os.path.join(OLD, "crates"))):
        now = ROOMS.get(room, room)
        for part in ("src", "specs", "proofs"):
            top = os.path.join(OLD, "crates", room, part)
            for folder, dirs, names in os.walk(top):
                for n in names:
                    a = os.path.join(folder, n)
                    b = os.path.join("crates", now, os.path.relpath(a, os.path.join(OLD, "crates", room)))
                    if os.path.exists(b):
                        yield a, b


def words(line):
    return re.findall(r"[^\s(){}\[\],;.«»\"`]+", line)


votes = collections.defaultdict(collections.Counter)
for a, b in pairs():
    x, y = read(a).splitlines(), read(b).splitlines()
    m = difflib.SequenceMatcher(None, [re.sub(r"[\W_]", "", l).lower() for l in x], [re.sub(r"[\W_]", "", l).lower() for l in y], autojunk=False)
    for tag, i, j, k, l in m.get_opcodes():
        if tag in ("equal", "replace") and j - i == l - k:
            for p, q in zip(x[i:j], y[k:l]):
                u, v = words(p), words(q)
                if len(u) == len(v):
                    for s, t in zip(u, v):
                        votes[s][t] += 1
turned = {s: c.most_common(1)[0][0] for s, c in votes.items()}
for word in ("taken", "left", "at"):
    turned.pop(word, None)


def turn(text):
    text = re.sub(r"(?<=[\w)]) \.(?=[a-z0-9])", ".", text)
    text = re.sub(r"λ r\. ⌜ (.*) ⌝", r"\1", text)
    text = re.sub(r"⌜ (.*) ⌝", r"\1", text)
    return re.sub(r"[^\s(){}\[\],;.«»\"`]+", lambda m: turned.get(m.group(0), m.group(0)), text)


bad = 0
for room in sorted(os.listdir("crates")):
    folder = os.path.join("crates", room, "must-fail")
    if not os.path.isdir(folder):
        continue
    for n in sorted(os.listdir(folder)):
        path = os.path.join(folder, n)
        lines = read(path).split("\n")
        out, f, texts, was, changed = [], None, {}, None, False
        ok = True
        for line in lines:
            if line.startswith("file: "):
                f = line[6:]
                p = os.path.join("crates", room, f)
                if f not in texts:
                    texts[f] = read(p) if os.path.exists(p) else ""
                out.append(line)
            elif line.startswith("old: "):
                was = line[5:]
                now = was
                if texts[f].count(now) != 1:
                    now = turn(was)
                    if texts[f].count(now) != 1:
                        print(f"by hand: {path}: {f}: old: {was}   ->   {now}  ({texts[f].count(now)} times)")
                        ok = False
                out.append("old: " + now)
            elif line.startswith("new: "):
                new = line[5:]
                if now != was or f.endswith(".antt") or f.startswith("specs"):
                    new = turn(new)
                out.append("new: " + new)
                if texts[f].count(now) == 1:
                    texts[f] = texts[f].replace(now, new)
            else:
                out.append(line)
        bad += not ok
        if ok and out != lines:
            open(path, "w", encoding="utf-8").write("\n".join(out))
print("by hand:", bad)
