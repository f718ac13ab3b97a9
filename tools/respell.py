#!/usr/bin/env python3
"""Brings the names that this repository gives to definitions and lemmas to today's spelling: words in snake case.

usage: tools/respell.py KIT     at the top of the repository, once, right after KIT/port/port.py; KIT is the toolchain's folder

camelCase becomes snake_case, and the words of a name of our own are joined by `_` and no longer by `-`. Names that the kit declares,
names that Rattle makes of the sources (goals, steps, `tie`), functions and types of src/, exported names, strings and comments keep theirs.
A name with `-` that would fall together with another keeps its `-`; CLASHES says what two others that would are called instead.
Where names would fall together all the same it prints them and changes nothing.
"""

import re
import sys
from pathlib import Path

TOKEN = re.compile(r"[A-Za-z_](?:[\w']|-(?=[\w']))*")
CAMEL = re.compile(r"(?<=[a-z0-9'])([A-Z])")
COMMENT = {".antt": re.compile(r"--(?=[\s|]|$).*$", re.M), ".rt": re.compile(r"//.*$", re.M)}
DECLARED = re.compile(r"^[ \t]*(?:(?:abbrev|unfoldable|pub|ruleset) +)*([a-z][\w'-]*) +[:=]", re.M)
CONSTRUCTOR = re.compile(r"^[ \t]*\|? ?([a-z][\w'-]*) +:", re.M)
BOUND = re.compile(r"(?:\blet|λ|[({])[ ]*([a-z][\w' -]*)[:.=]")

# Two names that would be one: what the first is called instead.
CLASHES = {"goesIn": "is_going_in", "handed_out": "handed_out_known"}
# Words of a generated name, never ours.
MADE = re.compile(r"^(Need|After|Given|Start|At|then|else|in|if|loop|returns|overflow|invariant|decreases|bounds|slice_bounds|nonzero|prove)-|-(requires|spec|init|preserved|smaller|test)(-\d+)?$|_[A-Z]")


def snake(name):
    return CAMEL.sub(lambda m: "_" + m.group(1).lower(), name).replace("-", "_")


def bare(path):
    return COMMENT[path.suffix].sub("", path.read_text(encoding="utf-8"))


def ours(root):
    for path in sorted((root / "crates").rglob("*")):
        if path.suffix in COMMENT and "out" not in path.parts:
            yield path


def main():
    root, kit = Path("."), Path(sys.argv[1])
    theirs = set()
    for path in kit.joinpath("rattle").rglob("*.antt"):
        theirs.update(TOKEN.findall(bare(path)))
    seen, declared, where = {}, set(), {}
    for path in ours(root):
        text = bare(path)
        for word in set(TOKEN.findall(text)):
            seen.setdefault(word, set()).add(path)
        if path.suffix == ".antt" and path.name != "Proof.antt":
            for form in (DECLARED, CONSTRUCTOR):
                declared.update(form.findall(text))
            for run in BOUND.findall(text):
                declared.update(run.split())
    names = {}
    for word in seen:
        if word in CLASHES:
            names[word] = CLASHES[word]
        elif MADE.search(word) or not re.match(r"[a-z]", word):
            continue
        elif CAMEL.search(word) and word not in theirs:
            names[word] = snake(word)
        elif "-" in word and word in declared and word not in theirs:
            names[word] = snake(word)
    for word in [w for w in names if "-" in w and not CAMEL.search(w)]:
        new = names[word]
        if any(new == names[w] for w in names if w != word and CAMEL.search(w)) or new in seen and any(p.suffix == ".antt" and p.name != "Proof.antt" for p in seen[word] & seen[new]):
            del names[word]
    clashes = 0
    turned = {}
    for old, new in sorted(names.items()):
        turned.setdefault(new, []).append(old)
    for new, olds in turned.items():
        met = [path for old in olds for path in seen[old] & seen.get(new, set()) if path.suffix == ".antt" and path.name != "Proof.antt" and new not in names]
        if len(olds) > 1 or met:
            print("together:", new, olds, *met)
            clashes += 1
    if "--dry" in sys.argv:
        print(len(names))
        for old, new in sorted(names.items()):
            print(old, new)
        return
    if clashes:
        raise SystemExit(f"{clashes} names would fall together; nothing was changed")
    for path in ours(root):
        text = path.read_text(encoding="utf-8")
        spans = [m.span() for m in COMMENT[path.suffix].finditer(text)]
        if path.suffix == ".rt":
            spans += [m.span() for m in re.finditer(r'"(?:[^"\\]|\\.)*"', text)]

        def turn(m):
            if any(a <= m.start() < b for a, b in spans):
                return m.group()
            return names.get(m.group(), m.group())

        new = TOKEN.sub(turn, text)
        if new != text:
            path.write_text(new, encoding="utf-8")
    print(len(names), "names")


main()
