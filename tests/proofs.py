"""What a reader of the definitions and proofs would mark down, found by reading their text.

- an imported name that the file does not use, and a law that nothing cites: no proof, no page of docs/
- a line of over 260 characters, and a chain of five `.before` or more, which wants a name. Of a function's own proof these two and its imports
  are not looked at: goals and steps have the names that rattle makes, and `rt tidy` drops imports there
- `unfolding` in specs/: a definition says what it means without opening another
- `cc` in a function's own proof: where the program is wrong it runs to its bound, which takes long and shows nothing
- docs/ARCHITECTURE.md's table against crates.txt and the lines that the crates have

Run: python3 tests/proofs.py    --table writes the table's rows as they should be (seconds are kept)
"""

import pathlib
import re
import sys

ROOT = pathlib.Path(__file__).resolve().parent.parent
CRATES = ROOT / "crates"
PAGES = [ROOT / "README.md", *sorted((ROOT / "docs").rglob("*.md"))]
KIT = {"check", "libc", "io", "os", "bytes"}
WIDTH = 260
# A name in antt is made of anything but blanks and these.
EDGE = r"[\s(){},;.]"
LAW = re.compile(r"^\s*(?:abbrev |unfoldable )?(?:pub )?([^\s(){};.:=]+) :(?: |$)")
# The files of a function's own proof. In Invariants.antt each name is one of rattle's, and in Answers.antt each that is of a goal.
OWN = ("Answers.antt", "Invariants.antt", "Proof.antt")
ANSWER = re.compile(r"^\s*(?:abbrev |unfoldable )?(?:pub )?(\S+) : goal\.\1$")
CLOSURE = re.compile(rf"(?:^|{EDGE})cc(?:{EDGE}|$)")
CHAIN = re.compile(r"(?:\.before){5}")
# The place that a chain leads to, named: by a definition of its own, or by a let.
NAMED = re.compile(r"^\S+ c = c(?:\.before)+$|let \S+ = \w+(?:\.[\w-]+)+ in")


def is_own(path):
    """Whether a file is of a function's own proof, in a folder of its name below proofs/."""
    return path.name in OWN and path.parent.name != "proofs"


def parts(name):
    """The visible parts of a name: an operator such as ◌≤◌ is used by its sign."""
    return [part for part in name.split("◌") if part] if "◌" in name else [name]


def stands(word, text):
    return re.search(rf"(?:^|{EDGE}){re.escape(word)}(?:$|{EDGE})", text)


def uses(name, text):
    name = name.split(" as ")[-1].strip()
    return stands(name, text) or all(stands(part, text) for part in parts(name))


def split_text(path):
    """A file's import lines, and the rest without comments."""
    imports, rest = [], []
    for line in path.read_text().split("\n"):
        if line.startswith("use "):
            imports.append(line)
        elif not line.lstrip().startswith("--"):
            rest.append(line)
    return imports, "\n".join(rest)


def unused_imports(path):
    imports, rest = split_text(path)
    for line in imports if not is_own(path) else ():
        listed = re.match(r"use \S+\.\{(.*)\}$", line)
        for name in listed.group(1).split(", ") if listed else []:
            if not uses(name, rest):
                yield f"imports {name} and does not use it"
        alias = re.match(r"use [^\s{]+ as (\S+)$", line)
        if alias and not re.search(rf"(?:^|{EDGE}){re.escape(alias.group(1))}\.", rest):
            yield f"imports {alias.group(1)} and does not use it"


def shapes(path):
    for number, line in enumerate(path.read_text().split("\n"), 1):
        if not is_own(path) and WIDTH < len(line) and not line.startswith("use ") and not line.lstrip().startswith(("unfolding", "--")):
            yield f"line {number} has {len(line)} characters"
        if not is_own(path) and CHAIN.search(NAMED.sub("", line)):
            yield f"line {number} has five .before in a row and no name for them"
        if path.parent.name == "specs" and line.strip().startswith("unfolding "):
            yield f"line {number} opens a definition"
        if is_own(path) and not line.lstrip().startswith("--") and CLOSURE.search(line):
            yield f"line {number} proves by cc, which a wrong program makes run to its bound"


def laws(path):
    """The names that a file declares, with their depth; what a record or data type holds belongs to it and is not listed, nor is an answer."""
    inside = None
    if is_own(path) and path.name == "Invariants.antt":
        return
    for line in path.read_text().split("\n"):
        depth = len(line) - len(line.lstrip())
        if inside is not None and line.strip() and depth <= inside:
            inside = None
        if re.match(r"\s*(pub )?(record|data) ", line):
            inside = depth
            continue
        if inside is None and (found := LAW.match(line)) and not ANSWER.match(line) and not re.match(r"\s*(use|module|mod|infix)\b", line):
            yield found.group(1), depth


def unused_laws(texts, pages):
    for path, text in texts.items():
        if "proofs" not in path.parts or "promises" in path.parts:
            continue
        for name, depth in laws(path):
            said = re.compile(rf"(?:^|{EDGE}){re.escape(name)}(?={EDGE}|$)", re.M)
            head = re.compile(rf"^ {{{depth}}}(?:abbrev |unfoldable )?(?:pub )?{re.escape(name)}(?={EDGE}|$)", re.M)
            if len(said.findall(text)) > len(head.findall(text)):
                continue
            if any(other != path and uses(name, body) for other, body in texts.items()):
                continue
            if not any(f"`{name}`" in page for page in pages):
                yield path, f"{name} is cited nowhere"


def written(pattern):
    """The crates' files of a kind, and not what rt makes."""
    return (path for path in CRATES.rglob(pattern) if "out" not in path.relative_to(CRATES).parts[1:2])


def count(folder, pattern, mark):
    lines = (line.strip() for path in folder.rglob(pattern) for line in path.read_text().split("\n"))
    return sum(1 for line in lines if line and not line.startswith(mark))


def crates():
    for line in (ROOT / "crates.txt").read_text().split("\n"):
        if line and not line.startswith("#"):
            name, _, below = line.partition(":")
            yield name.split()[0], [crate for crate in below.split() if crate not in KIT]


def table_rows():
    """What the table's columns between the text and the seconds should say."""
    rows, total = {}, [0, 0, 0, 0]
    for name, below in crates():
        here = CRATES / name
        wrong = sum(len(re.findall(r"^# \w+ in \S+:", path.read_text(), re.M)) for path in here.glob("must-fail/*.edit"))
        figures = [count(here / "src", "*.rt", "//"), count(here / "specs", "*.antt", "--"), count(here / "proofs", "*.antt", "--"), wrong]
        total = [a + b for a, b in zip(total, figures)]
        rows[name] = [" ".join(below), *map(str, figures)]
    return rows, [f"{n:,}" for n in total]


def table_faults(writes):
    """Where the table differs; with `writes` it is written as it should be."""
    page = ROOT / "docs" / "ARCHITECTURE.md"
    rows, total = table_rows()
    told, lines = {}, page.read_text().split("\n")
    for number, line in enumerate(lines):
        cells = [cell.strip() for cell in line.strip("|").split("|")]
        name = cells[0].strip("`")
        if len(cells) == 8 and re.fullmatch(r"`\w+`", cells[0]):
            told[name] = cells[2:7]
            lines[number] = "| " + " | ".join([*cells[:2], *rows.get(name, cells[2:7]), cells[7]]) + " |"
        elif len(cells) == 8 and name == "all":
            told["all"] = cells[3:7]
            lines[number] = "| " + " | ".join(["all", "", "", *total, cells[7]]) + " |"
    if writes:
        page.write_text("\n".join(lines))
        return
    for name, row in {**rows, "all": total}.items():
        if told.get(name) != row:
            yield f"docs/ARCHITECTURE.md: {name} is {told.get(name)} there and {row} here"


def main():
    if "--table" in sys.argv:
        list(table_faults(True))
    paths = sorted(written("*.antt"))
    faults = [f"{path.relative_to(ROOT)}: {fault}" for path in paths for fault in (*unused_imports(path), *shapes(path))]
    texts = {path: split_text(path)[1] for path in paths}
    sources = {path: path.read_text().replace("::", " ") for path in written("*.rt")}
    pages = [page.read_text() for page in PAGES]
    faults += [f"{path.relative_to(ROOT)}: {fault}" for path, fault in unused_laws({**texts, **sources}, pages)]
    faults += list(table_faults(False))
    for fault in faults:
        print(fault)
    print(f"proofs: {len(paths)} files, {len(faults)} faults")
    return 1 if faults else 0


sys.exit(main())
