"""docs/CONTRACTS.md and the tables of `promises` against the crates.

- every public function has its row, or stands under 'looseness' with its reason
- every label that a row names is a wrong program that the check tries, and every wrong program is named; a label's function is in the
  source; a label that changes a promise or a definition and not the code says so beside it
- no public function has a `requires`, and every one stands in a table that says that it takes any arguments and has one outcome
- a static library has no promises of its own: each function that it exports has the parameters and the clauses of one of a library, word
  for word, and calls that

Run: python3 tests/contracts.py    --self tries the test on made-up crates, which it also does before every run
"""

import pathlib
import re
import sys
import tempfile

import promised
import waves

ROOT = pathlib.Path(__file__).resolve().parent.parent
ROW = re.compile(r"^\| `(?P<function>[\w:]+)` \|.*\|(?P<labels>[^|]*)\|$")
LABEL = re.compile(r"`(\w+)`(?: \((promise|definition)\))?")
FUNCTION = re.compile(r"^(?P<indent>\s*)(?P<public>pub )?(?:pub\(crate\) )?(?:extern \"C\" )?fn (?P<name>\w+)")
OWNER = re.compile(r"^impl (\w+)")
# A function of a static library: its parameters, result and clauses, and what it calls with the names of those parameters.
EXPORT = re.compile(r"^#\[unsafe\(no_mangle\)\]\npub extern \"C\" fn (?P<name>\w+)(?P<head>\(.*?)\n\{\n(?P<body>.*?)\n\}$", re.S | re.M)
CALL = re.compile(r"    (\w+)::((?:\w+::)*)(\w+)\(([\w, ]*)\)")
LOOSE = "## One outcome, and looseness"


def asks(lines):
    """Whether a function, whose lines these are, has a `requires`: it stands before the body."""
    for line in lines:
        if re.match(r"\s*requires\b", line):
            return True
        if line.rstrip().endswith("{") and not re.match(r"\s*ensures\b", line):
            return False
    return False


def functions(folder):
    """Each function of a crate, as module::Type::function: whether it is public, and whether it has a `requires`."""
    for source in sorted((folder / "src").glob("**/*.rt")):
        inside = source.relative_to(folder / "src").with_suffix("")
        modules = [part for part in inside.parts if part not in ("lib", "main", "mod")]
        owner = None
        lines = source.read_text().splitlines()
        for number, line in enumerate(lines):
            if OWNER.match(line):
                owner = OWNER.match(line).group(1)
            found = FUNCTION.match(line)
            if found:
                of_type = [owner] if found["indent"] and owner else []
                yield "::".join([*modules, *of_type, found["name"]]), bool(found["public"]), asks(lines[number:])


def wrong_programs(folder):
    """Each wrong program of a crate: its label, its function, and what it changes if that is not the code."""
    for edit in sorted((folder / "must-fail").glob("*.edit")):
        for wrong in waves.read_edit(edit.read_text())[0]:
            changes = waves.kind(wrong, folder)
            yield wrong.label, wrong.function, changes if changes in ("definition", "promise") else ""


def static(root):
    """The static libraries of crates.txt."""
    listed = root / "crates.txt"
    return set(re.findall(r"^(\w+) staticlib", listed.read_text(), re.M)) if listed.exists() else set()


def library(root, folder):
    """Whether a crate's public functions have promises of their own."""
    return (folder / "src/lib.rt").exists() and folder.name not in static(root)


def one_line(text):
    return re.sub(r",? (?=\))|(?<=\() ", "", " ".join(text.split()))


def export_faults(root):
    for crate in sorted(static(root)):
        for source in sorted((root / "crates" / crate / "src").glob("**/*.rt")):
            text = source.read_text()
            found = list(EXPORT.finditer(text))
            if len(found) != len(re.findall(r"\bfn \w+\(", text)):
                yield f"{crate}/{source.name} has a function that is no export, or is not laid out as one"
            for export in found:
                name, call = export["name"], CALL.fullmatch(export["body"])
                given = re.findall(r"(\w+): ", export["head"].partition(") ->")[0])
                if not call or call[3] != name or call[4].split(", ") != (given or [""]):
                    yield f"{crate}::{name} does more than to call the function of its name with what it is given"
                    continue
                below = root / "crates" / call[1] / "src" / ("/".join(call[2].removesuffix("::").split("::") if call[2] else ["lib"]) + ".rt")
                own = re.search(rf"^pub fn {name}(\(.*?)\n\{{$", below.read_text(), re.S | re.M) if below.exists() else None
                if not own or one_line(own[1]) != one_line(export["head"]):
                    yield f"{crate}::{name} has other parameters or clauses than {call[1]}::{call[2]}{name}"


def crates(root):
    return sorted({path.parent.parent for path in root.glob("crates/*/src/*.rt") if path.stem in ("lib", "main")})


def rows(page):
    """Each row of the page: a function, and the labels of what it rules out with what they say of themselves."""
    for line in page.splitlines():
        found = ROW.match(line)
        if found:
            yield found["function"], LABEL.findall(found["labels"])


def row_faults(root, page):
    told = dict(rows(page))
    loose = page.partition(LOOSE)[2]
    written = {}
    for folder in crates(root):
        crate = folder.name
        own = {function: public for function, public, _ in functions(folder)}
        written |= {f"{crate}::{function}": public for function, public in own.items()}
        for function, public in own.items():
            whole = f"{crate}::{function}"
            if public and library(root, folder) and whole not in told and f"`{whole}`" not in loose:
                yield f"{whole} has no row"
        tried = {label: change for label, _, change in wrong_programs(folder)}
        for label, function, _ in wrong_programs(folder):
            if function and function not in own:
                yield f"{crate}/{label} is in {function}, which is no function of the crate"
        named = [(function, label, change) for function, labels in told.items() if function.split("::")[0] == crate for label, change in labels]
        for label in sorted(set(tried) - {label for _, label, _ in named}):
            yield f"{crate}/{label} is named in no row"
        for function, label, change in named:
            if label not in tried:
                yield f"{function} names {label}, which is no wrong program of its crate"
            elif change != tried[label]:
                yield f"{function} names {label} as a wrong {change or 'program'}, and it is a wrong {tried[label] or 'program'}"
    for function, labels in told.items():
        if function not in written:
            yield f"{function} has a row and is no function"
        if len(labels) < 2:
            yield f"{function} names fewer than two wrong programs"


def promise_faults(root):
    asked, fixed = promised.tables(root)
    for folder in crates(root):
        if not library(root, folder):
            continue
        for function, public, has_requires in functions(folder):
            whole = f"{folder.name}::{function}"
            if public and has_requires:
                yield f"{whole} is public and has a `requires`"
            if public and whole not in asked:
                yield f"{whole}: no table says that it takes any arguments"
            if public and whole not in fixed:
                yield f"{whole}: no table says that its outcome is one"


def faults(root):
    page = (root / "docs/CONTRACTS.md").read_text()
    return [*row_faults(root, page), *promise_faults(root), *export_faults(root)]


SOURCE = "pub fn f(\n    x: u8,\n) -> u8\n    ensures { result ≡ x }\n{\n    x + 0\n}\n"
EDIT = "# a in f: why\nfile: src/lib.rt\nold: x + 0\nnew: x + 1\n\n# b in f: why\nfile: src/lib.rt\nold: x + 0\nnew: x + 2\n"
CONTRACTS = "| function | sentence | promise | ruled out |\n|---|---|---|---|\n| `c::f` | 'f' | `f` | `a`, `b` |\n"
TABLE = "use Rattle.c.proofs.f.Reads as c-f\n\npub record OneOutcome : Type 0 where\n  pub c_f_one : OneAnswer c-f.Pre c-f.Post\n"
IN_PLACE = (
    "use Rattle.c.specs.contracts.f as f\n\npub record InPlace : Type 2 where\n  pub f_says : (r : _) → f.ensures-1 𝓤 r ≡ fact 𝓤 (F r)\n"
    "  pub f_asks_nothing : (a : _) (g : _) → ent 𝓤 (emp 𝓤) ((f.clauses 𝓤 a).requires g)\n  pub f_one : OneChange F\n"
)
BY_NAME = "use Rattle.c.proofs.Names.{FPre, FPost}\n\npub record OneOutcome : Type 0 where\n  pub c_f_one : OneAnswer FPre FPost\n"
NAMES = "use Rattle.c.proofs.f.Reads as f\n\nFPre κ a = f.Pre κ a\nFPost κ a r x = f.Post κ a r x\n"
EXPORTED = "#[unsafe(no_mangle)]\npub extern \"C\" fn f(x: u8) -> u8\n    ensures { result ≡ x }\n{\n    c::f(x)\n}\n"
ARCHIVE = {"crates.txt": "c:\ne staticlib: c\n", "crates/e/src/lib.rt": EXPORTED}
WITH_REQUIRES = SOURCE.replace("    ensures", "    requires { x < 4 }\n    ensures")
MADE_UP = [
    # (what the crate has otherwise, words of the fault; none where all is well)
    ({}, None),
    ({"crates/promises/specs/T.antt": IN_PLACE}, None),
    ({"crates/promises/specs/T.antt": BY_NAME, "crates/c/proofs/Names.antt": NAMES}, None),
    ({"crates/c/src/lib.rt": WITH_REQUIRES}, "c::f is public and has a `requires`"),
    ({"crates/c/src/lib.rt": SOURCE + "\nfn g(x: u8) -> u8\n    requires { x < 4 }\n{\n    x\n}\n"}, None),
    ({"crates/c/src/lib.rt": SOURCE + "\npub(crate) fn g(x: u8) -> u8\n    requires { x < 4 }\n{\n    x\n}\n"}, None),
    ({"crates/promises/specs/T.antt": ""}, "c::f: no table says that its outcome is one"),
    ({"crates/promises/specs/T.antt": TABLE.replace("OneAnswer", "Entry")}, "c::f: no table says that its outcome is one"),
    ({"crates/promises/specs/T.antt": TABLE.replace("c.proofs.f", "c.proofs.g")}, "c::f: no table says that it takes any arguments"),
    ({"crates/promises/specs/T.antt": TABLE.replace("OneAnswer c-f.Pre c-f.Post", "OneLeft c-f.Post (λ κ x. x)")}, "c::f: no table says that it takes any arguments"),
    ({"crates/promises/specs/T.antt": IN_PLACE.replace("f.clauses", "g.clauses")}, "c::f: no table says that it takes any arguments"),
    ({"crates/promises/specs/T.antt": BY_NAME}, "c::f: no table says that its outcome is one"),
    ({"crates/c/src/lib.rt": SOURCE + "\npub fn g(x: u8) -> u8\n    ensures { result ≡ x }\n{\n    x\n}\n"}, "c::g has no row"),
    ({"docs/CONTRACTS.md": CONTRACTS.replace("`a`, `b`", "`a`")}, "c/b is named in no row"),
    (ARCHIVE, None),
    ({**ARCHIVE, "crates/c/src/lib.rt": SOURCE.replace("    x: u8,\n", "    x: u8, y: u8,\n")}, "e::f has other parameters or clauses than c::f"),
    ({**ARCHIVE, "crates/e/src/lib.rt": EXPORTED.replace("result ≡ x", "result ≤ x")}, "e::f has other parameters or clauses than c::f"),
    ({**ARCHIVE, "crates/e/src/lib.rt": EXPORTED.replace("c::f(x)", "c::f(x) + 0")}, "e::f does more than to call"),
    ({**ARCHIVE, "crates/e/src/lib.rt": EXPORTED.replace("c::f(x)", "c::f(3)")}, "e::f does more than to call"),
    ({**ARCHIVE, "crates/e/src/lib.rt": EXPORTED.replace("c::f(x)", "c::g(x)")}, "e::f does more than to call"),
    ({**ARCHIVE, "crates/e/src/lib.rt": EXPORTED + "fn g() -> u8 {\n    0\n}\n"}, "e/lib.rt has a function that is no export"),
    ({**ARCHIVE, "crates.txt": "c:\ne: c\n"}, "e::f has no row"),
]


def misjudged():
    """The made-up cases that the test tells wrongly."""
    usual = {"crates/c/src/lib.rt": SOURCE, "crates/c/must-fail/wave_1.edit": EDIT, "docs/CONTRACTS.md": CONTRACTS, "crates/promises/specs/T.antt": TABLE}
    for number, (other, words) in enumerate(MADE_UP, 1):
        with tempfile.TemporaryDirectory() as folder:
            root = pathlib.Path(folder)
            for name, text in {**usual, **other}.items():
                (root / name).parent.mkdir(parents=True, exist_ok=True)
                (root / name).write_text(text)
            found = faults(root)
        if (words is None) == bool(found) or (words and words not in "\n".join(found)):
            yield f"made-up case {number}: {found}"


def main():
    wrongly = list(misjudged())
    for case in wrongly:
        print(case)
    print(f"contracts: {len(MADE_UP)} made-up crates, {len(wrongly)} told wrongly")
    if wrongly or sys.argv[1:] == ["--self"]:
        return 1 if wrongly else 0
    found = faults(ROOT)
    for fault in found:
        print(fault)
    programs = sum(len(list(wrong_programs(folder))) for folder in crates(ROOT))
    print(f"contracts: {len(dict(rows((ROOT / 'docs/CONTRACTS.md').read_text())))} functions on its page, {programs} wrong programs, {len(found)} faults")
    return 1 if found else 0


if __name__ == "__main__":
    sys.exit(main())
