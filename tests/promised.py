"""What the tables of crates/promises/specs say of each public function: that it takes any arguments, and has one outcome.

    use Rattle.factors.proofs.cts.Reads as factors-cts                   the contract of factors::cts
    pub factors_cts_one : OneAnswer factors-cts.Pre factors-cts.Post     a row: both

A call on a book behind a pointer has no `Reads`: there the page names the contract's own clauses, and a row `.._one` the fact that they are.
"""

import re

READS = re.compile(r"^use Rattle\.(\w+)\.proofs\.([\w.]+)\.Reads as (\S+)$", re.M)
WRITTEN = re.compile(r"^use Rattle\.(\w+)\.(?:specs\.contracts|proofs)\.([\w.]+) as (\S+)$", re.M)
# A contract by a name of its own, where a function's module is private.
NAMED = re.compile(r"^use Rattle\.(\w+)\.proofs\.(\w+)\.\{([^}]*)\}$", re.M)


def of(crate, path):
    return "::".join([crate, *path.split(".")])


def named(root, text):
    """The names of contracts that a page brings in from a crate's proofs: (name, what it is of, Pre or Post)."""
    for crate, file, names in NAMED.findall(text):
        source = root / "crates" / crate / "proofs" / f"{file}.antt"
        body = source.read_text() if source.exists() else ""
        own = {alias: of(crate, path) for _, path, alias in READS.findall(body)}
        for name in names.split(", "):
            found = re.search(rf"^{re.escape(name)} .*= (\S+)\.(Pre|Post)\b", body, re.M)
            if found and found[1] in own:
                yield name, own[found[1]], found[2]


def tables(root):
    """The functions of which a table says that they take any arguments, and those of which one says that their outcome is one."""
    asked, fixed = set(), set()
    for page in sorted((root / "crates/promises/specs").glob("*.antt")):
        text = page.read_text()
        pres, posts = {}, {}
        for crate, path, alias in READS.findall(text):
            pres[f"{alias}.Pre"] = posts[f"{alias}.Post"] = of(crate, path)
        for name, function, part in named(root, text):
            (pres if part == "Pre" else posts)[name] = function
        asked |= {pres[name] for name in re.findall(r": (?:OneAnswer|OneRead|AnyArguments) (\S+)", text) if name in pres}
        fixed |= {posts[name] for name in re.findall(r": (?:(?:OneAnswer|OneRead) \S+|OneLeft) (\S+)", text) if name in posts}
        for crate, path, alias in WRITTEN.findall(text):
            if re.search(rf"\({re.escape(alias)}\.clauses .*\)\.requires ", text):
                asked.add(of(crate, path))
            row = "[-_]".join(map(re.escape, re.split("[-_]", alias)))
            if f" {alias}.ensures" in text and re.search(rf"^ *pub {row}[-_]one :", text, re.M):
                fixed.add(of(crate, path))
    return asked, fixed
