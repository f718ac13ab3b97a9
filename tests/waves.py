"""Every wrong program of crates/*/must-fail, held to what the prover says of it.

An edit is a wave: wrong programs of different functions, tried in one check. `rt ci` sees that the crate as a whole is refused; this
test sees that each of them is, in its own function, and because a fact no longer holds there. It runs after `rt ci`, over the libraries
that it has left; tests/tries.py has how. A wrong program that its wave does not show, as when a function that it calls is wrong too, is
tried once more alone. A search that only stopped at one of its limits says nothing of the wrong program: its function wants an answer.

    # LABEL in FUNCTION: what the paper says instead
    file: src/lib.rt
    old: a text of that file
    new: what stands there instead

Run: python3 tests/waves.py [CRATE..]    --self tries the test on made-up logs
"""

import collections
import pathlib
import re
import sys
import tempfile

import tries

ROOT = pathlib.Path(__file__).resolve().parent.parent
LABEL = re.compile(r"^# (?P<label>\w+) in (?P<function>\w+(?:::\w+)*): \S")
CLAUSE = re.compile(r"\s*(requires|ensures|decreases|invariant|ghost invariant)\b")
# What a refusal says when a fact fails: two terms differ, or a goal does not follow. A bound that was met before shows neither.
FACT = re.compile(
    r"the two (types|values) (first )?differ|but this has type|but the extension \(path\) type requires|`(omega|grind)[^`]*`: .*(does not follow|fails, at|cannot be (met|proved))"
    r"|`search`: no proof of .*Every way was tried|no proof of .* was found"
    r"|what it leaves must be a path whose two ends are equal",
    re.S,
)
# What it says when only the proof's own text no longer fits: a name, a field or a goal that is not there, other code than it walks, or
# a part that was refused elsewhere.
FORM = re.compile(r"was not admitted|has no (field )?`|is no name|`code\.function`\s*\(found\)|not in scope|unresolved|expected `[^`]*`, found|with lemmas still to try|gave up at one of its limits", re.S)
# What the check says of a goal that has no answer, or whose search found none; and of the function, after all of its goals.
OPEN = re.compile(r"note: \S+:\d+:\d+: it is not proved that .*?\(`(?P<goal>[^`\s]+)`\)(?P<more>.*)")
TOLD = re.compile(r"(fn|struct|enum|trait|impl|const) \S+: ")
# The values that the known facts allow, at which the goal is false.
FALSE = "allow values at which this goal is false"
LIMIT = "gave up at one of its limits"

Wrong = collections.namedtuple("Wrong", "label function pairs")


def read_edit(text):
    """The wrong programs of an edit, and what is amiss with its text."""
    wrongs, faults, file, old = [], [], None, None
    for line in text.splitlines():
        if line.startswith("#"):
            found = LABEL.match(line)
            if found:
                wrongs.append(Wrong(found["label"], found["function"], []))
            else:
                faults.append(f"'{line}' is not '# LABEL in FUNCTION: why'")
        elif line.startswith("file: "):
            file = line[len("file: "):]
        elif line.startswith("old: "):
            old = line[len("old: "):]
        elif line.startswith("new:"):
            pair = (file, old, line[len("new:"):].removeprefix(" "))
            if wrongs:
                wrongs[-1].pairs.append(pair)
            else:
                faults.append(f"'{old}' is replaced under no label")
    for wrong in wrongs:
        if not wrong.pairs:
            faults.append(f"{wrong.label} replaces nothing")
    for function, count in collections.Counter(wrong.function for wrong in wrongs).items():
        if count > 1:
            faults.append(f"{function} is changed by {count} labels at once")
    return wrongs, faults


def kind(wrong, crate):
    """What a wrong program changes: a definition or a constant, which other functions share, a promise, or its function's code."""
    kinds = set()
    for file, old, _ in wrong.pairs:
        if file.startswith("specs/"):
            kinds.add("definition")
        elif file.startswith("src/"):
            lines = (crate / file).read_text().splitlines() if (crate / file).exists() else []
            found = [line for line in lines if old in line] or [old]
            if any(re.match(r"\s*(pub )?const ", line) for line in found):
                kinds.add("constant")
            elif any(CLAUSE.match(line) for line in found):
                kinds.add("promise")
    return next((one for one in ("definition", "constant", "promise") if one in kinds), "program")


def mixed(wrongs, crate):
    """What must not stand beside other wrong programs: they would be refused for its sake."""
    kinds = [kind(wrong, crate) for wrong in wrongs]
    for shared in ("definition", "constant"):
        if shared in kinds and len(wrongs) > 1:
            yield f"a {shared} is changed beside other wrong programs"
    if "promise" in kinds and "program" in kinds:
        yield "a promise is changed beside wrong programs"


def errors(log):
    """Each error of a log with the lines that belong to it: (path from the crate's folder, text)."""
    at, lines = None, []
    for line in log.splitlines() + [""]:
        if at and line.startswith("  "):
            lines.append(line)
            continue
        if at:
            yield at, "\n".join(lines)
        found = re.match(r"(\S*?)((?:src|specs|proofs)/\S+?):\d+:\d+: error: (.*)", line)
        at, lines = (found[2], [found[3]]) if found else (None, [])


def is_fact(text):
    return bool(FACT.search(text)) and not FORM.search(text)


def open_goals(crate, function, log):
    """The goals of a function of which the check says that they are not proved, with what else it says of each."""
    goals = []
    for line in log.splitlines():
        found = OPEN.match(line)
        if found:
            goals.append((found["goal"], found["more"]))
        elif TOLD.match(line):
            if line.startswith(f"fn {crate}::{function}: no") and "`search` did not prove" in line:
                return goals
            goals = []
    return []


def refusals(crate, function, log):
    """What the check says of a function's own proof: (whether a fact fails, or only the form is amiss; its words)."""
    own = "proofs/" + "/".join(function.split("::")) + "/"
    errs = [text for path, text in errors(log) if path.startswith(own)]
    for text in errs:
        yield is_fact(text), text
    # What the check proves by itself: it says where the goal is false, or else that no search closes it, which says something where no
    # answer was lost and every way was tried.
    is_whole = not any(FORM.search(text) for text in errs)
    for goal, more in open_goals(crate, function, log):
        yield FALSE in more or is_whole and LIMIT not in more, f"`{goal}` is not proved{more}"


def faults_of(crate, wrong, log, changes):
    if changes == "definition":
        if not any(is_fact(text) for _, text in errors(log)) and FALSE not in log:
            yield f"{wrong.label} (a definition): the log has no fact that fails"
        return
    said = list(refusals(crate, wrong.function, log))
    if any(fact for fact, _ in said):
        return
    if not said:
        yield f"{wrong.label}: nothing is refused in {wrong.function}"
    else:
        shown = "; ".join(text.splitlines()[0][:160] for _, text in said[:3])
        yield f"{wrong.label}: no fact fails in {wrong.function}, only its form: {shown}"


def text_faults(edit):
    """The wrong programs of an edit, and what is amiss with its text."""
    wrongs, faults = read_edit(edit.read_text())
    faults += mixed(wrongs, edit.parent.parent)
    if not wrongs:
        faults.append("it has no wrong program")
    return wrongs, faults


def log_faults(crate, wrongs, folder, tried):
    """Each of these wrong programs, with what is amiss with what the prover said when they were tried together."""
    status, said = tried
    for wrong in wrongs:
        if status is None:
            yield wrong, f"{wrong.label}: not tried: {said}"
        elif not tries.is_refused(status, said):
            last = (said.rstrip("\n") or "nothing").rpartition("\n")[2]
            yield wrong, f"{wrong.label}: {'the crate is still proved' if status == 0 else f'no verdict, status {status}'}: {last[:160]}"
        else:
            for fault in faults_of(crate, wrong, said, kind(wrong, folder)):
                yield wrong, fault


def run(root, crates, logs):
    programs, others, waves, faults, alone = 0, [], {}, [], {}
    for edit in sorted(root.glob("crates/*/must-fail/*.edit")):
        if not crates or edit.parent.parent.name in crates:
            waves[edit], found = text_faults(edit)
            faults += [f"{edit.parent.parent.name}/{edit.stem}: {fault}" for fault in found]
    tried = logs({edit: [pair for wrong in wrongs for pair in wrong.pairs] for edit, wrongs in waves.items() if wrongs})
    for edit, wrongs in waves.items():
        crate, folder = edit.parent.parent.name, edit.parent.parent
        for wrong, fault in log_faults(crate, wrongs, folder, tried[edit]) if wrongs else ():
            alone[edit.with_name(f"{edit.stem}.{wrong.label}")] = edit, wrong, fault
    # one that its wave does not show is tried alone, where it stood beside others
    again = logs({place: wrong.pairs for place, (edit, wrong, _) in alone.items() if len(waves[edit]) > 1})
    for place, (edit, wrong, fault) in alone.items():
        crate, folder = edit.parent.parent.name, edit.parent.parent
        found = [fault for _, fault in log_faults(crate, [wrong], folder, again[place])] if place in again else [fault]
        faults += [f"{crate}/{edit.stem}: {fault}" for fault in found]
    for edit, wrongs in waves.items():
        for wrong in wrongs:
            changes = kind(wrong, edit.parent.parent)
            if changes in ("definition", "promise"):
                others.append(f"{edit.parent.parent.name}/{wrong.label} ({changes})")
            else:
                programs += 1
    labels = collections.Counter((edit.parent.parent.name, wrong.label) for edit in root.glob("crates/*/must-fail/*.edit") for wrong in read_edit(edit.read_text())[0])
    faults += [f"{crate}/{label} stands {count} times" for (crate, label), count in labels.items() if count > 1 and (not crates or crate in crates)]
    return programs, others, len(waves), len(again), faults


DIFFER = "`returns`: as printed, the two types differ only where one has `0` (expected) and the other has `1` (found)"
OPEN_GOAL = "note: src/lib.rt:9:1: it is not proved that what the function ensures holds when it returns (`returns`)"
NO_PROOF = "fn C::f: no proof: expected answers in ./proofs/f/Answers.antt; `search` did not prove `returns`"
LOST = "./proofs/f/Answers.antt:9:1: error: `before`: `goal.before`: module `Goals` has no `before` that can be named from here"
MADE_UP = [
    # (what the edit says, what the log says, words of the fault; none where all is well)
    ("# a in f: why\nfile: src/lib.rt\nold: x\nnew: y", f"./proofs/f/Answers.antt:9:1: error: {DIFFER}", None),
    ("# a in m::T::f: why\nfile: src/lib.rt\nold: x\nnew: y", f"./proofs/m/T/f/Answers.antt:9:1: error: {DIFFER}", None),
    ("# a in f: why\nfile: src/lib.rt\nold: x\nnew: y", "./proofs/f/Answers.antt:9:1: error: `returns`: `omega`: the goal does not follow from what it read", None),
    ("# a in f: why\nfile: src/lib.rt\nold: x\nnew: y", "./proofs/f/Answers.antt:9:1: error: `returns`: expected type `a ≤ b`\n  but this has type `a < b`", None),
    ("# a in f: why\nfile: src/lib.rt\nold: x\nnew: y", f"{OPEN_GOAL}; the facts known there {FALSE}\n{NO_PROOF}", None),
    ("# a in f: why\nfile: src/lib.rt\nold: x\nnew: y", f"{OPEN_GOAL}\n{NO_PROOF}", None),
    ("# a in f: why\nfile: src/lib.rt\nold: x\nnew: y", f"{OPEN_GOAL}; `search` {LIMIT}\n{NO_PROOF}", "no fact fails in f"),
    ("# a in f: why\nfile: src/lib.rt\nold: x\nnew: y", f"{LOST}\n{OPEN_GOAL}; `search` {LIMIT}\n{NO_PROOF}", "only its form"),
    ("# a in f: why\nfile: src/lib.rt\nold: x\nnew: y", f"{LOST}\n{OPEN_GOAL}\n{NO_PROOF}", "only its form"),
    ("# a in f: why\nfile: src/lib.rt\nold: x\nnew: y", f"{LOST}\n{OPEN_GOAL}; the facts known there {FALSE}\n{NO_PROOF}", None),
    ("# a in f: why\nfile: src/lib.rt\nold: x\nnew: y", f"{OPEN_GOAL}; the facts known there {FALSE}\nfn C::g: proved\n{NO_PROOF}", "nothing is refused in f"),
    ("# a in f: why\nfile: src/lib.rt\nold: x\nnew: y", f"{OPEN_GOAL}; the facts known there {FALSE}\n{NO_PROOF.replace('C::f', 'C::ff')}", "nothing is refused in f"),
    ("# a in f: why\nfile: specs/A.antt\nold: x\nnew: y", f"{OPEN_GOAL}; the facts known there {FALSE}\n{NO_PROOF}", None),
    ("# a in f: why\nfile: specs/A.antt\nold: x\nnew: y", f"./proofs/Laws.antt:9:1: error: {DIFFER}", None),
    ("# a in f: why\nfile: src/lib.rt\nold: x\nnew: y", f"./proofs/g/Answers.antt:9:1: error: {DIFFER}\nfn C::f: proved", "nothing is refused in f"),
    ("# a in f: why\nfile: src/lib.rt\nold: x\nnew: y", f"./proofs/ff/Answers.antt:9:1: error: {DIFFER}", "nothing is refused in f"),
    ("# a in f: why\nfile: src/lib.rt\nold: x\nnew: y", f"./proofs/m/f/Answers.antt:9:1: error: {DIFFER}", "nothing is refused in f"),
    ("# a in f: why\nfile: src/lib.rt\nold: x\nnew: y", "./proofs/f/Answers.antt:9:1: error: `f-spec`: `close` was not admitted (..), so this cannot be checked", "only its form"),
    ("# a in f: why\nfile: src/lib.rt\nold: x\nnew: y", "./proofs/f/Answers.antt:9:1: error: `add`: `tie.Need-add`: module `Tie` has no `Need-add` that can be named", "only its form"),
    ("# a in f: why\nfile: src/lib.rt\nold: x\nnew: y", "./proofs/f/Answers.antt:9:1: error: `returns`: record `Else`\n  has no field `divide`", "only its form"),
    ("# a in f: why\nfile: src/lib.rt\nold: x\nnew: y", "./proofs/f/Answers.antt:9:1: error: `g` is not in scope", "only its form"),
    ("# a in f: why\nfile: src/lib.rt\nold: x\nnew: y", "./proofs/f/Answers.antt:9:1: error: the two types differ only where one has `r`\n  and the other has `code.function` (found)", "only its form"),
    ("# a in f: why\nfile: src/lib.rt\nold: x\nnew: y", "./proofs/f/Answers.antt:9:1: error: `returns`: `search`: no proof of `a`\n  was found. Every way was tried: a deeper search would find nothing either", None),
    ("# a in f: why\nfile: src/lib.rt\nold: x\nnew: y", "./proofs/f/Answers.antt:9:1: error: `returns`: `search`: no proof of `a`\n  was found. It stopped 5 lemmas deep, with lemmas still to try", "no fact fails in f"),
    ("# a in f: why\nfile: src/lib.rt\nold: x\nnew: y", "./proofs/f/Answers.antt:9:1: error: `returns`: `cc` met a bound of its own before the equations had joined the two ends", "no fact fails in f"),
    ("# a in f: why\nfile: src/lib.rt\nold: x\nnew: y", "fn C::f: not proved; it calls `C::g`, which is not proved", "nothing is refused in f"),
    ("# a in f: why\nfile: specs/A.antt\nold: x\nnew: y", "./proofs/f/Answers.antt:9:1: error: `g` is not in scope", "no fact that fails"),
    ("# a in f: why\nfile: src/lib.rt\nold: absent\nnew: y", f"./proofs/f/Answers.antt:9:1: error: {DIFFER}", "'absent' stands in src/lib.rt 0 times"),
    ("# a in f: why\nfile: src/lib.rt\nold: ensures\nnew: y", f"./proofs/f/Answers.antt:9:1: error: {DIFFER}", "'ensures' stands in src/lib.rt 2 times"),
    ("# a in f: why\nfile: src/lib.rt\nold: x\nnew: y", None, "a: the crate is still proved"),
    ("# a in f: why\nfile: src/lib.rt\nold: x\nnew: y\n# b in g: why\nold: 9\nnew: y", f"./proofs/f/Answers.antt:9:1: error: {DIFFER}", "nothing is refused in g"),
    ("# a in f: why\nfile: src/lib.rt\nold: x\nnew: y\n# shown_alone in g: why\nold: 9\nnew: y", f"./proofs/f/Answers.antt:9:1: error: {DIFFER}", None),
    ("file: src/lib.rt\nold: x\nnew: y", f"./proofs/f/Answers.antt:9:1: error: {DIFFER}", "under no label"),
    ("# f is wrong\nfile: src/lib.rt\nold: x\nnew: y", f"./proofs/f/Answers.antt:9:1: error: {DIFFER}", "is not '# LABEL in FUNCTION: why'"),
    ("# a in f: why", f"./proofs/f/Answers.antt:9:1: error: {DIFFER}", "replaces nothing"),
    ("# a in f: why\nfile: src/lib.rt\nold: x\nnew: y\n# b in f: why\nold: x\nnew: y", f"./proofs/f/Answers.antt:9:1: error: {DIFFER}", "by 2 labels at once"),
    ("# a in f: why\nfile: specs/A.antt\nold: x\nnew: y\n# b in g: why\nfile: src/lib.rt\nold: x\nnew: y", f"./proofs/g/Answers.antt:9:1: error: {DIFFER}", "beside other wrong programs"),
    ("# a in f: why\nfile: src/lib.rt\nold: P\nnew: y\n# b in g: why\nold: Q\nnew: y", f"./proofs/f/Answers.antt:9:1: error: {DIFFER}\n./proofs/g/Answers.antt:9:1: error: {DIFFER}", None),
    ("# a in f: why\nfile: src/lib.rt\nold: P\nnew: y\n# b in g: why\nold: x\nnew: y", f"./proofs/f/Answers.antt:9:1: error: {DIFFER}\n./proofs/g/Answers.antt:9:1: error: {DIFFER}", "a promise is changed beside"),
    ("# a in f: why\nfile: src/lib.rt\nold: 16\nnew: y\n# b in g: why\nold: x\nnew: y", f"./proofs/f/Answers.antt:9:1: error: {DIFFER}\n./proofs/g/Answers.antt:9:1: error: {DIFFER}", "a constant is changed beside"),
    ("# a in f: why\nfile: src/lib.rt\nold: x\nnew: y\n# a in g: why\nold: x\nnew: y", f"./proofs/f/Answers.antt:9:1: error: {DIFFER}\n./proofs/g/Answers.antt:9:1: error: {DIFFER}", "stands 2 times"),
]


def made_up(log):
    """What the prover would say of made-up edits: the log, and of one that is tried alone what shows it."""

    def logs(edits):
        found = {}
        for edit, pairs in edits.items():
            why = tries.edited(edit.parent.parent, pairs)[1]
            shown = f"./proofs/g/Answers.antt:9:1: error: {DIFFER}" if edit.name.endswith(".shown_alone") else log
            found[edit] = (None, why) if why else (0, "logic=proved") if shown is None else (tries.REFUSED, f"{shown}\nlogic=not-proved\n")
        return found

    return logs


SOURCE = "    ensures { P }\n    ensures { Q }\nconst N: usize = 16;\nx\n9\n"


def misjudged():
    """The made-up cases that the test tells wrongly."""
    for number, (edit, log, words) in enumerate(MADE_UP, 1):
        with tempfile.TemporaryDirectory() as folder:
            root = pathlib.Path(folder)
            for name, text in (("must-fail/wave_1.edit", edit), ("src/lib.rt", SOURCE), ("specs/A.antt", "x\n")):
                place = root / "crates" / "C" / name
                place.parent.mkdir(parents=True, exist_ok=True)
                place.write_text(text)
            faults = run(root, [], made_up(log))[-1]
        if (words is None) == bool(faults) or (words and words not in "\n".join(faults)):
            yield f"made-up case {number}: {faults}"


def main():
    wrongly = list(misjudged())
    for case in wrongly:
        print(case)
    print(f"waves: {len(MADE_UP)} made-up logs, {len(wrongly)} told wrongly")
    if wrongly or sys.argv[1:] == ["--self"]:
        return 1 if wrongly else 0
    with tries.Tries(ROOT) as tried:
        programs, others, edits, alone, faults = run(ROOT, sys.argv[1:], tried.logs)
    for fault in faults:
        print(fault)
    if others:
        print("not programs: " + ", ".join(others))
    print(f"waves: {programs} wrong programs and {len(others)} wrong promises or definitions in {edits} edits, {alone} tried alone, {len(faults)} faults")
    return 1 if faults or not edits else 0


if __name__ == "__main__":
    sys.exit(main())
