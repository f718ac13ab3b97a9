"""The front end works out no figure: every product, quotient, sum of a list and float in its code is listed here, with
what it is for. A new one fails until somebody has looked at it."""

import ast

from harness import ROOT, Tally

OPERATORS = (ast.Mult, ast.Div, ast.FloorDiv, ast.Mod, ast.Pow)
CALLS = {"round", "float", "Decimal", "Fraction", "divmod", "sum", "pow", "ceil", "fsum", "mean"}
# (module, function): what it is for. What places marks and letters is free.
KNOWN = {
    ("book_faults", "of_commons"): "what waits beyond the reserves of a book that is not sound, for its words",
    ("book_faults", "of_figures"): "what reserves add up to that break the rule, for a refusal's words",
    ("build", ""): "paths",
    ("build", "is_current"): "paths",
    ("csv_lines", "named"): "paths",
    ("fields", ""): "what a place of 1, 2 or 4 bytes holds",
    ("moves", "moved"): "the length of the buffer that is lent",
    ("moves", "parts"): "records counted",
    ("moves", "read"): "how much of a file is read",
    ("page", "grid"): "widths of columns",
    ("rework", "rework"): "how many workers",
    ("rework", "summary"): "jobs counted",
    ("sheet", "column"): "a column's letters",
    ("sheet", "pointed"): "a power of ten inside a formula",
    ("singles", "number"): "a single's exact number",
    ("singles", "bits_of"): "a number's single",
    ("singles", "bits_in"): "a number's single",
    ("ticker", "bar"): "a bar's length",
}
GEOMETRY = {"plot", "plot_scale", "html_fit"}


def is_text(node):
    """A text or list that is repeated is no product."""
    return isinstance(node, (ast.List, ast.JoinedStr)) or isinstance(node, ast.Constant) and isinstance(node.value, str)


def is_sum(node):
    if isinstance(node, ast.BinOp) and isinstance(node.op, OPERATORS):
        return not is_text(node.left) and not is_text(node.right)
    if isinstance(node, ast.Call):
        name = getattr(node.func, "id", getattr(node.func, "attr", ""))
        return name in CALLS
    return False


def sums(tree, function=""):
    """The functions of a module in which something is worked out."""
    for node in ast.iter_child_nodes(tree):
        inside = node.name if isinstance(node, ast.FunctionDef) else function
        if is_sum(node):
            yield inside
        yield from sums(node, inside)


def test():
    tally = Tally("sums")
    found = set()
    for path in sorted((ROOT / "front").glob("*.py")):
        if path.stem not in GEOMETRY:
            found |= {(path.stem, function) for function in sums(ast.parse(path.read_text()))}
        lines = path.read_text().splitlines()
        tally.check(len(lines) <= 200, f"{path.name} is longer than 200 lines")
        tally.check(all(len(line) <= 120 for line in lines), f"{path.name} has a line beyond 120")
    for place in sorted(found | set(KNOWN)):
        tally.check(place in KNOWN, f"{'.'.join(place)} works something out")
        tally.check(place in found, f"{'.'.join(place)} works nothing out any more")
    return tally
