"""The C header against the Rattle source: nothing else sees that include/endakuro.h declares what crates/api_c exports, of the structs of
crates/api and crates/book.

Both are read as declarations: the fields of every struct in order, with their types, offsets and sizes as C lays them out, and the
parameters and results of every function.
"""

import re
from pathlib import Path

ROOT = Path(__file__).resolve().parents[1]
HEADER = ROOT / "include" / "endakuro.h"
SOURCES = [source for crate in ("api_c", "api", "book") for source in sorted((ROOT / "crates" / crate / "src").glob("*.rt"))]

NUMBERS = {
    "u8": ("uint8_t", 1),
    "u16": ("uint16_t", 2),
    "u32": ("uint32_t", 4),
    "u64": ("uint64_t", 8),
    "i16": ("int16_t", 2),
    "usize": ("size_t", 8),
    "f32": ("float", 4),
    "bool": ("bool", 1),
}
SIZES = dict(NUMBERS.values())

# The book's structs keep their own names in Rattle. Its logic takes fields of one word, and `record` is a word of its own there.
RENAMED = {"Book": "EndakuroBook", "Line": "EndakuroLine", "Figures": "EndakuroFigures"}
FIELDS = {"at": "record"}


def one_word(field):
    return FIELDS.get(field, field).replace("_", "")


def without_comments(text, comment):
    return re.sub(comment, "", text, flags=re.S)


def rattle_text():
    text = without_comments("\n".join(source.read_text() for source in SOURCES), r"//[^\n]*")
    width = re.search(r"const WIDTH: usize = (\d+);", text)
    return text.replace("Line::WIDTH", width[1])


def c_type(rattle):
    return NUMBERS[rattle][0] if rattle in NUMBERS else RENAMED.get(rattle, rattle)


def rattle_field(name, type_):
    array = re.fullmatch(r"\[(\w+); (\d+)\]", type_)
    return (c_type(array[1]), one_word(name), int(array[2])) if array else (c_type(type_), one_word(name), 1)


def rattle_structs():
    """Each exported struct: its fields as (type, name, count)."""
    found = {}
    for name, body in re.findall(r"#\[repr\(C\)\]\s*(?:#\[[^\]]*\]\s*)*pub struct (\w+) \{(.*?)\n\}", rattle_text(), re.S):
        fields = re.findall(r"pub (\w+): ([^,]+),", body)
        found[RENAMED.get(name, name)] = [rattle_field(*field) for field in fields]
    return found


def rattle_parameters(type_):
    lent = {"&[u8]": "const uint8_t *", "&mut [u8]": "uint8_t *"}
    if type_ in lent:
        return [lent[type_], "size_t"]
    if type_.startswith("&mut "):
        return [c_type(type_.removeprefix("&mut ")) + " *"]
    if type_.startswith("&"):
        return ["const " + c_type(type_.removeprefix("&")) + " *"]
    return [c_type(type_)]


def rattle_functions():
    """Each exported function: its result and its parameters' types."""
    found = {}
    for name, given, result in re.findall(r'pub extern "C" fn (\w+)\((.*?)\) -> (\w+)', rattle_text(), re.S):
        types = re.findall(r"\w+: ([^,]+)", given)
        found[name] = (c_type(result), [c for type_ in types for c in rattle_parameters(type_.strip())])
    return found


def header_text():
    return without_comments(HEADER.read_text(), r"/\*.*?\*/")


def header_structs():
    found = {}
    for name, body in re.findall(r"typedef struct (\w+) \{(.*?)\n\}", header_text(), re.S):
        fields = re.findall(r"(\w+) (\w+)(?:\[(\d+)\])?;", body)
        found[name] = [(type_, one_word(field), int(count or 1)) for type_, field, count in fields]
    return found


def header_functions():
    found = {}
    for result, name, given in re.findall(r"^(\w+) (endakuro_\w+)\((.*?)\);", header_text(), re.S | re.M):
        words = [" ".join(word.split()) for word in given.split(",")]
        found[name] = (result, [] if words == ["void"] else [re.sub(r"\w+$", "", word).strip() for word in words])
    return found


def layout(structs):
    """The offset of each field after the first, and each size, as C lays them out: the header's asserted numbers."""
    sizes, alignments, offsets = dict(SIZES), dict(SIZES), {}
    waiting = list(structs)
    while waiting:
        name = next(name for name in waiting if all(type_ in sizes for type_, _, _ in structs[name]))
        waiting.remove(name)
        end, widest = 0, 1
        for type_, field, count in structs[name]:
            end = -(-end // alignments[type_]) * alignments[type_]
            if end:
                offsets[name, field] = end
            end += sizes[type_] * count
            widest = max(widest, alignments[type_])
        sizes[name], alignments[name] = -(-end // widest) * widest, widest
    return offsets, {name: sizes[name] for name in structs}


def asserted():
    text = header_text()
    offsets = re.findall(r"^ENDAKURO_AT\((\w+), (\w+), (\d+)\)", text, re.M)
    sizes = re.findall(r"^ENDAKURO_SIZE\((Endakuro\w+), (\d+)\)", text, re.M)
    return {(type_, one_word(field)): int(at) for type_, field, at in offsets}, {type_: int(size) for type_, size in sizes}


def differing(what, ours, theirs):
    for name in sorted(ours.keys() | theirs.keys(), key=str):
        if ours.get(name) != theirs.get(name):
            yield f"{what} {name}: the crates have {ours.get(name)}, the header {theirs.get(name)}"


def faults():
    """Where the two differ, a line each."""
    yield from differing("struct", rattle_structs(), header_structs())
    yield from differing("function", rattle_functions(), header_functions())
    for what, ours, theirs in zip(("offset of", "size of"), layout(rattle_structs()), asserted()):
        yield from differing(what, ours, theirs)


def counts():
    offsets, sizes = asserted()
    return f"{len(header_functions())} functions, {len(sizes)} structs, {len(offsets)} offsets"
